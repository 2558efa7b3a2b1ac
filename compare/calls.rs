//! Ours: the crates of compare/archives.txt, as `rt lib` compiles them; compare/run and bench/run link them. A slice is
//! handed over as its pointer and its length.

/// Declares a C function and a safe function over slices. A pointer goes with its own slice's length, no two slices
/// overlap, and the functions called are proved to stay inside.
macro_rules! ours {
    ($($name:ident ($($args:tt)*) -> $ret:ty;)*) => { $(ours!(@ $name $ret [] [] [] $($args)*);)* };
    (@ $name:ident $ret:ty [$($e:tt)*] [$($p:tt)*] [$($c:tt)*] sheet, $($rest:tt)*) => {
        ours!(@ $name $ret [$($e)*] [$($p)*] [$($c)*]
            w: usize, h: usize, k: usize, palette: [u8], lab: [f64], indices: [i16], $($rest)*);
    };
    (@ $name:ident $ret:ty [$($e:tt)*] [$($p:tt)*] [$($c:tt)*] $x:ident: [$t:ty], $($rest:tt)*) => {
        ours!(@ $name $ret [$($e)* $x: *const $t, _: usize,] [$($p)* $x: &[$t],] [$($c)* $x.as_ptr(), $x.len(),] $($rest)*);
    };
    (@ $name:ident $ret:ty [$($e:tt)*] [$($p:tt)*] [$($c:tt)*] $x:ident: mut [$t:ty], $($rest:tt)*) => {
        ours!(@ $name $ret [$($e)* $x: *mut $t, _: usize,] [$($p)* $x: &mut [$t],] [$($c)* $x.as_mut_ptr(), $x.len(),] $($rest)*);
    };
    (@ $name:ident $ret:ty [$($e:tt)*] [$($p:tt)*] [$($c:tt)*] $x:ident: $t:ty, $($rest:tt)*) => {
        ours!(@ $name $ret [$($e)* $x: $t,] [$($p)* $x: $t,] [$($c)* $x,] $($rest)*);
    };
    (@ $name:ident $ret:ty [$($e:tt)*] [$($p:tt)*] [$($c:tt)*]) => {
        #[allow(clippy::too_many_arguments)]
        pub fn $name($($p)*) -> $ret {
            extern "C" {
                fn $name($($e)*) -> $ret;
            }
            unsafe { $name($($c)*) }
        }
    };
}

/// Numbers of an answer; which they are stands at each call in its crate.
pub type R<'a> = &'a mut [usize; 5];
pub type S<'a> = &'a [u16; 4];
/// The squared distance that is handed back with an entry.
pub type Away<'a> = &'a mut [f64; 1];
pub type State<'a> = &'a mut [usize; 6];

/// The tools of `call_draw`.
pub const PENCIL: u8 = 0;
pub const ERASER: u8 = 1;
pub const LINE: u8 = 2;
pub const RECTANGLE: u8 = 3;
pub const FLOOD_FILL: u8 = 4;
pub const REPLACE_COLOR: u8 = 5;
pub const FILL_GLOBAL: u8 = 6;

/// The questions of `call_asked`, and of `call_next`.
pub const IS_DIRTY: u8 = 0;
pub const CAN_UNDO: u8 = 1;
pub const CAN_REDO: u8 = 2;
pub const NEXT_UNDO: u8 = 0;
pub const NEXT_REDO: u8 = 1;
pub const APPLIED: u8 = 2;

ours! {
    call_check(sheet,) -> u8;
    call_permitted_no(limited: bool, permitted: [u8],) -> u8;
    call_any_stray_below(indices: [i16], k: i16,) -> bool;
    call_with_lab(sheet, locks: mut [bool],) -> u8;
    call_new(w: usize, h: usize, k: usize, palette: [u8], lab: mut [f64], indices: [i16], locks: mut [bool],) -> u8;
    call_get_at(sheet, x: i32, y: i32, got: &mut [i16; 1],) -> u8;
    call_counts(sheet, out: mut [u32], r: R,) -> u8;
    call_diff_mask(sheet, bw: usize, bh: usize, bk: usize, base: [u8], base_indices: [i16], mask: mut [u8], r: R,) -> u8;

    call_linear(c: u8,) -> f64;
    call_dist2(p: &[f64; 3], q: &[f64; 3],) -> f64;
    call_rgb8_to_lab(rgb: &[u8; 3], out: &mut [f64; 3],) -> ();
    call_cbrt(t: f64, out: &mut [f64; 3],) -> u8;
    call_nearest_index(target: &[f64; 3], lab: [f64], k: usize, r: R, away: Away,) -> u8;

    call_all(width: usize, height: usize, out: &mut [u16; 4],) -> u8;
    call_from_corners(ax: i32, ay: i32, bx: i32, by: i32, width: usize, height: usize, out: &mut [u16; 4],) -> u8;
    call_contains(s: S, x: usize, y: usize,) -> bool;
    call_contains_i(s: S, x: i32, y: i32,) -> u8;
    call_translated(s: S, dx: i32, dy: i32, width: usize, height: usize, out: &mut [u16; 4],) -> u8;
    call_grown(s: S, margin: usize, width: usize, height: usize, out: &mut [u16; 4],) -> u8;
    call_positions(s: S, out: mut [i32], r: R,) -> u8;
    call_region(whole: bool, s: S, width: usize, height: usize, out: &mut [u16; 4],) -> u8;

    call_bresenham(ax: i32, ay: i32, bx: i32, by: i32, out: mut [i32], r: R,) -> u8;
    call_normalize(list: [u64], scratch: mut [u64], out: mut [u64], r: R,) -> u8;
    call_pixels(tool: u8, list: [u64], scratch: mut [u64], out: mut [u64], bytes: &mut [u8; 8], doubles: &mut [f64; 3], r: R,) -> u8;
    call_is_empty(bytes: &[u8; 8], index: usize, doubles: &[f64; 3], list: [u64], r: R,) -> u8;
    call_kind(bytes: &[u8; 8], index: usize, doubles: &[f64; 3],) -> u8;
    call_extend(stroke: mut [u64], count: usize, list: [u64], scratch: mut [u64], r: R,) -> u8;
    call_stroke(tool: u8, stroke: mut [u64], count: usize, scratch: mut [u64], bytes: &mut [u8; 8], doubles: &mut [f64; 3], r: R,) -> u8;

    call_draw(sheet, tool: u8, whole: bool, s: S, points: [i32], size: usize, index: i16, from: i16, scratch: mut [u64], out: mut [u64], r: R,) -> u8;
    call_move_selection(sheet, s: S, dx: i32, dy: i32, scratch: mut [u64], out: mut [u64], moved: &mut [u16; 4], r: R,) -> u8;
    call_paste(sheet, clip_w: usize, clip_h: usize, clip: [i16], x: i32, y: i32, scratch: mut [u64], out: mut [u64], placed: &mut [u16; 4], r: R,) -> u8;
    call_copy(sheet, whole: bool, s: S, out: mut [i16], r: R,) -> u8;
    call_clip_rgba(sheet, clip_w: usize, clip_h: usize, clip: [i16], out: mut [u8], r: R,) -> u8;
    call_snap_rgba(sheet, loaded: bool, curve: [f64], rgba: [u8], image_w: usize, image_h: usize, out: mut [i16], r: R,) -> u8;
    call_eyedropper(sheet, x: i32, y: i32, got: &mut [i16; 1],) -> u8;

    call_flip(tile: [i16], t: usize, flip_h: bool, flip_v: bool, out: mut [i16], r: R,) -> u8;
    call_extract(sheet, t: usize, out: mut [i16], map: mut [u32], scratch: mut [u64], r: R,) -> u8;
    call_mirror_tiles(sheet, whole: bool, s: S, on: bool, t: usize, list: [u64], scratch: mut [u64], out: mut [u64], r: R,) -> u8;

    call_check_color(limited: bool, permitted: [u8], rgb: &[u8; 3],) -> u8;
    call_fixed_choices(sheet, limited: bool, permitted: [u8], used: mut [u8], r: R,) -> u8;
    call_set_color(sheet, locks: [bool], limited: bool, permitted: [u8], index: usize, rgb: &[u8; 3], bytes: &mut [u8; 8], doubles: &mut [f64; 3], r: R,) -> u8;
    call_add_color(sheet, limited: bool, permitted: [u8], rgb: &[u8; 3], bytes: &mut [u8; 8], doubles: &mut [f64; 3], r: R,) -> u8;
    call_nearest_other(sheet, index: usize, r: R, away: Away,) -> u8;
    call_remove_entry(sheet, locks: [bool], index: usize, list: mut [u64], bytes: &mut [u8; 8], doubles: &mut [f64; 3], r: R, away: Away,) -> u8;
    call_merge_entries(sheet, locks: [bool], from: usize, into: usize, list: mut [u64], bytes: &mut [u8; 8], doubles: &mut [f64; 3], r: R,) -> u8;

    call_fresh(state: State,) -> ();
    call_push(w: usize, h: usize, palette: mut [u8], lab: mut [f64], indices: mut [i16], locks: mut [bool], limited: bool, permitted: [u8], loaded: bool, curve: [f64], bytes: &[u8; 8], index: usize, doubles: &[f64; 3], list: [u64], form: u8, journal: mut [u8], scratch: mut [u8], state: State,) -> u8;
    call_undo(w: usize, h: usize, palette: mut [u8], lab: mut [f64], indices: mut [i16], locks: mut [bool], form: u8, journal: [u8], state: State,) -> u8;
    call_redo(w: usize, h: usize, palette: mut [u8], lab: mut [f64], indices: mut [i16], locks: mut [bool], loaded: bool, curve: [f64], form: u8, journal: [u8], scratch: mut [u8], state: State,) -> u8;
    call_mark_saved(form: u8, journal: [u8], state: State,) -> u8;
    call_asked(question: u8, form: u8, journal: [u8], state: &[usize; 6], r: R,) -> u8;
    call_next(question: u8, form: u8, journal: [u8], state: &[usize; 6], number: usize, bytes: &mut [u8; 8], doubles: &mut [f64; 3], r: R,) -> u8;
    call_replay(w: usize, h: usize, palette: mut [u8], lab: mut [f64], indices: mut [i16], locks: mut [bool], limited: bool, permitted: [u8], loaded: bool, curve: [f64], bytes: &[u8; 8], index: usize, doubles: &[f64; 3], list: [u64], scratch: mut [u8], state: State,) -> u8;

    call_load_curve(w: usize, h: usize, palette: [u8], lab: mut [f64], indices: [i16], form: u8, journal: [u8], state: &[usize; 6], curve: [f64],) -> u8;
    call_rgb8_to_lab_by(loaded: bool, curve: [f64], rgb: &[u8; 3], out: &mut [f64; 3],) -> u8;

    call_convert(w: usize, h: usize, from: u8, journal: [u8], out: mut [u8], state: State,) -> u8;
    call_journal_need(
        sheet, locks: [bool], text: [u8],
        work_w: usize, work_h: usize, work_palette: mut [u8], work_lab: mut [f64], work_indices: mut [i16], work_locks: mut [bool],
        form: u8, journal: mut [u8], list: mut [u64], scratch: mut [u8], r: &mut [usize; 2],
    ) -> u8;

    call_join(sheet, locks: [bool], w2: usize, h2: usize, k2: usize, palette2: [u8], lab2: [f64], indices2: [i16], locks2: [bool], to_w: usize, to_h: usize, to_palette: mut [u8], to_lab: mut [f64], to_indices: mut [i16], to_locks: mut [bool], to_w2: usize, to_h2: usize, to_palette2: mut [u8], to_lab2: mut [f64], to_indices2: mut [i16], to_locks2: mut [bool], state: State, state2: State,) -> u8;

    wh_push_pixels(sheet: mut [u8], journal: mut [u8], handle: mut [u8], tool: u8, list: [u8],) -> u8;
    wh_push_set(sheet: mut [u8], journal: mut [u8], handle: mut [u8], index: usize, r: u8, g: u8, b: u8,) -> u8;
    wh_push_add(sheet: mut [u8], journal: mut [u8], handle: mut [u8], r: u8, g: u8, b: u8,) -> u8;
    wh_push_remove(sheet: mut [u8], journal: mut [u8], handle: mut [u8], index: usize, list: [u8],) -> u8;
    wh_push_lock(sheet: mut [u8], journal: mut [u8], handle: mut [u8], index: usize, mark: u8,) -> u8;
    wh_undo(sheet: mut [u8], journal: [u8], handle: mut [u8],) -> u8;
    wh_redo(sheet: mut [u8], journal: [u8], handle: mut [u8],) -> u8;
    wh_mark(sheet: [u8], journal: [u8], handle: mut [u8],) -> u8;

    call_flatten(sizes: [usize], palettes: [u8], labs: [f64], indices: [i16], out: mut [u8], r: R,) -> u8;
    call_repaint(sizes: [usize], palettes: [u8], labs: [f64], indices: [i16], edited: usize, w: usize, h: usize, k: usize, palette: [u8], lab: [f64], earlier: [i16], out: mut [u8], r: R,) -> u8;
}
