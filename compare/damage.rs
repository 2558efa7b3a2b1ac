//! Damage: some histories, of which every byte of the journal, then every field of the handle, is given every other value,
//! one at a time; an applied record is looked at, then undo to the one end and redo to the other. Each answer and all that is
//! left must be document 01's, as journal.rs reads it, and the sheet stays well-formed. On a refusal nothing is written, which
//! the same comparison says.

use crate::draw::Draw;
use crate::histories::{any_push, applied, our_push, our_redo, our_undo};
use crate::journal::{self, Form, Handle, State, NOWHERE};
use crate::locks::any_edit_or_lock;
use crate::sheet::*;
use crate::sheets::Permitted;

#[derive(Default)]
struct Figures {
    changed: u64,
    calls: u64,
    refused: u64,
    done: u64,
    still: u64,
    differing: u64,
}

/// Compares one step, and answers whether it was done.
fn step(f: &mut Figures, st: &mut State, back: bool, what: &dyn Fn() -> String) -> bool {
    let n = st.sheet.w * st.sheet.h;
    let (no, expected) = if back {
        journal::undo(st)
    } else {
        journal::redo(st, n)
    };
    let ours = if back { our_undo(st) } else { our_redo(st, n) };
    f.calls += 1;
    match no {
        0 => f.done += 1,
        255 => f.still += 1,
        _ => f.refused += 1,
    }
    if ours != no || !st.same(&expected) || st.sheet.number(false) != 0 {
        f.differing += 1;
        if f.differing <= 5 {
            println!("damage, {}: expected {no}, ours {ours}", what());
        }
        *st = expected;
    }
    no == 0
}

/// One of the applied records, or one past them; then undo to the one end, and redo to the other.
fn both_ends(f: &mut Figures, st: &mut State, what: &dyn Fn() -> String) {
    let number = f.changed as usize % (st.handle.position.min(20) + 2);
    let [expected, ours] = applied(st, number);
    if expected != ours {
        f.differing += 1;
        println!("damage, applied {number}, {}", what());
    }
    f.changed += 1;
    while step(f, st, true, what) {}
    while step(f, st, false, what) {}
}

/// Values past every journal here, at which sums may wrap.
pub const WIDE: [usize; 9] = [
    1 << 16,
    1 << 32,
    (1 << 61) - 1,
    1 << 61,
    (1 << 61) + 1,
    1 << 63,
    NOWHERE - 8,
    NOWHERE - 1,
    NOWHERE,
];

/// A history of some pushes of every kind, which stands at its end; of locks, too, from any marks on, where they are asked
/// for.
pub fn history(form: Form, locks: bool, draw: &mut Draw) -> State {
    let k = draw.from(&[2, 3, 4, 4, 254]);
    let mut sheet = good(1 + draw.below(4), 1 + draw.below(3), k, draw);
    if locks {
        sheet.locks = any_locks(MARKS, draw);
    }
    let free = Permitted {
        limited: false,
        list: Vec::new(),
    };
    let mut st = State {
        sheet,
        form,
        journal: vec![0xee; 400],
        handle: Handle::FRESH,
    };
    let mut kinds = [0; 6];
    kinds[5] = usize::from(!locks);
    while st.handle.count < 6 || kinds[1..].contains(&0) {
        let (e, list) = if locks {
            any_edit_or_lock(&st.sheet, draw)
        } else {
            any_push(&st.sheet, &journal::document(&st.sheet), draw)
        };
        let n = st.sheet.w * st.sheet.h;
        match our_push(&mut st, &free, &e, &list, n) {
            0 => kinds[usize::from(e.bytes[0])] += 1,
            14 => break,
            _ => {}
        }
    }
    st.handle.saved = draw.from(&[0, 1, st.handle.count, NOWHERE]);
    st.journal.truncate(st.handle.end + 5);
    st
}

/// Prints the figures, and answers whether nothing differs.
pub fn run() -> bool {
    let mut same = true;
    for form in Form::BOTH {
        println!("\nDamage, {form:?}, no entry locked:");
        same &= histories(form, false, &mut Draw::new(10));
        println!("\nDamage, {form:?}, to journals that hold records of locks, from any marks on:");
        same &= histories(form, true, &mut Draw::new(46));
    }
    same
}

fn histories(form: Form, locks: bool, draw: &mut Draw) -> bool {
    let (mut bytes, mut fields) = (Figures::default(), Figures::default());
    let (mut histories, mut length, mut records) = (0, 0, 0);
    for _ in 0..16 {
        let st = history(form, locks, draw);
        histories += 1;
        length += st.journal.len();
        records += st.handle.count;
        let mut damaged = st.clone();
        for at in 0..st.journal.len() {
            for value in (0..=255).filter(|v| *v != st.journal[at]) {
                damaged.clone_from(&st);
                damaged.journal[at] = value;
                both_ends(&mut bytes, &mut damaged, &|| {
                    format!(
                        "byte {at} of {:x?} made {value:x}, {:?}",
                        st.journal, st.handle
                    )
                });
            }
        }
        // from the end, the middle and the start
        let mut at = st;
        loop {
            let numbers = at.handle.numbers();
            for field in 0..5 {
                for value in (0..at.journal.len() + 9).chain(WIDE) {
                    if value == numbers[field] {
                        continue;
                    }
                    let mut n = numbers;
                    n[field] = value;
                    let mut damaged = at.clone();
                    damaged.handle = Handle::of(n);
                    both_ends(&mut fields, &mut damaged, &|| {
                        format!("field {field} of {:?} made {value}", at.handle)
                    });
                }
            }
            if our_undo(&mut at) != 0 {
                break;
            }
        }
    }
    println!("{histories} histories, {records} records, {length} bytes of journal.");
    println!("| changed | how many | calls | 4 | a sound step | still | differing |");
    println!("|---|---|---|---|---|---|---|");
    for (name, f) in [
        ("a byte of the journal", &bytes),
        ("a field of the handle", &fields),
    ] {
        println!(
            "| {name} | {} | {} | {} | {} | {} | {} |",
            f.changed, f.calls, f.refused, f.done, f.still, f.differing
        );
    }
    bytes.differing + fields.differing == 0
}
