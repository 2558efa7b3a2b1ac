//! Locked entries: document 02, E5, read from its text. The Rust has no locks, so sessions with lock pushes are held to
//! journal.rs's own reading of what a call answers and leaves, and to the ledger of whole pictures, which is fed the calls
//! alone and whose pictures include the marks. What set, add, remove and pixels do but for the marks is the Rust's.

use crate::draw::Draw;
use crate::histories::*;
use crate::inputs::{any_edit, tell};
use crate::journal::{self, Handle, State, NOWHERE};
use crate::sheet::*;
use crate::sheets::{self, Permitted};
use crate::table::Table;
use pixelforge::editor::History;

/// A lock or an unlock, the caller's old mark any.
pub fn any_lock(k: usize, draw: &mut Draw) -> Flat {
    let mut e = any_edit(k, draw);
    e.bytes[0] = 5;
    (e.bytes[2], e.bytes[5]) = (draw.below(2) as u8, draw.below(2) as u8);
    e
}

/// An edit of any kind with its list; a lock may have one, too.
pub fn any_edit_or_lock(s: &Sheet, draw: &mut Draw) -> (Flat, Vec<u64>) {
    if draw.once_in(3) {
        let n = draw.from(&[0, 0, 0, 1, 3]);
        return (any_lock(s.k, draw), any_changes(s, n, draw));
    }
    any_push(s, &journal::document(s), draw)
}

/// What is asked of a history whose records are known.
fn questions(t: &mut Table, st: &State, records: &[Vec<u8>], draw: &mut Draw) {
    let about = || format!("{:?} in {}", st.handle, st.journal.len());
    let h = st.handle;
    let (back, forth) = (next_undo(st), next_redo(st));
    for (pair, record) in [
        (&back, h.position.checked_sub(1).map(|i| &records[i])),
        (&forth, records.get(h.position)),
    ] {
        match record {
            None => assert_eq!(pair[0][0], 255),
            Some(record) => {
                let at = pair[0][2] as usize;
                assert!(
                    st.journal[at..at + record.len()] == record[..],
                    "not the record of the edit"
                );
            }
        }
    }
    tell!(t, "next_undo, with locks", back, "{}", about());
    tell!(t, "next_redo, with locks", forth, "{}", about());
    let number = draw.below(h.position + 2);
    tell!(
        t,
        "applied, with locks",
        applied(st, number),
        "{}, {number}",
        about()
    );
}

/// One history from any marks on, call by call.
fn session(t: &mut Table, draw: &mut Draw) {
    let form = t.form;
    let k = draw.from(&[0, 1, 1, 2, 2, 3, 4, 5, 253, 254, 255]);
    let mut sheet = good(draw.below(5), draw.below(5), k, draw);
    sheet.locks = any_locks(MARKS, draw);
    let room = draw.from(&[0, 7, 8, 9, 16, 24, 60, 120, 300, 300, 700]);
    let mut st = State {
        journal: (0..room).map(|_| draw.next() as u8).collect(),
        handle: Handle::FRESH,
        sheet,
        form,
    };
    let mut ledger = Ledger::open(&st.sheet);
    let mut records: Vec<Vec<u8>> = Vec::new();
    for _ in 0..4 + draw.below(30) {
        let n = st.sheet.w * st.sheet.h;
        let scratch = if draw.once_in(25) {
            n.saturating_sub(1)
        } else {
            n + draw.below(2)
        };
        let before = st.clone();
        let about = |what: &str| {
            format!(
                "{what} on {} with {:?} in {}",
                before.sheet.about(),
                before.handle,
                before.journal.len()
            )
        };
        match draw.below(10) {
            0..=5 => {
                let p = any_permitted(&st.sheet, draw);
                let (e, list) = any_edit_or_lock(&st.sheet, draw);
                let edit = e.edit(&list);
                let doc = journal::document(&st.sheet);
                let (no, after, _) = push(&st, (&History::new(), &doc), &p, &e, &list, scratch);
                let ours = our_push(&mut st, &p, &e, &list, scratch);
                let name = match edit {
                    Edit::Lock { .. } => "push of a lock",
                    Edit::Op(_) => "push, with locks",
                };
                t.tell(name, &told(no, &after), &told(ours, &st), || {
                    about(&format!("{e:?} {list:x?} {p:?} {scratch}"))
                });
                // calls answered "journal full" are struck
                if no != 14 && no != 16 {
                    let answer = ledger.push(&p, &edit);
                    assert_eq!(
                        answer,
                        no,
                        "the ledger's answer: {}",
                        about(&format!("{e:?}"))
                    );
                }
                if no == 0 {
                    let (h, at) = (st.handle, before.handle.offset);
                    records.truncate(h.position - 1);
                    records.push(st.journal[at..h.offset].to_vec());
                    if let Edit::Lock { index, new, .. } = edit {
                        let old = before.sheet.locks[index];
                        let bytes = [5, index as u8, old.into(), new.into(), 8, 0, 0, 0];
                        assert!(st.journal[at..h.offset] == bytes, "the record of a lock");
                    }
                }
            }
            6 | 7 => {
                let (no, after) = journal::undo(&st);
                let ours = our_undo(&mut st);
                t.tell(
                    "undo, with locks",
                    &told(no, &after),
                    &told(ours, &st),
                    || about("undo"),
                );
                assert_eq!(ledger.undo(), no, "the ledger's undo");
            }
            8 => {
                let (no, after) = journal::redo(&st, scratch);
                let ours = our_redo(&mut st, scratch);
                t.tell(
                    "redo, with locks",
                    &told(no, &after),
                    &told(ours, &st),
                    || about("redo"),
                );
                if no != 16 {
                    assert_eq!(ledger.redo(), no, "the ledger's redo");
                }
            }
            _ => {
                let [expected, ours] = mark_saved(&st);
                t.tell("mark_saved, with locks", &expected, &ours, || about("mark"));
                st.handle.saved = ours[5] as usize;
                ledger.mark();
            }
        }
        assert!(ledger.agrees(&st), "the ledger: {}", about("after a call"));
        questions(t, &st, &records, draw);
        // any edit replayed, a lock's old mark any
        let p = any_permitted(&st.sheet, draw);
        let (e, list) = any_edit_or_lock(&st.sheet, draw);
        tell!(
            t,
            "replay, with locks",
            replay(&st.sheet, &p, &e, &list, scratch),
            "{}",
            about(&format!("{e:?} {list:x?} {p:?}"))
        );
    }
}

/// A record of eight bytes: a lock, some with a mark that is none, some of another kind.
fn any_record(k: usize, draw: &mut Draw) -> [u8; 8] {
    let mark = |draw: &mut Draw| match draw.below(8) {
        0 => draw.from(&[2, 3, 128, 255]),
        _ => draw.below(2) as u8,
    };
    let index = draw.from(&[0, 0, 1, 2, k.wrapping_sub(1) as u8, k as u8, 255]);
    match draw.below(8) {
        0 => [3, index, 1, 2, 8, 0, 0, 0],
        1 => [
            5,
            index,
            0,
            1,
            draw.from(&[7, 9, 8]),
            draw.below(2) as u8,
            0,
            0,
        ],
        _ => [5, index, mark(draw), mark(draw), 8, 0, 0, 0],
    }
}

/// Undo, redo, replay, push and what is asked of a history, on any sheets with any marks and any lock records.
fn any_state(t: &mut Table, draw: &mut Draw) {
    let form = t.form;
    let sheet = any(draw).with_any_locks(draw);
    let k = sheet.k;
    let mut journal = [any_record(k, draw), any_record(k, draw)].concat();
    journal.extend([0; 4]);
    let handles = [
        [8, 8, 1, 1, 0],
        [8, 16, 1, 2, NOWHERE],
        [0, 16, 0, 2, 2],
        [16, 16, 2, 2, 1],
        [8, 8, 1, 1, 2],
        [0, 0, 0, 0, 0],
    ];
    let handle = Handle::of(draw.from(&handles));
    let st = State {
        sheet,
        form,
        journal,
        handle,
    };
    let scratch = draw.room(st.sheet.w * st.sheet.h);
    let about = || {
        format!(
            "{} with {:?} in {:x?}, scratch {scratch}",
            st.sheet.about(),
            st.handle,
            st.journal
        )
    };
    let mut after = st.clone();
    let (no, expected) = journal::undo(&st);
    let ours = our_undo(&mut after);
    t.tell(
        "undo of any lock",
        &told(no, &expected),
        &told(ours, &after),
        about,
    );
    let mut after = st.clone();
    let (no, expected) = journal::redo(&st, scratch);
    let ours = our_redo(&mut after, scratch);
    t.tell(
        "redo of any lock",
        &told(no, &expected),
        &told(ours, &after),
        about,
    );
    tell!(t, "next_undo, with locks", next_undo(&st), "{}", about());
    tell!(t, "next_redo, with locks", next_redo(&st), "{}", about());
    let number = draw.below(3);
    tell!(
        t,
        "applied, with locks",
        applied(&st, number),
        "{}, {number}",
        about()
    );
    let p = any_permitted(&st.sheet, draw);
    let e = if draw.once_in(2) {
        any_lock(k, draw)
    } else {
        any_edit(k, draw)
    };
    let count = draw.below(3);
    let list = any_changes(&st.sheet, count, draw);
    tell!(
        t,
        "replay, with locks",
        replay(&st.sheet, &p, &e, &list, scratch),
        "{} {e:?} {list:x?} {p:?}",
        about()
    );
    let doc = if push_entry(&st, &p) == 0 {
        journal::document(&st.sheet)
    } else {
        journal::document(&good(1, 1, 1, draw))
    };
    let (no, expected, _) = push(&st, (&History::new(), &doc), &p, &e, &list, scratch);
    let mut after = st.clone();
    let ours = our_push(&mut after, &p, &e, &list, scratch);
    t.tell(
        "push, with locks",
        &told(no, &expected),
        &told(ours, &after),
        || format!("{} {e:?} {list:x?} {p:?}", about()),
    );
}

/// The calls that look at marks or write them and are no history's, and `nearest_other`, which does not look.
fn any_sheet(t: &mut Table, draw: &mut Draw) {
    let sheet = any(draw).with_any_locks(draw);
    let (k, n) = (sheet.k, sheet.indices.len());
    let c = &Case::new(sheet);
    let about = || c.sheet.about();
    let index = |draw: &mut Draw| match draw.below(12) {
        0 => draw.from(&[255, 256, usize::MAX]),
        _ => draw.below(k + 1),
    };
    let (from, into) = (index(draw), index(draw));
    let p = any_permitted(&c.sheet, draw);
    let rgb = draw.rgb();
    let out = draw.room(n);
    tell!(
        t,
        "with_lab, with locks",
        sheets::with_lab(c),
        "{}",
        about()
    );
    tell!(t, "new, with locks", sheets::new_sheet(c), "{}", about());
    tell!(
        t,
        "set_color, with locks",
        sheets::set_color(c, &p, from, rgb),
        "{} {from} {p:?}",
        about()
    );
    tell!(
        t,
        "remove_entry, with locks",
        sheets::remove_entry(c, from, out),
        "{} {from} {out}",
        about()
    );
    tell!(
        t,
        "merge_entries, with locks",
        sheets::merge_entries(c, from, into, out),
        "{} {from} {into} {out}",
        about()
    );
    tell!(
        t,
        "nearest_other, with locks",
        sheets::nearest_other(c, from),
        "{} {from}",
        about()
    );
    let e = any_lock(k, draw);
    tell!(t, "kind of a lock", sheets::kind(&e), "{e:?}");
    let list = vec![WORD; draw.below(2)];
    tell!(
        t,
        "is_empty of a lock",
        sheets::is_empty(&e, &list),
        "{e:?}"
    );
}

/// The smallest inputs of document 02's sentences: every sheet of one pixel or none with 0 to 2 entries, all marks, and of
/// each every lock pushed, undone, redone and replayed, and every pair of marks recorded that a byte about 0 and 1 can be.
fn tiny_locks(t: &mut Table) {
    let form = t.form;
    let free = Permitted {
        limited: false,
        list: Vec::new(),
    };
    for s in tiny().into_iter().filter(|s| s.w * s.h < 2) {
        for marks in 0..8 {
            let mut s = s.clone();
            (0..3).for_each(|i| s.locks[i] = marks >> i & 1 == 1);
            for n in 0..12 {
                let (index, old, new) = (n / 4, (n / 2 % 2) as u8, (n % 2) as u8);
                let e = Flat {
                    bytes: [5, 0, old, 0, 0, new, 0, 0],
                    index,
                    lab: [0.0; 3],
                };
                let about = || format!("{e:?} on {}", s.about());
                tell!(
                    t,
                    "replay, with locks",
                    replay(&s, &free, &e, &[], 1),
                    "{}",
                    about()
                );
                for room in [7, 8] {
                    let mut st = State {
                        sheet: s.clone(),
                        form,
                        journal: vec![BYTE; room],
                        handle: Handle::FRESH,
                    };
                    let doc = journal::document(&s);
                    let (no, after, _) = push(&st, (&History::new(), &doc), &free, &e, &[], 1);
                    let ours = our_push(&mut st, &free, &e, &[], 1);
                    t.tell("push of a lock", &told(no, &after), &told(ours, &st), about);
                }
            }
            for n in 0..4 * 16 {
                let journal = vec![5, n >> 4, n >> 2 & 3, n & 3, 8, 0, 0, 0];
                for position in [1, 0] {
                    let handle = Handle::of([8 * position, 8, position, 1, 0]);
                    let mut st = State {
                        sheet: s.clone(),
                        form,
                        journal: journal.clone(),
                        handle,
                    };
                    let about = || format!("{journal:x?} at {position} on {}", s.about());
                    if position == 1 {
                        tell!(t, "next_undo, with locks", next_undo(&st), "{}", about());
                        tell!(t, "applied, with locks", applied(&st, 0), "{}", about());
                        let (no, after) = journal::undo(&st);
                        let ours = our_undo(&mut st);
                        t.tell(
                            "undo of any lock",
                            &told(no, &after),
                            &told(ours, &st),
                            about,
                        );
                    } else {
                        tell!(t, "next_redo, with locks", next_redo(&st), "{}", about());
                        let (no, after) = journal::redo(&st, 1);
                        let ours = our_redo(&mut st, 1);
                        t.tell(
                            "redo of any lock",
                            &told(no, &after),
                            &told(ours, &st),
                            about,
                        );
                    }
                }
            }
        }
    }
}

pub fn run(t: &mut Table) {
    let mut draw = histories(t);
    for _ in 0..15_000 {
        any_sheet(t, &mut draw);
    }
}

/// The calls of a history, in the table's form; what is drawn next comes back.
pub fn histories(t: &mut Table) -> Draw {
    let mut draw = Draw::new(45);
    tiny_locks(t);
    for _ in 0..6_000 {
        session(t, &mut draw);
    }
    for _ in 0..20_000 {
        any_state(t, &mut draw);
    }
    draw
}
