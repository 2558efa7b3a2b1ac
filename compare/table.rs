//! What was compared, call by call.

use crate::journal::Form;
use std::collections::BTreeMap;

#[derive(Default)]
struct Row {
    compared: u64,
    refused: BTreeMap<u64, u64>,
    differing: u64,
}

#[derive(Default)]
pub struct Table {
    /// The form of the histories that are compared; each has its own rows.
    pub form: Form,
    rows: Vec<((&'static str, Form), Row)>,
}

/// Differences shown of a call.
const SHOWN: u64 = 5;

impl Table {
    fn row(&mut self, name: &'static str) -> &mut Row {
        let key = (name, self.form);
        let at = self.rows.iter().position(|(k, _)| *k == key);
        let at = at.unwrap_or_else(|| {
            self.rows.push((key, Row::default()));
            self.rows.len() - 1
        });
        &mut self.rows[at].1
    }

    /// Counts a call. Its answer is a list of words: document 01's number (0 an answer, 255 "still", nothing or
    /// outside), then whatever it answers and leaves.
    pub fn tell(
        &mut self,
        name: &'static str,
        expected: &[u64],
        ours: &[u64],
        what: impl FnOnce() -> String,
    ) {
        let form = self.form;
        let row = self.row(name);
        row.compared += 1;
        if expected[0] != 0 && expected[0] != 255 {
            *row.refused.entry(expected[0]).or_default() += 1;
        }
        if expected != ours {
            row.differing += 1;
            if row.differing <= SHOWN {
                let at = expected.iter().zip(ours).position(|(a, b)| a != b);
                println!("{name}, {form:?}: {}", what());
                println!(
                    "  expected number {}, ours {}; first other word {at:?} of {}",
                    expected[0],
                    ours[0],
                    expected.len()
                );
                if let Some(at) = at {
                    println!(
                        "  expected {:x?}",
                        &expected[at..expected.len().min(at + 6)]
                    );
                    println!("  ours     {:x?}", &ours[at..ours.len().min(at + 6)]);
                }
            }
        }
    }

    /// Prints the rows, and answers whether nothing differs.
    pub fn print(&self) -> bool {
        println!("| call | compared | refused, by number | differing |");
        println!("|---|---|---|---|");
        let (mut compared, mut refused, mut differing) = (0, 0, 0);
        for ((name, form), row) in &self.rows {
            let form = match form {
                Form::Coordinates => "",
                Form::Places => ", in places",
            };
            let by: Vec<String> = row
                .refused
                .iter()
                .map(|(no, n)| format!("{no}: {n}"))
                .collect();
            println!(
                "| `{name}{form}` | {} | {} | {} |",
                row.compared,
                by.join(", "),
                row.differing
            );
            compared += row.compared;
            refused += row.refused.values().sum::<u64>();
            differing += row.differing;
        }
        println!("| in all | {compared} | {refused} | {differing} |");
        differing == 0
    }
}
