//! How often each call gave each answer, and which answers the rules give it.

use crate::calls::Answer;
use crate::geometry::{Edition, EDITIONS, SMALL};
use std::fmt;

/// Rows of the calls that only small pages have.
const CONTEXTS: std::ops::RangeInclusive<usize> = 13..=15;
/// Rows of the record's writer and reader, after those of format and the calls.
pub const WRITER: usize = 16;
pub const READER: usize = 17;
const MOST_REFUSAL: usize = 24;

/// Each row's name and refusals, in the order of their checks. All of them occur, and no other is ever given.
pub const ROWS: [(&str, &[u32]); 18] = [
    ("format", &[2]),
    ("createPartition", &[1, 3, 4, 7, 6, 13]),
    ("deletePartition", &[1, 3, 5]),
    ("addVAddr", &[1, 3, 6, 5, 7, 6, 8, 9]),
    ("removeVAddr", &[1, 3, 5, 8, 15, 7]),
    ("pageCount", &[1, 3, 5, 10]),
    ("prepare", &[1, 3, 5, 9, 10, 11, 7, 6]),
    ("collect", &[1, 3, 5, 8, 12]),
    ("mappedInChild", &[1, 3, 15, 16]),
    ("enter", &[1, 3, 5]),
    ("leave", &[1, 14]),
    ("load", &[1, 3, 15, 16, 6]),
    ("store", &[1, 3, 15, 16, 6]),
    ("notify", &[1, 24, 3, 5, 14, 20]),
    ("dispatch", &[1, 24, 3, 5, 14]),
    ("resume", &[1, 24, 3, 5, 14, 21, 20, 22]),
    ("record written", &[1, 17]),
    ("record read", &[17, 18]),
];

/// Counts by row and answer; ok stands in column 0.
#[derive(Clone, Default)]
pub struct Cover([[u64; MOST_REFUSAL + 1]; ROWS.len()]);

/// Whether the rules give this answer in this row, with pages of an edition. With large ones notify, dispatch and resume have 1 and 24 alone.
fn possible(row: usize, answer: usize, edition: Edition) -> bool {
    let listed = answer == 0 || ROWS[row].1.contains(&(answer as u32));
    let has_edition = !CONTEXTS.contains(&row) || answer == 1 || (answer == 24) == (edition != SMALL);
    listed && has_edition
}

/// The answers that some row has.
fn answers() -> impl Iterator<Item = usize> {
    let in_some = |answer: &usize| (0..ROWS.len()).any(|row| possible_in(&EDITIONS, row, *answer));
    (0..=MOST_REFUSAL).filter(in_some)
}

fn possible_in(editions: &[Edition], row: usize, answer: usize) -> bool {
    editions.iter().any(|&edition| possible(row, answer, edition))
}

impl Cover {
    pub fn count(&mut self, row: usize, answer: Answer) {
        self.0[row][answer.err().unwrap_or(0) as usize] += 1;
    }

    pub fn add(&mut self, other: &Cover) {
        for (own, other) in self.0.iter_mut().flatten().zip(other.0.iter().flatten()) {
            *own += other;
        }
    }

    /// All calls, the record's writer and reader left out.
    pub fn calls(&self) -> u64 {
        self.0[..WRITER].iter().flatten().sum()
    }

    /// The calls that passed.
    pub fn passed(&self) -> u64 {
        self.0[..WRITER].iter().map(|row| row[0]).sum()
    }

    /// Answers that are possible in one of these editions and were not met, as "call answer".
    pub fn missing(&self, editions: &[Edition]) -> Vec<String> {
        let all = (0..ROWS.len()).flat_map(|row| answers().map(move |answer| (row, answer)));
        all.filter(|&(row, answer)| possible_in(editions, row, answer) && self.0[row][answer] == 0)
            .map(|(row, answer)| format!("{} {}", ROWS[row].0, column(answer)))
            .collect()
    }

    /// The table; a dot stands where the rules have no such answer in these editions.
    pub fn table(&self, editions: &[Edition]) -> String {
        let mut table = format!("{:15}", "");
        answers().for_each(|answer| table += &format!("{:>7}", column(answer)));
        for (row, (name, _)) in ROWS.iter().enumerate() {
            table += &format!("\n{name:15}");
            for answer in answers() {
                table += &match self.0[row][answer] {
                    0 if !possible_in(editions, row, answer) => format!("{:>7}", "."),
                    count => format!("{count:>7}"),
                };
            }
        }
        table
    }
}

fn column(answer: usize) -> String {
    if answer == 0 {
        "ok".to_string()
    } else {
        format!("no {answer}")
    }
}

impl fmt::Display for Cover {
    fn fmt(&self, f: &mut fmt::Formatter) -> fmt::Result {
        f.write_str(&self.table(&EDITIONS))
    }
}
