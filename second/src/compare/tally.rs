//! How often each answer of each call was seen, and each case of `cases.rs`; and which of document
//! 01's answers and of these cases never was.

use super::cases::{Met, CASES, FEED_CASES};
use crate::calls::Calls;
use crate::feed::INPUT;
use crate::make::pieces;
use crate::packet::{unhex, Header, HEADER};
use std::collections::BTreeMap;

/// Every answer that document 01 lists for a call, and those that `feed` can show: its server is
/// fresh, has a whole storage, and its owner never reads, closes or sends.
const LISTED: [(&str, &[&str]); 8] = [
    ("start", &["0"]),
    ("open", &["0", "1", "2", "3", "9", "12"]),
    ("send", &["0", "1", "4", "5", "6", "7", "9", "12"]),
    ("read", &["0", "1", "4", "5", "8", "9", "11", "12"]),
    ("close", &["0", "1", "4", "5", "9", "12"]),
    ("shutdown", &["0", "1", "12"]),
    (
        "take",
        &[
            "0", "1", "9", "10", "12", "20", "21", "22", "23", "24", "25", "26", "27", "28", "29",
            "30",
        ],
    ),
    ("feed", &["0", "1", "10", "20", "21", "22", "23", "25", "26", "27", "28", "29", "30", "bad"]),
];

/// The columns: document 01's numbers, and `bad`.
const COLUMNS: [&str; 25] = [
    "0", "1", "2", "3", "4", "5", "6", "7", "8", "9", "10", "11", "12", "20", "21", "22", "23",
    "24", "25", "26", "27", "28", "29", "30", "bad",
];

const OTHER_LINES: [&str; 5] = ["lend", "record", "end", "show", "peek"];

/// Under this word, which is no call, stand the cases.
const CASE: &str = "case";

/// The names of all cases.
fn cases() -> impl Iterator<Item = &'static str> {
    CASES.iter().map(|(name, _)| *name).chain(FEED_CASES.iter().map(|(name, _)| *name))
}

/// The header that a word or a line of digits begins with.
fn header_of(digits: &[u8]) -> Option<Header> {
    Header::read(&unhex(digits.get(..2 * HEADER)?)?)
}

#[derive(Default)]
pub struct Tally {
    seen: BTreeMap<(String, String), usize>,
    pub lines: usize,
}

impl Tally {
    fn add(&mut self, call: &str, answer: &str) {
        *self.seen.entry((call.to_string(), answer.to_string())).or_default() += 1;
    }

    /// Gives an input's lines to a `calls`, and counts its answers and the cases met.
    pub fn add_calls(&mut self, lines: &[Vec<u8>]) {
        let mut calls = Calls::new();
        for line in lines {
            let line = line.strip_suffix(b"\n").unwrap_or(line);
            let text = String::from_utf8_lossy(line);
            let words: Vec<&str> = text.split(' ').collect();
            let header = match words[..] {
                ["take", bytes] => header_of(bytes.as_bytes()),
                _ => None,
            };
            let named = match header {
                Some(header) => Some(header.sid),
                None => words.get(1).and_then(|word| word.parse().ok()),
            };
            let slot =
                named.and_then(|sid| calls.end.find(sid)).map(|i| calls.end.slots[i].clone());
            let answer = calls.answer(line);
            let answer = answer.split(' ').collect();
            self.lines += 1;
            let slot = slot.unwrap_or_default();
            self.add_line(&Met { words, answer, header, slot, end: &calls.end });
        }
    }

    fn add_line(&mut self, met: &Met) {
        let (call, first) = (met.words[0], met.answer[0]);
        let is_call = LISTED.iter().any(|(listed, _)| *listed == call && call != "feed");
        let is_other = OTHER_LINES.contains(&call);
        match (is_call, is_other, first) {
            (true, _, _) => self.add(call, first),
            (_, true, "bad") => self.add(call, "bad"),
            (_, true, _) => self.add(call, "done"),
            _ => self.add("any other line", first),
        }
        for (name, _) in CASES.iter().filter(|(_, is)| is(met)) {
            self.add(CASE, name);
        }
    }

    /// Adds all that another tally has counted.
    pub fn join(&mut self, other: Tally) {
        self.lines += other.lines;
        for (what, count) in other.seen {
            *self.seen.entry(what).or_default() += count;
        }
    }

    /// Counts the answers in a report of `feed` on a capture, and the cases met.
    pub fn add_feed(&mut self, capture: &[u8], report: &[u8]) {
        let report = String::from_utf8_lossy(report);
        let told = report.lines().filter(|line| !line.starts_with("end"));
        let read = &capture[..capture.len().min(INPUT)];
        for (frame, line) in pieces(read).iter().zip(told) {
            let answer = line.split(' ').nth(1).unwrap_or("");
            self.add("feed", answer);
            let Some(header) = header_of(frame.strip_suffix(b"\n").unwrap_or(frame)) else {
                continue;
            };
            for (name, _) in FEED_CASES.iter().filter(|(_, is)| is(&header, answer)) {
                self.add(CASE, name);
            }
        }
    }

    fn count(&self, call: &str, answer: &str) -> usize {
        self.seen.get(&(call.to_string(), answer.to_string())).copied().unwrap_or(0)
    }

    /// The answers and cases that are listed and never came.
    pub fn never_seen(&self) -> Vec<String> {
        let mut never = Vec::new();
        for (call, answers) in LISTED {
            for answer in answers.iter().filter(|answer| self.count(call, answer) == 0) {
                never.push(format!("{call} {answer}"));
            }
        }
        never.extend(cases().filter(|name| self.count(CASE, name) == 0).map(str::to_string));
        never
    }

    /// A Markdown table with a row for each call and for `feed`.
    pub fn table(&self) -> String {
        let mut rows = vec![vec!["Call".to_string()]];
        rows[0].extend(COLUMNS.map(str::to_string));
        let names = LISTED.iter().map(|(call, _)| *call).chain(["any other line"]);
        for name in names {
            let mut row = vec![name.to_string()];
            row.extend(COLUMNS.map(|answer| match self.count(name, answer) {
                0 => String::new(),
                count => count.to_string(),
            }));
            rows.push(row);
        }
        let width = |column: usize| rows.iter().map(|row| row[column].len()).max().unwrap_or(0);
        let widths: Vec<usize> = (0..rows[0].len()).map(width).collect();
        let mut text = String::new();
        for (i, row) in rows.iter().enumerate() {
            for (cell, width) in row.iter().zip(&widths) {
                text += &format!("| {cell:>width$} ");
            }
            text += "|\n";
            if i == 0 {
                let rules = widths.iter().map(|&width| format!("|{}:", "-".repeat(width + 1)));
                text += &(rules.collect::<String>() + "|\n");
            }
        }
        text += "\nLines that are no calls:";
        for name in OTHER_LINES {
            let (done, bad) = (self.count(name, "done"), self.count(name, "bad"));
            text += &format!(" {name} {done} and {bad} bad;");
        }
        text.pop();
        text += ".\n\nCases:";
        for name in cases() {
            text += &format!(" {name}, {};", self.count(CASE, name));
        }
        text.pop();
        text + ".\n"
    }
}
