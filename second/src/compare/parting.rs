//! This implementation's output and the other one's, held against each other.

use super::run::Output;
use crate::make::pieces;

/// Where the two outputs part.
pub struct Parting {
    pub line: usize,
    pub ours: Option<Vec<u8>>,
    pub other: Option<Vec<u8>>,
    pub trouble: Option<String>,
    pub never_started: bool,
}

/// Where they part; nothing if they are alike and the run went well.
pub fn parting(ours: &[u8], other: &Output) -> Option<Parting> {
    if ours == other.bytes && other.trouble.is_none() {
        return None;
    }
    let (a, b) = (pieces(ours), pieces(&other.bytes));
    let line = a.iter().zip(&b).take_while(|(a, b)| a == b).count();
    let (ours, other_line) = (a.get(line).cloned(), b.get(line).cloned());
    let (trouble, never_started) = (other.trouble.clone(), other.never_started);
    Some(Parting { line, ours, other: other_line, trouble, never_started })
}
