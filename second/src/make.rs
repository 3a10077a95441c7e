//! The generator: what is made, and from which numbers. Script and capture number n of a seed are
//! the same whatever the counts. A piece is a line with its LF; only a last piece may lack it.

mod bad;
mod capture;
mod damage;
pub mod edges;
mod faults;
mod fields;
mod grants;
mod peer;
mod records;
mod script;
mod talk;
mod traffic;

use crate::random::Random;

pub type Piece = Vec<u8>;

/// Call script number `number`, for `calls`. It begins with `start` and `lend 32768`.
pub fn script(seed: u64, number: usize) -> Vec<Piece> {
    let dice = Random::new(seed, number as u64);
    let lines = script::script(dice);
    lines.into_iter().map(|line| [line.as_slice(), b"\n"].concat()).collect()
}

/// Capture number `number`, for `feed`.
pub fn capture(seed: u64, number: usize) -> Vec<Piece> {
    let dice = Random::new(seed, number as u64 | 1 << 63);
    pieces(&capture::capture(dice))
}

/// An input cut after each LF.
pub fn pieces(input: &[u8]) -> Vec<Piece> {
    input.split_inclusive(|&byte| byte == b'\n').map(<[u8]>::to_vec).collect()
}
