//! A second implementation of the two line programs `feed` and `calls` by documents 01, 02 and 002,
//! with a generator of inputs and a comparer. It is there to catch a misreading of the documents
//! in the first implementation, so it shares no code with it.

mod calls;
mod checks;
mod compare;
mod end;
mod feed;
mod make;
mod packet;
mod random;
mod record;
#[cfg(test)]
mod tests;

use std::env::args_os;
use std::ffi::OsString;
use std::io::{stdin, stdout, Read, Result, Write};
use std::path::PathBuf;
use std::process::ExitCode;

const USAGE: &str = "\
second feed                      reads standard input, prints the report
second calls                     answers each line of standard input
second make calls SEED COUNT     prints the first COUNT call scripts of a seed
second make feed SEED NUMBER     prints capture NUMBER of a seed
second compare SEED SCRIPTS CAPTURES DIR [PREFIX...]
                                 compares with the programs DIR/calls and DIR/feed, each
                                 started with the words PREFIX before it";

fn main() -> ExitCode {
    let words: Vec<OsString> = args_os().skip(1).collect();
    let text: Vec<&str> = words.iter().map(|word| word.to_str().unwrap_or("")).collect();
    let number = |word: &str| word.parse::<u64>().ok();
    let done = match text[..] {
        ["feed"] => run_feed(),
        ["calls"] => calls::converse(stdin().lock(), stdout().lock()),
        ["make", kind @ ("calls" | "feed"), seed, count] => match (number(seed), number(count)) {
            (Some(seed), Some(count)) => print_made(kind, seed, count as usize),
            _ => return usage(),
        },
        ["compare", seed, scripts, captures, _, ..] => {
            let numbers = (number(seed), number(scripts), number(captures));
            let (Some(seed), Some(scripts), Some(captures)) = numbers else { return usage() };
            let dir = PathBuf::from(&words[4]);
            match compare::compare(seed, scripts as usize, captures as usize, dir, &words[5..]) {
                true => Ok(()),
                false => return ExitCode::FAILURE,
            }
        }
        _ => return usage(),
    };
    match done {
        Ok(()) => ExitCode::SUCCESS,
        Err(error) => {
            eprintln!("second: {error}");
            ExitCode::FAILURE
        }
    }
}

fn usage() -> ExitCode {
    eprintln!("{USAGE}");
    ExitCode::from(2)
}

fn run_feed() -> Result<()> {
    let mut input = Vec::new();
    stdin().lock().take(feed::INPUT as u64).read_to_end(&mut input)?;
    stdout().lock().write_all(&feed::report(&input))
}

fn print_made(kind: &str, seed: u64, count: usize) -> Result<()> {
    let mut out = stdout().lock();
    match kind {
        "feed" => out.write_all(&make::capture(seed, count).concat()),
        _ => (0..count).try_for_each(|number| out.write_all(&make::script(seed, number).concat())),
    }
}
