//! The comparer: gives the same inputs to the other implementation and to this one, and compares
//! the answers byte for byte. A difference is made small and shown.

mod cases;
mod parting;
mod run;
mod show;
mod shrink;
pub mod tally;

use crate::make::{self, edges, pieces, Piece};
use crate::{calls, feed};
use parting::{parting, Parting};
use run::Program;
use shrink::{shrink, Bound};
use std::ffi::OsString;
use std::path::PathBuf;
use std::sync::atomic::{AtomicUsize, Ordering};
use std::sync::Mutex;
use std::thread;
use std::time::Duration;
use tally::Tally;

/// Scripts in one run of `calls`. A start costs more than a script.
const SCRIPTS_IN_A_RUN: usize = 200;
const AT_A_TIME: usize = 2;
const LIMIT: Duration = Duration::from_secs(120);
const LIMIT_WHILE_SHRINKING: Duration = Duration::from_secs(30);
const LIMIT_OF_AN_ANSWER: Duration = Duration::from_secs(20);

/// One of the two line programs: this implementation of it, and the other one's command.
struct Both {
    name: &'static str,
    ours: fn(&[u8]) -> Vec<u8>,
    other: Program,
}

/// One run: scripts, or one capture, each a list of pieces.
#[derive(Clone)]
struct Case {
    name: String,
    groups: Vec<Vec<Piece>>,
    pause: bool,
}

impl Both {
    fn differ(&self, pieces: &[Piece], pause: bool, limit: Duration) -> Option<Parting> {
        let input = pieces.concat();
        let ours = (self.ours)(&input);
        parting(&ours, &self.other.run(&input, ours.len() + 4_096, limit, pause))
    }

    /// Makes the case's input small and prints it with the place where the outputs part.
    fn show(&self, seed: u64, case: &Case, first: Parting) {
        if first.never_started {
            show::print_parting(&first);
            return;
        }
        let mut bound = Bound::new();
        let pause = case.pause;
        let remains =
            |pieces: &[Piece]| self.differ(pieces, pause, LIMIT_WHILE_SHRINKING).is_some();
        // No group after the one that holds the line where they part is needed, mostly.
        let mut end = 0;
        let mut groups = case.groups.clone();
        let last = groups.iter().position(|group| {
            end += group.len();
            first.line < end
        });
        if let Some(last) = last {
            let tries = [groups[last..=last].to_vec(), groups[..=last].to_vec()];
            for some in tries {
                if bound.try_more() && remains(&some.concat()) {
                    groups = some;
                    break;
                }
            }
        }
        groups = shrink(groups, &mut bound, |groups| remains(&groups.concat()));
        let mut lines = groups.concat();
        if let Some(now) = self.differ(&lines, pause, LIMIT_WHILE_SHRINKING) {
            let upto = lines[..lines.len().min(now.line + 1)].to_vec();
            if bound.try_more() && remains(&upto) {
                lines = upto;
            }
        }
        lines = shrink(lines, &mut bound, remains);
        let again = self.differ(&lines, pause, LIMIT_WHILE_SHRINKING);
        println!("A DIFFERENCE in {}, seed {seed}, {}.", self.name, case.name);
        if again.is_none() {
            println!("It did not come again; this is the first sight of it.");
            lines = case.groups.concat();
        }
        let at = again.unwrap_or(first);
        let lacking = match lines.last() {
            Some(last) if !last.ends_with(b"\n") => ", the last without LF",
            _ => "",
        };
        let (count, tries) = (lines.len(), bound.tries);
        println!("Input, lines: {count}{lacking} (after {tries} tries to make it small):");
        show::print_input(&lines, &at);
        show::print_parting(&at);
    }
}

/// Compares case after case, some at a time; gives the first that differs, by number.
fn first_difference(
    both: &Both,
    count: usize,
    make: impl Fn(usize) -> Case + Sync,
    add: impl Fn(&Case) + Sync,
) -> Option<(Case, Parting)> {
    let next = AtomicUsize::new(0);
    let found: Mutex<Option<(usize, Case, Parting)>> = Mutex::new(None);
    let work = || loop {
        let number = next.fetch_add(1, Ordering::SeqCst);
        if number >= count || found.lock().expect("no panic").is_some() {
            return;
        }
        let case = make(number);
        let parted = both.differ(&case.groups.concat(), case.pause, LIMIT);
        add(&case);
        if let Some(parting) = parted {
            let mut found = found.lock().expect("no panic");
            if found.as_ref().is_none_or(|(other, _, _)| number < *other) {
                *found = Some((number, case, parting));
            }
        }
    };
    thread::scope(|scope| {
        for _ in 0..AT_A_TIME {
            scope.spawn(work);
        }
    });
    found.into_inner().expect("no panic").map(|(_, case, parting)| (case, parting))
}

/// Compares everything; true if there is no difference and every listed answer and case was seen.
pub fn compare(
    seed: u64,
    scripts: usize,
    captures: usize,
    dir: PathBuf,
    prefix: &[OsString],
) -> bool {
    let program = |name: &str| {
        let mut words = prefix.to_vec();
        words.push(dir.join(name).into_os_string());
        Program { words }
    };
    let feed = Both { name: "feed", ours: feed::report, other: program("feed") };
    let calls = Both { name: "calls", ours: calls::answers, other: program("calls") };
    let tally = Mutex::new(Tally::default());
    println!("Comparing with seed {seed}.");

    if feed::report(edges::LISTING.as_bytes()) != edges::LISTING_REPORT.as_bytes() {
        println!("second's own report on document 01's listing is not document 01's.");
        return false;
    }
    let listing = Case {
        name: "document 01's listing".to_string(),
        groups: vec![pieces(edges::LISTING.as_bytes())],
        pause: true,
    };
    if let Some(parting) = feed.differ(&listing.groups.concat(), true, LIMIT) {
        feed.show(seed, &listing, parting);
        return false;
    }

    if !converses(&calls, seed) {
        return false;
    }

    let add_calls = |case: &Case| {
        let mut one = Tally::default();
        one.add_calls(&case.groups.concat());
        tally.lock().expect("no panic").join(one);
    };
    let add_feed = |case: &Case| {
        let capture = case.groups.concat().concat();
        let report = feed::report(&capture);
        tally.lock().expect("no panic").add_feed(&capture, &report);
    };
    let edge = |inputs: &[Vec<u8>], i: usize| Case {
        name: format!("fixed input {i}"),
        groups: vec![pieces(&inputs[i])],
        pause: false,
    };

    let inputs = edges::calls();
    let fixed = first_difference(&calls, inputs.len(), |i| edge(&inputs, i), |_| {});
    let runs = scripts.div_ceil(SCRIPTS_IN_A_RUN);
    let found = fixed.or_else(|| {
        let make = |run| batch(seed, run, scripts);
        first_difference(&calls, runs, make, add_calls)
    });
    if let Some((case, parting)) = found {
        calls.show(seed, &case, parting);
        return false;
    }

    let inputs = edges::feed();
    let fixed = first_difference(&feed, inputs.len(), |i| edge(&inputs, i), |_| {});
    let found = fixed.or_else(|| {
        let make = |number| Case {
            name: format!("capture {number} (second make feed {seed} {number})"),
            groups: vec![make::capture(seed, number)],
            pause: number % 50 == 49,
        };
        first_difference(&feed, captures, make, add_feed)
    });
    if let Some((case, parting)) = found {
        feed.show(seed, &case, parting);
        return false;
    }

    let tally = tally.into_inner().expect("no panic");
    let lines = tally.lines;
    println!(
        "No difference. Seed {seed}: {scripts} scripts of {lines} lines, {captures} captures."
    );
    println!("Answers seen:\n");
    print!("{}", tally.table());
    let never = tally.never_seen();
    if !never.is_empty() {
        println!("\nNEVER SEEN: {}.", never.join(", "));
    }
    never.is_empty()
}

/// Whether `calls` answers lines that come one at a time, each after the last one's answer.
fn converses(calls: &Both, seed: u64) -> bool {
    let lines = pieces(edges::CONVERSATION.as_bytes());
    let answers = calls::answers(&lines.concat());
    let talked = calls.other.talk(&lines, LIMIT_OF_AN_ANSWER);
    let Some(at) = parting(&answers, &talked) else { return true };
    match calls.differ(&lines, true, LIMIT) {
        Some(first) => {
            let name = "the fixed conversation".to_string();
            calls.show(seed, &Case { name, groups: vec![lines], pause: true }, first);
        }
        None => {
            println!("A DIFFERENCE in calls, only where lines come one at a time, in two parts.");
            show::print_input(&lines, &at);
            show::print_parting(&at);
        }
    }
    false
}

/// The scripts of one run. The last line of every other run lacks its LF.
fn batch(seed: u64, run: usize, scripts: usize) -> Case {
    let first = run * SCRIPTS_IN_A_RUN;
    let end = scripts.min(first + SCRIPTS_IN_A_RUN);
    let mut groups: Vec<Vec<Piece>> = (first..end).map(|n| make::script(seed, n)).collect();
    if run % 2 == 1 {
        if let Some(last) = groups.last_mut().and_then(|group| group.last_mut()) {
            last.pop();
        }
    }
    Case { name: format!("scripts {first} to {}", end - 1), groups, pause: false }
}
