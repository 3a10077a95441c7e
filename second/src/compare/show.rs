//! How a difference is printed: a small input, the line where the outputs part, and both lines.

use super::parting::Parting;
use crate::make::Piece;

/// Lines printed before the middle of a long input is left out, and on each side of it.
const MOST_LINES: usize = 80;
const SIDE: usize = 15;
/// Characters of a line, and on each side of a place within it.
const MOST_CHARACTERS: usize = 3_000;
const AROUND: usize = 40;

pub fn print_input(lines: &[Piece], parting: &Parting) {
    let end = lines.len().min(parting.line + 2);
    for (i, line) in lines.iter().enumerate().take(end) {
        if end <= MOST_LINES || i < SIDE || i + SIDE >= end {
            println!("{:>6}  {}", i + 1, readable(line));
        } else if i == SIDE {
            println!("        ... {} lines ...", end - 2 * SIDE);
        }
    }
}

pub fn print_parting(parting: &Parting) {
    println!("They part at line {} of the output.", parting.line + 1);
    let none = Vec::new();
    let (ours, other) =
        (parting.ours.as_ref().unwrap_or(&none), parting.other.as_ref().unwrap_or(&none));
    let at = ours.iter().zip(other).take_while(|(a, b)| a == b).count();
    if at > 2 * AROUND {
        println!("From character {} on (they part at {}):", at - AROUND + 1, at + 1);
    }
    for (name, line) in [("second:", &parting.ours), ("other: ", &parting.other)] {
        match line {
            None => println!("{name} nothing"),
            Some(line) if at > 2 * AROUND => {
                println!("{name} {}", readable(&line[at - AROUND..line.len().min(at + AROUND)]))
            }
            Some(line) => println!("{name} {}", readable(line)),
        }
    }
    if let Some(trouble) = &parting.trouble {
        println!("The other program {trouble}.");
    }
}

/// A line without its LF, with bytes other than plain characters written as \x and two digits.
/// A very long line is cut in its middle.
fn readable(line: &[u8]) -> String {
    let text = line.strip_suffix(b"\n").unwrap_or(line);
    let show = |bytes: &[u8]| -> String {
        let one = |&byte: &u8| match byte {
            b' '..=b'~' => char::from(byte).to_string(),
            _ => format!("\\x{byte:02x}"),
        };
        bytes.iter().map(one).collect()
    };
    if text.len() <= MOST_CHARACTERS {
        return show(text);
    }
    let (front, back) = (&text[..AROUND], &text[text.len() - AROUND..]);
    format!("{} ... {} ({} characters)", show(front), show(back), text.len())
}
