//! `calls`: one call a line on one end. Here are the line grammar and the answer lines;
//! the calls themselves are in `end.rs`.

use crate::end::Answer;
use crate::packet::{hex, unhex};
use crate::record::{End, Slot, SLOTS, STORAGE};
use std::io::{Read, Result, Write};

pub const LONGEST_LINE: usize = 16_384;
const LARGEST_ROOM: u64 = 8_192;
const LARGEST_PEEK: usize = 4_096;
const UNTOUCHED: u8 = 0xa5;

enum Line {
    Start { server: bool },
    Open { room: usize },
    Send { sid: u16, payload: Vec<u8>, room: usize },
    Read { sid: u16, room: usize, ack_room: usize },
    Close { sid: u16, room: usize },
    Shutdown,
    Take { bytes: Vec<u8> },
    Lend { count: usize },
    Record { at: usize, slot: Slot },
    End { server: bool, up: bool },
    Show,
    Peek { at: usize, count: usize },
}

/// A decimal number of one to ten digits, at most `most`.
fn number(word: &[u8], most: u64) -> Option<u64> {
    if word.is_empty() || word.len() > 10 || !word.iter().all(u8::is_ascii_digit) {
        return None;
    }
    let value = word.iter().fold(0, |value, digit| 10 * value + u64::from(digit - b'0'));
    (value <= most).then_some(value)
}

fn room(word: &[u8]) -> Option<usize> {
    Some(number(word, LARGEST_ROOM)? as usize)
}

fn sid(word: &[u8]) -> Option<u16> {
    Some(number(word, 65_535)? as u16)
}

fn counter(word: &[u8]) -> Option<u32> {
    Some(number(word, 0xffff_ffff)? as u32)
}

fn is_server(word: &[u8]) -> Option<bool> {
    match word {
        b"client" => Some(false),
        b"server" => Some(true),
        _ => None,
    }
}

fn bytes(word: &[u8]) -> Option<Vec<u8>> {
    match word {
        b"-" => Some(Vec::new()),
        b"" => None,
        _ => unhex(word),
    }
}

/// The line's meaning, or nothing for a `bad` one.
fn parse(line: &[u8]) -> Option<Line> {
    if line.len() > LONGEST_LINE {
        return None;
    }
    let words: Vec<&[u8]> = line.split(|&byte| byte == b' ').collect();
    let (call, words) = words.split_first()?;
    Some(match (*call, words) {
        (b"start", [role]) => Line::Start { server: is_server(role)? },
        (b"open", [r]) => Line::Open { room: room(r)? },
        (b"send", [s, b, r]) => Line::Send { sid: sid(s)?, payload: bytes(b)?, room: room(r)? },
        (b"read", [s, r, a]) => Line::Read { sid: sid(s)?, room: room(r)?, ack_room: room(a)? },
        (b"close", [s, r]) => Line::Close { sid: sid(s)?, room: room(r)? },
        (b"shutdown", []) => Line::Shutdown,
        (b"take", [b]) => Line::Take { bytes: bytes(b)? },
        (b"lend", [n]) => Line::Lend { count: number(n, STORAGE as u64)? as usize },
        (b"record", [at, state, s, counters @ ..]) if counters.len() == 9 => {
            let mut slot = Slot { state: number(state, 3)? as u8, sid: sid(s)?, ..Slot::default() };
            slot.s = counter(counters[0])?;
            slot.h = counter(counters[1])?;
            slot.r = counter(counters[2])?;
            slot.g = counter(counters[3])?;
            slot.l = counter(counters[4])?;
            for (length, word) in slot.lengths.iter_mut().zip(&counters[5..]) {
                *length = number(word, 65_535)? as u16;
            }
            Line::Record { at: number(at, SLOTS as u64 - 1)? as usize, slot }
        }
        (b"end", [role, up]) => Line::End { server: is_server(role)?, up: number(up, 1)? == 1 },
        (b"show", []) => Line::Show,
        (b"peek", [at, n]) => {
            let at = number(at, STORAGE as u64)? as usize;
            let count = number(n, LARGEST_PEEK as u64)? as usize;
            if at + count > STORAGE {
                return None;
            }
            Line::Peek { at, count }
        }
        _ => return None,
    })
}

/// A caller's room, filled so that a touched byte shows.
fn lent_room(size: usize) -> Vec<u8> {
    vec![UNTOUCHED; size]
}

fn shown(bytes: &[u8]) -> String {
    match bytes {
        [] => "-".to_string(),
        _ => hex(bytes),
    }
}

/// ` touched` where a room changed after its front; on a refusal the front is empty.
fn touched(rooms: &[(&[u8], usize)]) -> &'static str {
    let changed =
        |(room, front): &(&[u8], usize)| room[*front..].iter().any(|&byte| byte != UNTOUCHED);
    match rooms.iter().any(changed) {
        true => " touched",
        false => "",
    }
}

pub struct Calls {
    pub end: End,
}

impl Calls {
    pub fn new() -> Calls {
        Calls { end: End::new() }
    }

    /// The answer line (without its LF) to a line (without its LF).
    pub fn answer(&mut self, line: &[u8]) -> String {
        match parse(line) {
            Some(line) => self.call(line),
            None => "bad".to_string(),
        }
    }

    fn call(&mut self, line: Line) -> String {
        match line {
            Line::Start { server } => {
                self.end.start(server);
                "0".to_string()
            }
            Line::Open { room } => {
                let mut room = lent_room(room);
                let Answer { number, sid, front, .. } = self.end.open(&mut room);
                let packet = shown(&room[..front]);
                format!("{number} {sid} {packet}{}", touched(&[(&room, front)]))
            }
            Line::Send { sid, payload, room } => {
                let mut room = lent_room(room);
                let Answer { number, front, .. } = self.end.send(sid, &payload, &mut room);
                format!("{number} {}{}", shown(&room[..front]), touched(&[(&room, front)]))
            }
            Line::Read { sid, room, ack_room } => {
                let (mut room, mut ack_room) = (lent_room(room), lent_room(ack_room));
                let Answer { number, front, ack, .. } =
                    self.end.read(sid, &mut room, &mut ack_room);
                let (payload, packet) = (shown(&room[..front]), shown(&ack_room[..ack]));
                let touched = touched(&[(&room, front), (&ack_room, ack)]);
                format!("{number} {payload} {packet}{touched}")
            }
            Line::Close { sid, room } => {
                let mut room = lent_room(room);
                let Answer { number, front, .. } = self.end.close(sid, &mut room);
                format!("{number} {}{}", shown(&room[..front]), touched(&[(&room, front)]))
            }
            Line::Shutdown => self.end.shutdown().number.to_string(),
            Line::Take { bytes } => {
                let Answer { number, used, kind, sid, missing, .. } = self.end.take(&bytes);
                format!("{number} {used} {kind} {sid} {missing}")
            }
            Line::Lend { count } => {
                self.end.lent = count;
                "ok".to_string()
            }
            Line::Record { at, slot } => {
                self.end.slots[at] = slot;
                "ok".to_string()
            }
            Line::End { server, up } => {
                self.end.server = server;
                self.end.up = up;
                "ok".to_string()
            }
            Line::Show => self.show(),
            Line::Peek { at, count } => shown(&self.end.storage[at..at + count]),
        }
    }

    fn show(&self) -> String {
        let role = if self.end.server { "server" } else { "client" };
        let mut text = format!("{role} {}", u8::from(self.end.up));
        for (i, slot) in self.end.slots.iter().enumerate().filter(|(_, slot)| !slot.is_all_zeros())
        {
            let Slot { state, sid, s, h, r, g, l, lengths: [l0, l1, l2, l3] } = slot;
            text += &format!(" {i}:{state}:{sid}:{s}:{h}:{r}:{g}:{l}:{l0}:{l1}:{l2}:{l3}");
        }
        text
    }
}

/// Answers each line as soon as it was read, until the input ends.
pub fn converse(mut input: impl Read, mut output: impl Write) -> Result<()> {
    let mut calls = Calls::new();
    let mut line = Vec::new();
    let mut answer = |line: &mut Vec<u8>| {
        let text = calls.answer(line) + "\n";
        line.clear();
        output.write_all(text.as_bytes())?;
        output.flush()
    };
    let mut chunk = [0; 65_536];
    loop {
        let count = input.read(&mut chunk)?;
        if count == 0 {
            break;
        }
        for &byte in &chunk[..count] {
            if byte == b'\n' {
                answer(&mut line)?;
            } else if line.len() <= LONGEST_LINE {
                line.push(byte);
            }
        }
    }
    if !line.is_empty() {
        answer(&mut line)?;
    }
    Ok(())
}

/// All answers to a whole input.
pub fn answers(input: &[u8]) -> Vec<u8> {
    let mut output = Vec::new();
    converse(input, &mut output).expect("reading and writing memory does not fail");
    output
}
