//! Lines that `calls` must answer with `bad`, lines that are just right, and lines spoiled
//! in one byte, which may be either.

use crate::calls::LONGEST_LINE;
use crate::packet::hex;
use crate::random::Random;

#[rustfmt::skip]
const BAD: &[&str] = &[
    "", " ", "  ", "-", "0", "ok", "quit", "feed",
    "start", "start ", "start  client", "start client ", " start client", "start Client",
    "START client", "start clients", "start clien", "start client server", "start 0", "startclient",
    "open", "open ", "open -", "open  16", "open 16 ", " open 16", "open 16 16", "open 8193",
    "open 0x10", "open +16", "open -16", "open 1 6", "open 16.", "open 1e1", "open ten",
    "open 00000000016", "open 9999999999", "open 4294967312", "open 65552",
    "open 18446744073709551632", "open 016,", "Open 16",
    "send 0 00", "send 0 00 ", "send 0 00 16 16", "send 0 0 16", "send 0 000 528", "send 0 AB 528",
    "send 0 aB 528", "send 0 0g 528", "send 0  528", "send 0  00 528", "send 0 -- 528",
    "send 0 -00 528", "send 0 00- 528", "send 65536 00 528", "send -1 00 528", "send - 00 528",
    "send 0 00 8193", "send 0 00 00000000528", "send 00000000000 00 528", "send 0 0:0: 528",
    "send 4294967296 00 528", "send 0 `a 528", "send 0 @a 528", "send 0 /0 528",
    "read 0 512", "read 0 512 ", "read 0 512 16 0", "read 65536 512 16", "read 0 8193 16",
    "read 0 512 8193", "read 0 512 -", "read - 512 16", "read 0 512  16", "read 0", "read",
    "close", "close 0", "close 0 ", "close 0 16 0", "close 65536 16", "close 0 8193", "close 0 -",
    "shutdown ", "shutdown 0", "shutdown now", "Shutdown", "shut", "shutdownshow",
    "take", "take ", "take 5", "take 530", "take 53 01", "take 5G", "take 0x53", "take --",
    "take -5", "take  53", "take 53 ", "take 53-", "take - -", "take 5:",
    "lend", "lend ", "lend 32769", "lend -", "lend 4294967296", "lend 0 0", "lend -1",
    "lend 65536", "lend 00000032768",
    "record", "record 0", "record 0 0 0 0 0 0 0 0 0 0 0", "record 0 0 0 0 0 0 0 0 0 0 0 0 0",
    "record 16 0 0 0 0 0 0 0 0 0 0 0", "record 0 4 0 0 0 0 0 0 0 0 0 0",
    "record 0 1 65536 0 0 0 0 0 0 0 0 0", "record 0 1 1 4294967296 0 0 0 0 0 0 0 0",
    "record 0 1 1 0 4294967296 0 0 0 0 0 0 0", "record 0 1 1 0 0 4294967296 0 0 0 0 0 0",
    "record 0 1 1 0 0 0 4294967296 0 0 0 0 0", "record 0 1 1 0 0 0 0 4294967296 0 0 0 0",
    "record 0 1 1 0 0 0 0 0 65536 0 0 0", "record 0 1 1 0 0 0 0 0 0 65536 0 0",
    "record 0 1 1 0 0 0 0 0 0 0 65536 0", "record 0 1 1 0 0 0 0 0 0 0 0 65536",
    "record 0 1 1 0 0 0 0 0 0 0 0 -", "record 0 1 1 0 4 0 4 - 0 0 0 0",
    "record 0 1 1 0 4 0 4 0 0 0 0", "record 0 1 1 0 4 0 4  0 0 0 0",
    "record 0 1 1 0 4 0 4 4 0 0 0 ", "record 0 1 1 0 4 0 4 4 0 0 0 0 ",
    "record 0 1 1 0 4 0 4 4 0  0 0 0", "record 0 1 1 9999999999 4 0 4 4 0 0 0 0",
    "record 0 1 1 0 4 0 4 9999999999 0 0 0 0", "record 00000000000 1 1 0 4 0 4 4 0 0 0 0",
    "record -1 1 1 0 4 0 4 4 0 0 0 0", "record 4294967296 1 1 0 4 0 4 4 0 0 0 0",
    "end", "end client", "end client 2", "end server 1 0", "end 1 client", "end client -",
    "end client 256", "end Server 1", "end server up", "end server  1", "end server 1 ",
    "show ", "show 0", " show", "Show", "shows", "show show",
    "peek", "peek 0", "peek 0 4097", "peek 32768 1", "peek 32769 0", "peek 28673 4096",
    "peek 32767 2", "peek 4294967295 2", "peek 4294967296 0", "peek 9999999999 0", "peek 0 0 0",
    "peek - 0", "peek 0 -", "peek 0 65536", "peek 0  0", "peek 0 0 ",
];

/// Right lines to append to, cut and spoil. None of them changes the end for long.
#[rustfmt::skip]
const RIGHT: &[&str] = &[
    "start client", "start server", "open 16", "send 0 00ff 18", "read 0 512 16", "close 0 16",
    "shutdown", "take -", "take 5301", "lend 32768", "record 0 1 1 0 4 0 4 4 0 0 0 0",
    "end client 1", "show", "peek 0 8",
];

/// Numbers and lengths that are as large as they may be.
#[rustfmt::skip]
const EDGE: &[&str] = &[
    "open 8192", "open 0000000016", "open 0000008192", "send 65535 - 0", "send 0000065535 00 8192",
    "send 0 - 16", "read 65535 8192 8192", "read 0 0 0", "close 65535 8192", "take -", "take 00",
    "lend 0", "lend 32767", "lend 0000032768",
    "record 15 3 65535 4294967295 3 4294967295 3 2 0 1 511 512",
    "record 0000000015 0000000002 0000065535 0000000000 4 4294967295 0 4294967295 512 512 512 512",
    "record 7 0 0 0 0 0 0 0 0 0 0 0", "record 3 1 9 0 0 0 0 0 65535 65535 65535 65535",
    "record 5 1 3 4 8 4294967295 0 0000000000 1 2 3 4",
    "record 9 1 8 4294967295 2147483646 0 4 4 0 0 0 0", "record 9 1 8 0 2147483648 0 4 4 0 0 0 0",
    "end client 0000000001", "end server 0", "end server 1", "peek 32768 0", "peek 28672 4096",
    "peek 0 0", "peek 32767 1", "peek 0000000000 0000000001",
];

pub fn edge_line(dice: &mut Random) -> Vec<u8> {
    dice.pick(EDGE).as_bytes().to_vec()
}

pub fn bad_line(dice: &mut Random) -> Vec<u8> {
    match dice.weighted(&[70, 27, 3]) {
        0 => dice.pick(BAD).as_bytes().to_vec(),
        1 => with_a_stranger(dice),
        _ => long_line(dice),
    }
}

/// A right line with a character that no line may hold there: one too many, or for a space.
fn with_a_stranger(dice: &mut Random) -> Vec<u8> {
    let mut line = dice.pick(RIGHT).as_bytes().to_vec();
    let space = line.iter().position(|&byte| byte == b' ');
    if let Some(at) = space.filter(|_| dice.chance(25)) {
        line[at] = dice.pick(b"\t\r\0\x0b\x0c\xa0,:_");
        return line;
    }
    let stranger = dice.pick(&[b'\r', b'\t', 0, 0x0b, 0x0c, 0x1f, 0x7f, 0x80, 0xa0, 0xff, b' ']);
    let at = match dice.below(3) {
        0 => 0,
        1 => line.len(),
        _ => dice.below(line.len() + 1),
    };
    // A space within a word makes two words, and may be right elsewhere: it goes to an edge.
    let at = if stranger == b' ' { dice.pick(&[0, line.len()]) } else { at };
    line.insert(at, stranger);
    line
}

/// Lines at, just over and far over the longest length, right in all else.
fn long_line(dice: &mut Random) -> Vec<u8> {
    let (before, digits, after) = match dice.below(6) {
        0 => ("send 0 ", LONGEST_LINE - 10, " 16"),
        1 => ("send 0 ", LONGEST_LINE - 10, " 016"),
        2 => ("take ", LONGEST_LINE - 6, ""),
        3 => ("take ", LONGEST_LINE - 4, ""),
        4 => ("take ", 2 * LONGEST_LINE, ""),
        _ => ("take ", LONGEST_LINE + 2 * dice.below(20_000), ""),
    };
    let bytes = dice.bytes(digits / 2);
    [before.as_bytes(), hex(&bytes).as_bytes(), after.as_bytes()].concat()
}

/// A line with one byte taken out, put in or changed. It may still be right.
pub fn spoiled(dice: &mut Random, line: &[u8]) -> Vec<u8> {
    let mut line = line.to_vec();
    let new = dice.pick(b" 0123456789abcdefABFg-srx\r\0\xff");
    let at = dice.below(line.len() + 1);
    match dice.below(3) {
        0 => line.insert(at, new),
        1 if at < line.len() => line[at] = new,
        _ if at < line.len() => {
            line.remove(at);
        }
        _ => line.push(new),
    }
    line
}
