//! Captures: inputs for `feed`. Mostly short traffic to one server, with damaged packets and bad
//! lines; a few that reach the input's limit or go over it.

use super::damage::{allowed, faulty};
use super::fields::{self, right, slots_in, syn, unknown_sid, used_slots};
use crate::feed::INPUT;
use crate::packet::{hex, ACK, DATA, FIN};
use crate::random::Random;
use crate::record::{End, ESTABLISHED, FIN_RECEIVED, SLOTS};

/// The faults that a server whose owner does nothing can meet. Those of a peer that grants too much
/// or too little come twice, since they have more edges.
const FAULTS: [u32; 12] = [20, 21, 22, 23, 25, 26, 27, 27, 28, 28, 29, 30];
const LONGEST_FRAME: usize = 528;

struct Made {
    dice: Random,
    /// What the server holds after the lines so far.
    server: End,
    lines: Vec<Vec<u8>>,
}

pub fn capture(dice: Random) -> Vec<u8> {
    let mut server = End::new();
    server.start(true);
    let mut made = Made { dice, server, lines: Vec::new() };
    match made.dice.weighted(&[80, 8, 2, 10]) {
        0 => {
            let steps = made.dice.pick(&[3, 10, 20, 40, 80]);
            made.traffic(steps);
            made.joined()
        }
        1 => made.at_the_limit(),
        2 => made.empty_lines(),
        _ => made.soup(),
    }
}

impl Made {
    /// The lines, at times without the last LF.
    fn joined(&mut self) -> Vec<u8> {
        let mut text = self.lines.join(&b'\n');
        if self.dice.chance(75) {
            text.push(b'\n');
        }
        text
    }

    /// A frame that goes to take.
    fn frame(&mut self, bytes: &[u8]) {
        self.server.take(bytes);
        self.lines.push(hex(bytes).into_bytes());
    }

    /// A packet as a frame, at times with bytes after it.
    fn packet(&mut self, mut bytes: Vec<u8>) {
        let more = match self.dice.weighted(&[85, 10, 5]) {
            0 => 0,
            1 => self.dice.below(20),
            _ => LONGEST_FRAME,
        };
        let more = more.min(LONGEST_FRAME - bytes.len().min(LONGEST_FRAME));
        bytes.extend(self.dice.bytes(more));
        self.frame(&bytes);
    }

    fn traffic(&mut self, steps: usize) {
        let fault_after = match self.dice.chance(92) {
            true => self.dice.below(steps),
            false => usize::MAX,
        };
        for i in 0..steps {
            self.step();
            if i == fault_after {
                self.fault();
            }
            // A server that is down says 1 to all; a few such lines are enough.
            if !self.server.up && self.dice.chance(20) {
                break;
            }
        }
    }

    fn step(&mut self) {
        let open = slots_in(&self.server, &[ESTABLISHED]);
        let used = used_slots(&self.server).len();
        let which = self.dice.weighted(&[14, 40, 16, 5, 8, 3, 8]);
        match which {
            _ if !self.server.up => {
                let bytes = fields::near(&mut self.dice, &self.server);
                self.lines.push(hex(&bytes).into_bytes());
            }
            4 => {
                let bytes = fields::near(&mut self.dice, &self.server);
                let count = self.dice.below(bytes.len().min(33) + 1);
                self.cut(&bytes, count);
            }
            5 => self.frame(&[]),
            6 => self.bad(),
            0..=3 if open.is_empty() || which == 0 => {
                if used < SLOTS {
                    let sid = unknown_sid(&mut self.dice, &self.server);
                    let bytes = syn(&mut self.dice, sid);
                    self.packet(bytes);
                }
            }
            _ => {
                let slot = self.server.slots[self.dice.pick(&open)].clone();
                let flags = match which {
                    1 if slot.r != slot.g => DATA,
                    3 => FIN,
                    _ => ACK,
                };
                let bytes = right(&mut self.dice, &slot, flags);
                self.packet(bytes);
            }
        }
    }

    /// A frame that ends too early, if that is all that is wrong with it.
    fn cut(&mut self, bytes: &[u8], count: usize) {
        let mut server = self.server.clone();
        if server.take(&bytes[..count]).number == 10 {
            self.frame(&bytes[..count]);
        }
    }

    /// Brings the server to where a fault is possible, then sends it.
    fn fault(&mut self) {
        if !self.server.up {
            return;
        }
        let fault = self.dice.pick(&FAULTS);
        // A SYN for a SID in the table, with or without a free slot.
        let fill = fault == 25 && self.dice.chance(40);
        for _ in 0..=SLOTS {
            let full = used_slots(&self.server).len() == SLOTS;
            if allowed(&self.server, fault) && (full || !fill) {
                break;
            }
            let open = slots_in(&self.server, &[ESTABLISHED]);
            if fault == 30 && !open.is_empty() {
                let slot = self.server.slots[self.dice.pick(&open)].clone();
                let bytes = right(&mut self.dice, &slot, FIN);
                self.packet(bytes);
            } else {
                let sid = unknown_sid(&mut self.dice, &self.server);
                let bytes = syn(&mut self.dice, sid);
                self.packet(bytes);
            }
        }
        if !allowed(&self.server, fault) {
            return;
        }
        if fault == 29 && self.dice.chance(30) {
            self.one_too_many();
            return;
        }
        let bytes = faulty(&mut self.dice, &self.server, fault);
        if bytes.len() <= LONGEST_FRAME {
            self.packet(bytes);
        }
    }

    /// DATA until a window is closed, and one more.
    fn one_too_many(&mut self) {
        let open = slots_in(&self.server, &[ESTABLISHED]);
        let i = self.dice.pick(&open);
        for _ in 0..5 {
            if self.server.up {
                let slot = self.server.slots[i].clone();
                let bytes = right(&mut self.dice, &slot, DATA);
                self.packet(bytes);
            }
        }
    }

    /// A line that feeds nothing.
    fn bad(&mut self) {
        let open = slots_in(&self.server, &[ESTABLISHED, FIN_RECEIVED]);
        let mut line = match open.is_empty() {
            true => hex(&syn(&mut self.dice, 0)),
            false => {
                let slot = self.server.slots[self.dice.pick(&open)].clone();
                hex(&right(&mut self.dice, &slot, ACK))
            }
        }
        .into_bytes();
        let at = self.dice.below(line.len());
        match self.dice.below(9) {
            0 => {
                line.remove(at);
            }
            1 => line.push(b'\r'),
            2 => line.push(b' '),
            3 => line[0] = b'A' + self.dice.below(6) as u8,
            4 => line[at] = self.dice.pick(b"gG/:@`xX- \t\r\0\x7f\x80\xff"),
            5 => line.insert(at, self.dice.pick(b"\0 \r_")),
            6 => line = hex(&self.dice.bytes(LONGEST_FRAME + 1)).into_bytes(),
            7 => {
                let count = LONGEST_FRAME + 1 + self.dice.below(600);
                line.extend(hex(&self.dice.bytes(count)).into_bytes());
            }
            _ => line = hex(&self.dice.bytes(LONGEST_FRAME)).into_bytes()[1..].to_vec(),
        }
        self.lines.push(line);
    }

    /// Traffic with the limit of the input somewhere in it: within a line, before or after an LF.
    fn at_the_limit(&mut self) -> Vec<u8> {
        self.traffic(30);
        let tail = self.joined();
        let ends: Vec<usize> = (0..tail.len()).filter(|&i| tail[i] == b'\n').collect();
        let kept = match self.dice.below(5) {
            0 => tail.len(),
            1 if !ends.is_empty() => self.dice.pick(&ends),
            2 if !ends.is_empty() => self.dice.pick(&ends) + 1,
            _ => self.dice.below(tail.len() + 1),
        };
        let mut input = self.filler(INPUT - kept.min(INPUT));
        input.extend(tail);
        if self.dice.chance(30) {
            let more = self.dice.below(80_000);
            let bytes = self.dice.pick(b"0\na");
            input.extend(vec![bytes; more]);
        }
        input
    }

    /// Lines of exactly `size` bytes in all, which leave the server as it is.
    fn filler(&mut self, size: usize) -> Vec<u8> {
        let mut text = Vec::new();
        let longest = self.dice.pick(&[40, 1_200, 5_000]);
        while text.len() + longest < size {
            let count = 1 + self.dice.below(longest);
            let mut line = match self.dice.below(3) {
                0 => self.dice.bytes(count.min(2_000)).iter().map(|b| b'a' + b % 26).collect(),
                1 => vec![b'0'; count.min(30)],
                _ => vec![b'z'; count],
            };
            line.push(b'\n');
            text.extend(line);
        }
        if text.len() < size {
            text.resize(size - 1, b'-');
            text.push(b'\n');
        }
        text
    }

    fn empty_lines(&mut self) -> Vec<u8> {
        let count = match self.dice.below(3) {
            0 => INPUT - self.dice.below(3),
            1 => self.dice.below(INPUT),
            _ => self.dice.below(3_000),
        };
        let mut text = vec![b'\n'; count];
        self.traffic(10);
        text.extend(self.joined());
        text
    }

    /// Frames near to right ones, and lines of any bytes.
    fn soup(&mut self) -> Vec<u8> {
        for _ in 0..1 + self.dice.below(40) {
            match self.dice.below(8) {
                0 => {
                    let count = self.dice.below(40);
                    let mut line = self.dice.bytes(count);
                    line.retain(|&byte| byte != b'\n');
                    self.lines.push(line);
                }
                1 => {
                    let count = self.dice.below(40);
                    let line = (0..count).map(|_| self.dice.pick(b"0123456789abcdef")).collect();
                    self.lines.push(line);
                }
                2 | 3 => self.step(),
                4 => self.bad(),
                _ => {
                    let bytes = fields::near(&mut self.dice, &self.server);
                    if bytes.len() <= LONGEST_FRAME {
                        self.frame(&bytes);
                    }
                }
            }
        }
        self.joined()
    }
}
