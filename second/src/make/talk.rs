//! A conversation in the making: the end that the script drives, with a peer of the other role
//! simulated beside it, and a channel each way. So `take` gets what a peer would really send.

use super::fields;
use super::peer::Peer;
use crate::calls::Calls;
use crate::packet::{hex, unhex, Header, HEADER, PAYLOAD};
use crate::random::Random;
use crate::record::{Slot, ESTABLISHED, FIN_RECEIVED, FIN_SENT, PLACES, SLOTS, STORAGE, WINDOW};

/// The most bytes for one `take`, so that its line isn't too long.
const LARGEST_TAKE: usize = 8_000;

pub struct Talk {
    pub dice: Random,
    pub ours: Calls,
    peer: Peer,
    pub lines: Vec<Vec<u8>>,
    to_peer: Vec<u8>,
    to_ours: Vec<u8>,
    /// Places that a packet may have changed.
    seen: [[bool; PLACES]; SLOTS],
}

impl Talk {
    pub fn new(dice: Random) -> Talk {
        Talk {
            dice,
            ours: Calls::new(),
            peer: Peer::new(),
            lines: Vec::new(),
            to_peer: Vec::new(),
            to_ours: Vec::new(),
            seen: [[false; PLACES]; SLOTS],
        }
    }

    /// Adds a line to the script, and gives the words of its answer.
    pub fn say(&mut self, line: impl Into<Vec<u8>>) -> Vec<String> {
        let line = line.into();
        let answer = self.ours.answer(&line);
        self.lines.push(line);
        answer.split(' ').map(str::to_string).collect()
    }

    /// A number, at times with zeros before it.
    pub fn number(&mut self, value: usize) -> String {
        match self.dice.below(40) {
            0 => format!("{value:010}"),
            1 if value < 1_000_000_000 => format!("0{value}"),
            _ => value.to_string(),
        }
    }

    pub fn start(&mut self, server: bool) {
        self.say(format!("start {}", if server { "server" } else { "client" }));
        self.peer.start(!server);
        self.to_peer.clear();
        self.to_ours.clear();
    }

    /// A room for `needed` bytes, at times too short.
    pub fn room(&mut self, needed: usize) -> String {
        let room = match self.dice.weighted(&[70, 16, 7, 3, 2, 2]) {
            0 => 528,
            1 => needed,
            2 => needed.saturating_sub(1),
            3 => 0,
            4 => needed + 1,
            _ => 8_192,
        };
        self.number(room.min(8_192))
    }

    /// Mostly the SID of a slot in use.
    pub fn some_sid(&mut self) -> u16 {
        let used = fields::used_slots(&self.ours.end);
        if used.is_empty() || self.dice.chance(4) {
            return fields::unknown_sid(&mut self.dice, &self.ours.end);
        }
        self.ours.end.slots[self.dice.pick(&used)].sid
    }

    fn emitted(&mut self, packet: &str) {
        self.to_peer.extend(unhex(packet.as_bytes()).unwrap_or_default());
    }

    pub fn open(&mut self) {
        let room = self.room(HEADER);
        let answer = self.say(format!("open {room}"));
        self.emitted(&answer[2]);
    }

    pub fn send(&mut self, sid: u16) {
        let mut payload = fields::payload(&mut self.dice);
        if self.dice.chance(4) {
            let count = self.dice.pick(&[513, 514, 600, 1_024, 2_000]);
            payload = self.dice.bytes(count);
        }
        let bytes = if payload.is_empty() { "-".to_string() } else { hex(&payload) };
        let (sid, room) = (self.number(sid.into()), self.room(HEADER + payload.len()));
        let answer = self.say(format!("send {sid} {bytes} {room}"));
        self.emitted(&answer[1]);
    }

    /// A room for a read's ACK. Where the read emits none it is often too short for one, since
    /// that must not matter.
    fn ack_room(&mut self, emits_ack: bool) -> String {
        if emits_ack || self.dice.chance(50) {
            return self.room(HEADER);
        }
        let room = self.dice.below(HEADER);
        self.number(room)
    }

    pub fn read(&mut self, sid: u16) {
        let waiting = self.ours.end.find(sid).map(|i| &self.ours.end.slots[i]);
        let length = waiting.map_or(0, |slot| slot.lengths[slot.oldest()]);
        let emits_ack = waiting.is_some_and(Slot::read_emits_ack);
        let (room, ack_room) = (self.room(length.into()), self.ack_room(emits_ack));
        let sid = self.number(sid.into());
        let answer = self.say(format!("read {sid} {room} {ack_room}"));
        self.emitted(&answer[2]);
    }

    pub fn close(&mut self, sid: u16) {
        let (sid, room) = (self.number(sid.into()), self.room(HEADER));
        let answer = self.say(format!("close {sid} {room}"));
        self.emitted(&answer[1]);
    }

    /// Mostly the SID of a session with something to read.
    pub fn some_sid_to_read(&mut self) -> u16 {
        let slots = &self.ours.end.slots;
        let waiting: Vec<u16> =
            slots.iter().filter(|slot| slot.unread() > 0).map(|slot| slot.sid).collect();
        match waiting.is_empty() || self.dice.chance(25) {
            true => self.some_sid(),
            false => self.dice.pick(&waiting),
        }
    }

    /// Whether the peer has sent something that isn't taken.
    pub fn has_mail(&self) -> bool {
        !self.to_ours.is_empty()
    }

    /// A `take` of given bytes; they come from no channel.
    pub fn take_bytes(&mut self, bytes: &[u8]) -> Vec<String> {
        if let Some(header) = Header::read(bytes) {
            if let Some(i) = self.ours.end.find(header.sid) {
                self.seen[i][header.seqnum as usize % PLACES] = true;
            }
        }
        let bytes = if bytes.is_empty() { "-".to_string() } else { hex(bytes) };
        self.say(format!("take {bytes}"))
    }

    /// A `take` of some front part of what the peer sent; the bytes used leave.
    pub fn take(&mut self) {
        let held = self.to_ours.len();
        let one = Header::read(&self.to_ours).map_or(0, |header| header.length as usize);
        let count = match self.dice.weighted(&[60, 16, 10, 10, 4]) {
            0 => one,
            1 => held,
            2 => one + self.dice.below(held - one + 1),
            3 => self.dice.below(one + 1),
            _ => self.dice.pick(&[1, 15, 16, 17]),
        };
        let front = self.to_ours[..count.min(held).min(LARGEST_TAKE)].to_vec();
        let answer = self.take_bytes(&front);
        let used: usize = answer[1].parse().unwrap_or(0);
        self.to_ours.drain(..used);
    }

    pub fn take_everything(&mut self) {
        while let Some(header) = Header::read(&self.to_ours) {
            let front = self.to_ours[..header.length as usize].to_vec();
            let answer = self.take_bytes(&front);
            if answer[0] != "0" {
                break;
            }
            self.to_ours.drain(..front.len());
        }
    }

    fn peer_sid(&mut self) -> Option<u16> {
        let used = fields::used_slots(&self.peer.end);
        if used.is_empty() {
            return None;
        }
        Some(self.peer.end.slots[self.dice.pick(&used)].sid)
    }

    pub fn peer_open(&mut self) {
        self.to_ours.extend(self.peer.open(&mut self.dice));
    }

    pub fn peer_send(&mut self) {
        let Some(sid) = self.peer_sid() else { return };
        self.to_ours.extend(self.peer.send(&mut self.dice, sid));
    }

    pub fn peer_read(&mut self) {
        let Some(sid) = self.peer_sid() else { return };
        self.to_ours.extend(self.peer.read(&mut self.dice, sid));
    }

    pub fn peer_close(&mut self) {
        let Some(sid) = self.peer_sid() else { return };
        self.to_ours.extend(self.peer.close(&mut self.dice, sid));
    }

    /// The peer takes all that is on its channel.
    pub fn peer_take(&mut self) {
        let bytes = std::mem::take(&mut self.to_peer);
        self.peer.take_all(&mut self.dice, bytes);
    }

    /// Looks at a place of a slot in use, or anywhere.
    pub fn peek(&mut self) {
        let used = fields::used_slots(&self.ours.end);
        let (at, count) = match used.is_empty() || self.dice.chance(10) {
            true => {
                let at = self.dice.below(STORAGE + 1);
                let most = (STORAGE - at).min(600);
                (at, self.dice.below(most + 1))
            }
            false => {
                let place = 4 * self.dice.pick(&used) + self.dice.below(4);
                (PAYLOAD * place, self.dice.pick(&[8, 24, PAYLOAD, PAYLOAD]))
            }
        };
        let (at, count) = (self.number(at), self.number(count));
        self.say(format!("peek {at} {count}"));
    }

    /// Sets our slot `i` and the peer's slot `i` so that they fit together, with nothing on the
    /// channels: what one has sent the other has received, what one was last told the other has as
    /// its L. Each may have read one payload since. The peer's WNDW may go far beyond its own
    /// window.
    pub fn matching_records(&mut self, i: usize, sid: u16) {
        let mut ours = fields::slot(&mut self.dice, ESTABLISHED, sid);
        let mut peer = fields::slot(&mut self.dice, ESTABLISHED, sid);
        if self.dice.chance(70) {
            ours.s = 0u32.wrapping_sub(self.dice.below(6) as u32);
        }
        let beyond = fields::grant(&mut self.dice) - WINDOW;
        let window = self.dice.below(5) as u32;
        ours.h = ours.s.wrapping_add(window + beyond);
        if self.dice.chance(70) {
            let window = ours.g.wrapping_sub(ours.r);
            ours.r = 0u32.wrapping_sub(self.dice.below(6) as u32);
            ours.g = ours.r.wrapping_add(window);
        }
        // Nobody sends more than he was told he may, so that L is never behind R.
        ours.l = match ours.g == ours.r {
            true => ours.g,
            false => ours.g.wrapping_sub(self.dice.below(2) as u32),
        };
        (peer.s, peer.h) = (ours.r, ours.l);
        (peer.r, peer.l) = (ours.s, ours.s.wrapping_add(window));
        peer.g = match window == WINDOW {
            true => peer.l,
            false => peer.l.wrapping_add(self.dice.below(2) as u32),
        };
        // A session that one end has closed, its FIN taken by the other.
        match self.dice.below(10) {
            0 => (ours.state, peer.state) = (FIN_SENT, FIN_RECEIVED),
            1 => (ours.state, peer.state) = (FIN_RECEIVED, FIN_SENT),
            _ => {}
        }
        self.record(i, &ours);
        self.peer.end.slots[i] = peer;
        self.peer.set_beyond(sid, beyond);
    }

    pub fn record(&mut self, i: usize, slot: &Slot) {
        let Slot { state, sid, s, h, r, g, l, lengths } = slot;
        let mut line = "record".to_string();
        let mut words = vec![i, usize::from(*state), usize::from(*sid)];
        words.extend([s, h, r, g, l].map(|&counter| counter as usize));
        words.extend(lengths.map(usize::from));
        for word in words {
            line += &format!(" {}", self.number(word));
        }
        self.say(line);
    }

    /// The record, and every place that may have changed; at times the whole storage.
    pub fn finish(mut self) -> Vec<Vec<u8>> {
        self.say("show");
        if self.dice.chance(4) {
            for at in (0..STORAGE).step_by(4_096) {
                self.say(format!("peek {at} 4096"));
            }
            return self.lines;
        }
        for place in 0..SLOTS * PLACES {
            if self.seen[place / PLACES][place % PLACES] {
                self.say(format!("peek {} {PAYLOAD}", PAYLOAD * place));
            }
        }
        self.lines
    }
}
