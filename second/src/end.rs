//! The calls of document 01 on one end, with requests (i) and (ii) of document 02, for `calls`:
//! they change its record and the lent storage in place. What they ask before they change anything
//! is in `checks.rs`.

use crate::checks::{Given, CLOSE, OPEN, READ, SEND, SHUTDOWN, TAKE, TAKE_OTHER, TAKE_SYN};
use crate::packet::{packet, Header, ACK, DATA, FIN, HEADER, PAYLOAD, SYN};
use crate::record::{place, End, Slot, ESTABLISHED, FIN_RECEIVED, FIN_SENT, PLACES, WINDOW};

/// What a call gives back. All but the number is zero on a refusal (but for 10's `missing`).
#[derive(Default, Debug, PartialEq)]
pub struct Answer {
    pub number: u32,
    pub sid: u16,
    /// Bytes put at the front of the packet's or payload's room.
    pub front: usize,
    /// Bytes put at the front of the ACK's room.
    pub ack: usize,
    pub used: usize,
    pub kind: u8,
    pub missing: usize,
}

impl End {
    pub fn start(&mut self, server: bool) {
        self.server = server;
        self.up = true;
        self.slots = Default::default();
    }

    fn stop(&mut self) {
        self.up = false;
        self.slots = Default::default();
    }

    pub fn open(&mut self, room: &mut [u8]) -> Answer {
        let number = self.check(OPEN, &Given { room: room.len(), ..Given::default() });
        if number != 0 {
            return Answer { number, ..Answer::default() };
        }
        let sid = (0..=u16::MAX).find(|&sid| self.find(sid).is_none()).expect("sixteen at most");
        let free = self.free_slot().expect("checked");
        self.slots[free] = Slot::fresh(sid, WINDOW);
        let front = emit(&mut self.slots[free], SYN, &[], room);
        Answer { sid, front, ..Answer::default() }
    }

    pub fn send(&mut self, sid: u16, payload: &[u8], room: &mut [u8]) -> Answer {
        let given = Given { sid, payload: payload.len(), room: room.len(), ..Given::default() };
        let number = self.check(SEND, &given);
        if number != 0 {
            return Answer { number, ..Answer::default() };
        }
        let i = self.find(sid).expect("checked");
        let slot = &mut self.slots[i];
        slot.s = slot.s.wrapping_add(1);
        let front = emit(slot, DATA, payload, room);
        Answer { front, ..Answer::default() }
    }

    pub fn read(&mut self, sid: u16, room: &mut [u8], ack_room: &mut [u8]) -> Answer {
        let given = Given { sid, room: room.len(), ack_room: ack_room.len(), ..Given::default() };
        let number = self.check(READ, &given);
        if number != 0 {
            return Answer { number, ..Answer::default() };
        }
        let i = self.find(sid).expect("checked");
        let slot = &mut self.slots[i];
        let oldest = slot.oldest();
        let begin = PAYLOAD * (PLACES * i + oldest);
        let length = usize::from(slot.lengths[oldest]);
        let front = put(room, &self.storage[begin..begin + length]);
        let emits_ack = slot.read_emits_ack();
        slot.g = slot.g.wrapping_add(1);
        if slot.state == FIN_RECEIVED {
            // Nobody is left to tell, so nothing stays untold.
            slot.l = slot.g;
        }
        let ack = if emits_ack { emit(slot, ACK, &[], ack_room) } else { 0 };
        Answer { front, ack, ..Answer::default() }
    }

    pub fn close(&mut self, sid: u16, room: &mut [u8]) -> Answer {
        let number = self.check(CLOSE, &Given { sid, room: room.len(), ..Given::default() });
        if number != 0 {
            return Answer { number, ..Answer::default() };
        }
        let i = self.find(sid).expect("checked");
        let slot = &mut self.slots[i];
        let front = emit(slot, FIN, &[], room);
        match slot.state {
            ESTABLISHED => slot.state = FIN_SENT,
            _ => *slot = Slot::default(),
        }
        Answer { front, ..Answer::default() }
    }

    pub fn shutdown(&mut self) -> Answer {
        let number = self.check(SHUTDOWN, &Given::default());
        if number == 0 {
            self.stop();
        }
        Answer { number, ..Answer::default() }
    }

    pub fn take(&mut self, bytes: &[u8]) -> Answer {
        let header = Header::read(bytes);
        let sid = header.map_or(0, |header| header.sid);
        let given = Given { sid, bytes, header, ..Given::default() };
        let mut number = self.check(TAKE, &given);
        if number == 10 {
            let wanted = header.map_or(HEADER, |header| header.length as usize);
            return Answer { number, missing: wanted - bytes.len(), ..Answer::default() };
        }
        let is_syn = header.is_some_and(|header| header.flags == SYN);
        if number == 0 {
            number = self.check(if is_syn { TAKE_SYN } else { TAKE_OTHER }, &given);
        }
        if number >= 20 {
            self.stop();
        }
        if number != 0 {
            return Answer { number, ..Answer::default() };
        }
        let header = header.expect("checked");
        if is_syn {
            let free = self.free_slot().expect("checked");
            self.slots[free] = Slot::fresh(sid, header.wndw);
        } else {
            self.accept(&header, &bytes[HEADER..header.length as usize]);
        }
        let used = header.length as usize;
        Answer { used, kind: header.flags, sid, ..Answer::default() }
    }

    /// What take does with a packet that isn't SYN and has passed all checks.
    fn accept(&mut self, header: &Header, payload: &[u8]) {
        let i = self.find(header.sid).expect("checked");
        let slot = &mut self.slots[i];
        match (slot.state, header.flags) {
            (ESTABLISHED, flags) => {
                slot.h = header.wndw;
                if flags == FIN {
                    slot.state = FIN_RECEIVED;
                }
                if flags == DATA {
                    slot.r = header.seqnum;
                    let place = place(header.seqnum);
                    slot.lengths[place] = payload.len() as u16;
                    put(&mut self.storage[PAYLOAD * (PLACES * i + place)..], payload);
                }
            }
            (_, FIN) => *slot = Slot::default(),
            _ => {}
        }
    }
}

/// Emits a packet with the session's S and G. Its WNDW is G, and so becomes L.
fn emit(slot: &mut Slot, flags: u8, payload: &[u8], room: &mut [u8]) -> usize {
    slot.l = slot.g;
    put(room, &packet(flags, slot.sid, slot.s, slot.g, payload))
}

/// Fills the front of a room and says how much.
fn put(room: &mut [u8], bytes: &[u8]) -> usize {
    room[..bytes.len()].copy_from_slice(bytes);
    bytes.len()
}
