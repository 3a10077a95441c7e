//! The peer of a conversation: one of our ends, of the other role. On some sessions it grants more
//! than its own four (document 02, (ii)). There every WNDW that it tells is so much higher, and it
//! takes all packets that it has so let us send.

use super::fields;
use crate::packet::{Header, DATA, HEADER, PAYLOAD, SYN};
use crate::random::Random;
use crate::record::{End, ESTABLISHED, FIN_SENT, HIGHEST_GRANT, WINDOW};
use std::collections::BTreeMap;

pub struct Peer {
    pub end: End,
    /// By SID, what it grants beyond its own window; never over 2,147,483,647 less 4, so that no
    /// WNDW is too far from our S.
    beyond: BTreeMap<u16, u32>,
}

impl Peer {
    pub fn new() -> Peer {
        Peer { end: End::new(), beyond: BTreeMap::new() }
    }

    pub fn start(&mut self, server: bool) {
        self.end.start(server);
        self.beyond.clear();
    }

    pub fn set_beyond(&mut self, sid: u16, beyond: u32) {
        self.beyond.insert(sid, beyond);
    }

    fn beyond(&self, sid: u16) -> u32 {
        self.beyond.get(&sid).copied().unwrap_or(0)
    }

    /// An emitted packet with the WNDW that the peer tells. At times it grants more than before.
    fn told(&mut self, dice: &mut Random, sid: u16, packet: &[u8]) -> Vec<u8> {
        let Some(mut header) = Header::read(packet) else { return Vec::new() };
        if dice.chance(2) {
            let more = dice.pick(&[1, 2, 28, 0x1_0000]);
            self.set_beyond(sid, (self.beyond(sid) + more).min(HIGHEST_GRANT - WINDOW));
        }
        header.wndw = header.wndw.wrapping_add(self.beyond(sid));
        [&header.bytes(), &packet[HEADER..]].concat()
    }

    pub fn open(&mut self, dice: &mut Random) -> Vec<u8> {
        let mut room = [0; HEADER];
        let answer = self.end.open(&mut room);
        if answer.number == 0 {
            self.set_beyond(answer.sid, fields::grant(dice) - WINDOW);
        }
        self.told(dice, answer.sid, &room[..answer.front])
    }

    pub fn send(&mut self, dice: &mut Random, sid: u16) -> Vec<u8> {
        let payload = fields::payload(dice);
        let mut room = [0; HEADER + PAYLOAD];
        let answer = self.end.send(sid, &payload, &mut room);
        self.told(dice, sid, &room[..answer.front])
    }

    pub fn read(&mut self, dice: &mut Random, sid: u16) -> Vec<u8> {
        let mut room = [0; HEADER];
        let answer = self.end.read(sid, &mut [0; PAYLOAD], &mut room);
        self.told(dice, sid, &room[..answer.ack])
    }

    pub fn close(&mut self, dice: &mut Random, sid: u16) -> Vec<u8> {
        let mut room = [0; HEADER];
        let answer = self.end.close(sid, &mut room);
        self.told(dice, sid, &room[..answer.front])
    }

    /// Takes all that is on its channel. It may go down after a script has forced records on our
    /// end; then it stays silent.
    pub fn take_all(&mut self, dice: &mut Random, mut bytes: Vec<u8>) {
        while let Some(header) = Header::read(&bytes) {
            self.make_room(&header);
            let answer = self.end.take(&bytes);
            if answer.number != 0 {
                return;
            }
            if header.flags == SYN {
                self.set_beyond(header.sid, fields::grant(dice) - WINDOW);
            }
            bytes.drain(..answer.used);
        }
    }

    /// Makes its record ready for a packet that it has granted beyond its own window.
    fn make_room(&mut self, header: &Header) {
        let beyond = self.beyond(header.sid);
        let Some(i) = self.end.find(header.sid).filter(|_| beyond > 0) else { return };
        let slot = &mut self.end.slots[i];
        let ahead = header.seqnum.wrapping_sub(slot.r);
        match slot.state {
            // The oldest payload is read early. The ACK, if there is one, is lost: the next packet
            // tells as much.
            ESTABLISHED if header.flags == DATA && slot.r == slot.g => {
                self.end.read(header.sid, &mut [0; PAYLOAD], &mut [0; HEADER]);
            }
            // What it ignores goes by, and R with it.
            FIN_SENT if ahead <= WINDOW + beyond => {
                for counter in [&mut slot.r, &mut slot.g, &mut slot.l] {
                    *counter = counter.wrapping_add(ahead);
                }
            }
            _ => {}
        }
    }
}
