//! The records of document 01 with the L of request (i) and the H of request (ii), for `calls`: a
//! session's slot, and an end with its sixteen slots and the lent storage. Here is what a record
//! tells by itself; the calls are in `end.rs`.

use crate::packet::PAYLOAD;

pub const SLOTS: usize = 16;
pub const PLACES: usize = 4;
pub const STORAGE: usize = SLOTS * PLACES * PAYLOAD;
/// Our own window: G - R is never over it, and our SYN grants it. Document 02, (ii): "Our own
/// receive window stays 4."
pub const WINDOW: u32 = 4;
/// The lowest window that a SYN may grant us. Document 02, (ii): "A SYN may grant 4 to
/// 2,147,483,647, which becomes H."
pub const LOWEST_GRANT: u32 = 4;
/// The highest window that a peer may grant us, with a SYN or later. Document 02, (ii): "WNDW is
/// now in range when a <= b <= 2,147,483,647, and a well-made record has H - S up to that."
pub const HIGHEST_GRANT: u32 = 2_147_483_647;
/// A read announces a G that is so far past L, or farther.
pub const NOTICE: u32 = 2;

pub const FREE: u8 = 0;
pub const ESTABLISHED: u8 = 1;
pub const FIN_SENT: u8 = 2;
pub const FIN_RECEIVED: u8 = 3;

#[derive(Clone, Default, PartialEq, Debug)]
pub struct Slot {
    pub state: u8,
    pub sid: u16,
    pub s: u32,
    pub h: u32,
    pub r: u32,
    pub g: u32,
    /// LastHighWaterForRecv: the WNDW of the last packet emitted.
    pub l: u32,
    pub lengths: [u16; PLACES],
}

impl Slot {
    /// A new session. A client, whom nobody has granted anything yet, has an H of 4; at a server H
    /// is what the SYN grants.
    pub fn fresh(sid: u16, h: u32) -> Slot {
        Slot { state: ESTABLISHED, sid, h, g: WINDOW, l: WINDOW, ..Slot::default() }
    }

    /// H less S: how many packets the peer still lets us send.
    pub fn window(&self) -> u32 {
        self.h.wrapping_sub(self.s)
    }

    pub fn is_all_zeros(&self) -> bool {
        *self == Slot::default()
    }

    pub fn unread(&self) -> u32 {
        match self.state {
            ESTABLISHED | FIN_RECEIVED => self.r.wrapping_add(WINDOW).wrapping_sub(self.g),
            _ => 0,
        }
    }

    /// G less L: what reads have freed since the last packet told the peer.
    pub fn untold(&self) -> u32 {
        self.g.wrapping_sub(self.l)
    }

    /// Whether the next read, which makes G larger by 1, emits an ACK.
    pub fn read_emits_ack(&self) -> bool {
        self.state == ESTABLISHED && self.untold().wrapping_add(1) >= NOTICE
    }

    /// The place of the oldest unread payload.
    pub fn oldest(&self) -> usize {
        place(self.g.wrapping_sub(3))
    }
}

/// The place, among a slot's four, of the payload with a SEQNUM.
pub fn place(seqnum: u32) -> usize {
    (seqnum % PLACES as u32) as usize
}

#[derive(Clone)]
pub struct End {
    pub server: bool,
    pub up: bool,
    pub slots: [Slot; SLOTS],
    pub storage: Vec<u8>,
    /// How many of the storage's bytes calls get.
    pub lent: usize,
}

impl End {
    /// A client that is down, with a whole storage of zeros.
    pub fn new() -> End {
        End {
            server: false,
            up: false,
            slots: Default::default(),
            storage: vec![0; STORAGE],
            lent: STORAGE,
        }
    }

    pub fn find(&self, sid: u16) -> Option<usize> {
        self.slots.iter().position(|slot| slot.state != FREE && slot.sid == sid)
    }

    pub fn free_slot(&self) -> Option<usize> {
        self.slots.iter().position(|slot| slot.state == FREE)
    }

    pub fn is_well_made(&self) -> bool {
        for (i, slot) in self.slots.iter().enumerate() {
            if slot.state == FREE {
                if !slot.is_all_zeros() {
                    return false;
                }
                continue;
            }
            let good = self.up
                && slot.window() <= HIGHEST_GRANT
                && slot.g.wrapping_sub(slot.r) <= WINDOW
                && slot.untold() <= 1
                && slot.lengths.iter().all(|&length| usize::from(length) <= PAYLOAD);
            let twin =
                self.slots[..i].iter().any(|other| other.state != FREE && other.sid == slot.sid);
            if !good || twin {
                return false;
            }
        }
        true
    }
}
