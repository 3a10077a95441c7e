//! Packets that are a given fault at a given end, one for every number from 20 to 30.

use super::fields::{
    grant, right, right_seqnum, sid, slots_in, syn, unknown_sid, used_slots, wrong_grant,
};
use crate::packet::{packet, ACK, DATA, FIN, HEADER};
use crate::random::Random;
use crate::record::{End, ESTABLISHED, FIN_RECEIVED, FIN_SENT, HIGHEST_GRANT, SLOTS};

/// Whether the end's record allows the fault.
pub fn allowed(end: &End, fault: u32) -> bool {
    let used = used_slots(end).len();
    match fault {
        24 => !end.server,
        25 => end.server && used > 0,
        26 => end.server && used == SLOTS,
        27 => end.server && used < SLOTS,
        28 | 29 => !slots_in(end, &[ESTABLISHED, FIN_SENT]).is_empty(),
        30 => !slots_in(end, &[FIN_RECEIVED]).is_empty(),
        _ => true,
    }
}

/// A packet that take answers with the fault, where the end allows it.
pub fn faulty(dice: &mut Random, end: &End, fault: u32) -> Vec<u8> {
    let flags = dice.pick(&[ACK, FIN, DATA]);
    match fault {
        20 => {
            let mut bytes = any_right(dice, end);
            bytes[0] = dice.pick(&[0x00, 0x52, 0x54, 0xd3, 0x35]);
            bytes
        }
        21 => {
            let mut bytes = any_right(dice, end);
            bytes[1] = dice.pick(&[0x00, 0x03, 0x05, 0x06, 0x07, 0x09, 0x0a, 0x0c, 0x0f]);
            if dice.chance(50) {
                bytes[1] = dice.pick(&[0x10, 0x20, 0x40, 0x80, 0x11, 0x12, 0x28, 0x84, 0xff]);
            }
            bytes
        }
        22 => wrong_length(dice, end),
        23 => packet(flags, unknown_sid(dice, end), counter_like(dice), counter_like(dice), &[]),
        24 | 26 => match dice.chance(70) {
            true => {
                let sid = unknown_sid(dice, end);
                syn(dice, sid)
            }
            // Other things wrong with it come later.
            false => packet(1, unknown_sid(dice, end), counter_like(dice), counter_like(dice), &[]),
        },
        25 => {
            let used = used_slots(end);
            let sid = end.slots[dice.pick(&used)].sid;
            syn(dice, sid)
        }
        27 => {
            let sid = unknown_sid(dice, end);
            let small = dice.pick(&[1, 4, 0x100, 0x0100_0000, 0xffff_ffff]);
            match dice.weighted(&[3, 1, 5]) {
                0 => packet(1, sid, small, grant(dice), &[]),
                1 => packet(1, sid, small, wrong_grant(dice), &[]),
                _ => packet(1, sid, 0, wrong_grant(dice), &[]),
            }
        }
        28 => wrong_wndw(dice, end, flags),
        29 => wrong_seqnum(dice, end, flags),
        _ => {
            let ended = slots_in(end, &[FIN_RECEIVED]);
            let slot = &end.slots[dice.pick(&ended)];
            let payload = if flags == DATA { dice.bytes(3) } else { Vec::new() };
            let right_ones = dice.chance(60);
            let (seqnum, wndw) = match right_ones {
                true => (slot.r.wrapping_add(u32::from(flags == DATA)), slot.h),
                false => (counter_like(dice), counter_like(dice)),
            };
            packet(flags, slot.sid, seqnum, wndw, &payload)
        }
    }
}

fn counter_like(dice: &mut Random) -> u32 {
    dice.pick(&[0, 1, 2, 3, 4, 5, 6, 32, 0x7fff_ffff, 0x8000_0000, 0xffff_fffe, 0xffff_ffff])
}

/// A packet right for some session, or a SYN where there is none.
fn any_right(dice: &mut Random, end: &End) -> Vec<u8> {
    let open = slots_in(end, &[ESTABLISHED, FIN_SENT]);
    if open.is_empty() {
        let sid = sid(dice);
        return syn(dice, sid);
    }
    let flags = dice.pick(&[ACK, FIN, DATA]);
    let slot = end.slots[dice.pick(&open)].clone();
    right(dice, &slot, flags)
}

fn wrong_length(dice: &mut Random, end: &End) -> Vec<u8> {
    let mut bytes = any_right(dice, end);
    let length: u32 = match bytes[1] {
        DATA => dice.pick(&[0, 1, 15, 529, 530, 1_024, 0x0001_0010, 0x1000_0000, 0xffff_ffff]),
        _ => dice.pick(&[0, 15, 17, 18, 528, 0x0110, 0x0001_0010, 0x1000_0000, 0xffff_ffff]),
    };
    bytes[4..8].copy_from_slice(&length.to_le_bytes());
    if dice.chance(30) {
        // 22 comes before 10, and needs no more than the header.
        bytes.truncate(HEADER);
    } else if dice.chance(30) {
        let more = dice.below(600);
        bytes.extend(dice.bytes(more));
    }
    bytes
}

fn wrong_wndw(dice: &mut Random, end: &End, flags: u8) -> Vec<u8> {
    let open = slots_in(end, &[ESTABLISHED, FIN_SENT]);
    let slot = end.slots[dice.pick(&open)].clone();
    let far = dice.next() as u32 | 0x8000_0000;
    // The nearest on both sides come twice.
    let wrong = [
        slot.h.wrapping_sub(1),
        slot.h.wrapping_sub(1),
        slot.h.wrapping_sub(2),
        slot.s.wrapping_add(HIGHEST_GRANT + 1),
        slot.s.wrapping_add(HIGHEST_GRANT + 1),
        slot.s.wrapping_add(HIGHEST_GRANT + 2),
        slot.s.wrapping_sub(1),
        slot.h.wrapping_add(0x8000_0000),
        slot.s.wrapping_add(far),
    ];
    let wndw = dice.pick(&wrong);
    let seqnum = match dice.chance(80) {
        true => right_seqnum(dice, &slot, flags),
        false => counter_like(dice),
    };
    packet(flags, slot.sid, seqnum, wndw, &[])
}

fn wrong_seqnum(dice: &mut Random, end: &End, flags: u8) -> Vec<u8> {
    let open = slots_in(end, &[ESTABLISHED, FIN_SENT]);
    let slot = end.slots[dice.pick(&open)].clone();
    let mut wrong = vec![
        slot.r.wrapping_sub(1),
        slot.g.wrapping_add(1),
        slot.g.wrapping_add(2),
        slot.r.wrapping_add(0x8000_0000),
        slot.g.wrapping_add(0x8000_0000),
        dice.next() as u32,
    ];
    if flags == DATA && slot.state == ESTABLISHED {
        wrong.extend([slot.r, slot.r.wrapping_add(2)]);
    }
    let mut bytes = right(dice, &slot, flags);
    let seqnum = dice.pick(&wrong);
    bytes[8..12].copy_from_slice(&seqnum.to_le_bytes());
    bytes
}
