//! Random values for lines and packets: payloads, records, and packets that an end accepts
//! or nearly accepts. The values lie at or beside the bounds that documents 01 and 02 set.

use crate::packet::{packet, Header, ACK, DATA, FIN, HEADER, PAYLOAD, SMID, SYN};
use crate::random::Random;
use crate::record::{End, Slot, ESTABLISHED, FREE, HIGHEST_GRANT, LOWEST_GRANT, SLOTS, WINDOW};

pub fn payload(dice: &mut Random) -> Vec<u8> {
    let count = match dice.weighted(&[12, 66, 12, 4, 6]) {
        0 => 0,
        1 => 1 + dice.below(12),
        2 => dice.below(100),
        3 => dice.below(PAYLOAD + 1),
        _ => PAYLOAD - dice.below(2),
    };
    dice.bytes(count)
}

/// A counter, often near the wrap or near the middle.
pub fn counter(dice: &mut Random) -> u32 {
    match dice.weighted(&[25, 45, 10, 20]) {
        0 => dice.below(6) as u32,
        1 => 0u32.wrapping_sub(1 + dice.below(7) as u32),
        2 => 0x8000_0000u32.wrapping_sub(3).wrapping_add(dice.below(7) as u32),
        _ => dice.next() as u32,
    }
}

pub fn sid(dice: &mut Random) -> u16 {
    match dice.weighted(&[50, 20, 30]) {
        0 => dice.below(8) as u16,
        1 => dice.pick(&[255, 256, 0x0500, 0x7fff, 0x8000, 0xff00, 65_535]),
        _ => dice.next() as u16,
    }
}

/// A SID that no used slot has.
pub fn unknown_sid(dice: &mut Random, end: &End) -> u16 {
    loop {
        // A free slot's 0 and a neighbour of a SID in use are good to try.
        let used = used_slots(end);
        let sid = match dice.below(3) {
            0 => 0,
            1 if !used.is_empty() => end.slots[dice.pick(&used)].sid.wrapping_add(1),
            _ => sid(dice),
        };
        if end.find(sid).is_none() {
            return sid;
        }
    }
}

/// A window that a SYN may grant, mostly four.
pub fn grant(dice: &mut Random) -> u32 {
    match dice.weighted(&[60, 22, 12, 6]) {
        0 => LOWEST_GRANT,
        1 => dice.pick(&[5, 6, 8, 31, 32, 33]),
        2 => HIGHEST_GRANT - dice.below(3) as u32,
        _ => (dice.next() as u32 >> 1).max(LOWEST_GRANT),
    }
}

/// A window that no SYN may grant.
pub fn wrong_grant(dice: &mut Random) -> u32 {
    match dice.weighted(&[30, 10, 30, 15, 15]) {
        0 => LOWEST_GRANT - 1,
        1 => dice.below(LOWEST_GRANT as usize) as u32,
        2 => HIGHEST_GRANT + 1,
        3 => dice.pick(&[0x8000_0001, 0x8000_0004, 0x8000_0020, 0xffff_fffc, 0xffff_ffff]),
        _ => dice.next() as u32 | 0x8000_0000,
    }
}

/// A difference H - S that a well-made record may have.
fn window(dice: &mut Random) -> u32 {
    match dice.weighted(&[55, 15, 18, 12]) {
        0 => dice.below(5) as u32,
        1 => dice.pick(&[5, 6, 31, 32, 33]),
        2 => HIGHEST_GRANT - dice.below(3) as u32,
        _ => dice.next() as u32 >> (1 + dice.below(31)),
    }
}

/// A difference H - S that no well-made record has.
pub fn too_wide(dice: &mut Random) -> u32 {
    match dice.weighted(&[50, 20, 20, 10]) {
        0 => HIGHEST_GRANT + 1,
        1 => HIGHEST_GRANT + 2,
        2 => 0xffff_ffff,
        _ => dice.next() as u32 | 0x8000_0000,
    }
}

/// A slot in use that is well made on its own.
pub fn slot(dice: &mut Random, state: u8, sid: u16) -> Slot {
    let (s, r) = (counter(dice), counter(dice));
    let mut lengths = [0; 4];
    for length in &mut lengths {
        *length = match dice.below(3) {
            0 => dice.pick(&[0, 1, 511, 512]),
            1 => dice.below(20) as u16,
            _ => dice.below(PAYLOAD + 1) as u16,
        };
    }
    let (h, g) = (s.wrapping_add(window(dice)), r.wrapping_add(dice.below(5) as u32));
    let l = g.wrapping_sub(dice.below(2) as u32);
    Slot { state, sid, s, h, r, g, l, lengths }
}

/// A difference G - L that no well-made record has.
pub fn too_much_untold(dice: &mut Random) -> u32 {
    match dice.weighted(&[40, 15, 25, 10, 10]) {
        0 => 2,
        1 => 3,
        2 => 0xffff_ffff,
        3 => dice.pick(&[4, 0x8000_0000, 0xffff_fffe]),
        _ => (dice.next() as u32).max(2),
    }
}

pub fn used_slots(end: &End) -> Vec<usize> {
    (0..SLOTS).filter(|&i| end.slots[i].state != FREE).collect()
}

pub fn slots_in(end: &End, states: &[u8]) -> Vec<usize> {
    (0..SLOTS).filter(|&i| states.contains(&end.slots[i].state)).collect()
}

/// A WNDW in range: mostly H or a little past it, at times as high as it may be.
pub fn right_wndw(dice: &mut Random, slot: &Slot) -> u32 {
    let room = HIGHEST_GRANT.saturating_sub(slot.window());
    let more = match dice.weighted(&[50, 34, 8, 8]) {
        0 => 0,
        1 => dice.below(6) as u32,
        2 => room.saturating_sub(dice.below(2) as u32),
        _ => dice.next() as u32 >> (1 + dice.below(31)),
    };
    slot.h.wrapping_add(more.min(room))
}

/// A SEQNUM in range, if the window isn't closed.
pub fn right_seqnum(dice: &mut Random, slot: &Slot, flags: u8) -> u32 {
    if flags == DATA && slot.state == ESTABLISHED {
        return slot.r.wrapping_add(1);
    }
    let room = slot.g.wrapping_sub(slot.r).min(4);
    slot.r.wrapping_add(dice.below(room as usize + 1) as u32)
}

/// A packet that the slot accepts (DATA only if its window isn't closed, none in FIN RECEIVED).
pub fn right(dice: &mut Random, slot: &Slot, flags: u8) -> Vec<u8> {
    let payload = if flags == DATA { payload(dice) } else { Vec::new() };
    let (seqnum, wndw) = (right_seqnum(dice, slot, flags), right_wndw(dice, slot));
    packet(flags, slot.sid, seqnum, wndw, &payload)
}

/// A SYN that is right in all but perhaps its SID.
pub fn syn(dice: &mut Random, sid: u16) -> Vec<u8> {
    packet(SYN, sid, 0, grant(dice), &[])
}

fn near_seqnum(dice: &mut Random, slot: &Slot) -> u32 {
    let from = dice.pick(&[slot.r, slot.g]);
    match dice.chance(90) {
        true => from.wrapping_sub(2).wrapping_add(dice.below(5) as u32),
        false => dice.next() as u32,
    }
}

fn near_wndw(dice: &mut Random, slot: &Slot) -> u32 {
    let highest = slot.s.wrapping_add(HIGHEST_GRANT);
    let from = dice.pick(&[slot.s, slot.s.wrapping_add(WINDOW), slot.h, slot.h, highest, highest]);
    match dice.chance(90) {
        true => from.wrapping_sub(2).wrapping_add(dice.below(5) as u32),
        false => dice.next() as u32,
    }
}

/// A packet whose fields are mostly right, each at times beside its bounds.
pub fn near(dice: &mut Random, end: &End) -> Vec<u8> {
    let used = used_slots(end);
    let mut slot = match used.is_empty() {
        true => Slot { sid: sid(dice), ..Slot::default() },
        false => end.slots[dice.pick(&used)].clone(),
    };
    let flags = match dice.weighted(&[40, 25, 15, 14, 6]) {
        0 => DATA,
        1 => ACK,
        2 => FIN,
        3 => SYN,
        _ => dice.next() as u8,
    };
    if dice.chance(if flags == SYN { 85 } else { 6 }) {
        slot.sid = unknown_sid(dice, end);
    }
    let payload = if flags == DATA { payload(dice) } else { Vec::new() };
    let right = dice.below(100);
    let seqnum = match (flags, right) {
        (SYN, 0..=89) => 0,
        (SYN, _) => near_seqnum(dice, &slot),
        (_, 0..=74) => right_seqnum(dice, &slot, flags),
        _ => near_seqnum(dice, &slot),
    };
    let right = dice.below(100);
    let wndw = match (flags, right) {
        (SYN, 0..=84) => grant(dice),
        (SYN, _) => wrong_grant(dice),
        (_, 0..=74) => right_wndw(dice, &slot),
        _ => near_wndw(dice, &slot),
    };
    let mut length = (HEADER + payload.len()) as u32;
    if dice.chance(5) {
        length = dice.pick(&[0, 15, 16, 17, 527, 528, 529, 0x0001_0010, 0xffff_ffff]);
    }
    let smid = if dice.chance(2) { dice.next() as u8 } else { SMID };
    let mut bytes = Header { smid, flags, sid: slot.sid, length, seqnum, wndw }.bytes();
    bytes.extend(payload);
    match dice.below(12) {
        0 => bytes.truncate(dice.below(bytes.len() + 1)),
        1 => bytes.truncate(dice.pick(&[15, 16, 17, 18])),
        2 | 3 => {
            let more = dice.below(40);
            bytes.extend(dice.bytes(more));
        }
        _ => {}
    }
    bytes
}
