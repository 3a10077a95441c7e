//! Scripts that set records with `record` and `end`: any well-made one, with calls and packets at
//! the bounds of its counters; and ill-made ones, with one clause of "well made" broken alone.

use super::fields::{self, slots_in, unknown_sid, used_slots};
use super::talk::Talk;
use super::traffic::{call, odd_call, start_again, traffic, EVEN};
use crate::random::Random;
use crate::record::{Slot, ESTABLISHED, FIN_RECEIVED, FIN_SENT, FREE, HIGHEST_GRANT, SLOTS};

/// Any well-made record, then calls and packets at the bounds of its counters.
pub fn any_records(talk: &mut Talk) {
    for _ in 0..3 + talk.dice.below(4) {
        set_records(talk);
        for _ in 0..4 + talk.dice.below(8) {
            let which = talk.dice.weighted(&[5, 18, 18, 8, 1, 50]);
            call(talk, which);
            if talk.dice.chance(6) {
                odd_call(talk);
            }
            if !talk.ours.end.up {
                break;
            }
        }
        talk.say("show");
    }
}

fn set_records(talk: &mut Talk) {
    if talk.dice.chance(90) {
        let role = talk.dice.pick(&["client", "server"]);
        talk.say(format!("end {role} 1"));
    }
    let full = talk.dice.chance(6);
    let share = talk.dice.pick(&[8, 15, 30]);
    for i in 0..SLOTS {
        let state = talk.dice.pick(&[ESTABLISHED, ESTABLISHED, FIN_SENT, FIN_RECEIVED]);
        if full || talk.dice.chance(share) {
            let sid = unknown_sid(&mut talk.dice, &talk.ours.end);
            let slot = fields::slot(&mut talk.dice, state, sid);
            talk.record(i, &slot);
        } else if talk.ours.end.slots[i].state != FREE && talk.dice.chance(50) {
            talk.record(i, &Slot::default());
        }
    }
    if !talk.ours.end.up && !used_slots(&talk.ours.end).is_empty() && talk.dice.chance(80) {
        talk.say("end server 1");
    }
}

/// A well-made record with one clause broken alone: every call says 12. Then it is mended.
pub fn ill_made(talk: &mut Talk) {
    match talk.dice.chance(50) {
        true => traffic(talk, 40, &EVEN),
        false => set_records(talk),
    }
    for _ in 0..2 + talk.dice.below(3) {
        let before = talk.ours.end.clone();
        break_a_clause(talk);
        talk.say("show");
        for _ in 0..2 + talk.dice.below(5) {
            match talk.dice.below(8) {
                0 => odd_call(talk),
                1 => talk.take(),
                _ => {
                    let which = talk.dice.below(6);
                    call(talk, which);
                }
            }
        }
        if talk.dice.chance(10) {
            start_again(talk);
            continue;
        }
        for i in 0..SLOTS {
            if talk.ours.end.slots[i] != before.slots[i] {
                talk.record(i, &before.slots[i]);
            }
        }
        if talk.ours.end.up != before.up {
            let role = if before.server { "server" } else { "client" };
            talk.say(format!("end {role} {}", u8::from(before.up)));
        }
        let which = talk.dice.below(6);
        call(talk, which);
    }
}

fn break_a_clause(talk: &mut Talk) {
    if !talk.ours.end.up {
        talk.say("end client 1");
    }
    let used = used_slots(&talk.ours.end);
    let (i, mut slot) = match used.is_empty() {
        false => {
            let i = talk.dice.pick(&used);
            (i, talk.ours.end.slots[i].clone())
        }
        true => {
            let (i, sid) = (talk.dice.below(SLOTS), fields::sid(&mut talk.dice));
            (i, fields::slot(&mut talk.dice, ESTABLISHED, sid))
        }
    };
    slot.state = talk.dice.pick(&[ESTABLISHED, FIN_SENT, FIN_RECEIVED]);
    let too_far = talk.dice.pick(&[5, 5, 6, 32, HIGHEST_GRANT, 0x8000_0000, 0xffff_ffff]);
    match talk.dice.weighted(&[14, 10, 10, 12, 25, 10, 15]) {
        0 => slot.h = slot.s.wrapping_add(fields::too_wide(&mut talk.dice)),
        1 => {
            // L goes along, so that only G is wrong. Our own window stays 4.
            let untold = slot.untold();
            slot.g = slot.r.wrapping_add(too_far);
            slot.l = slot.g.wrapping_sub(untold);
        }
        2 => {
            let place = talk.dice.below(4);
            slot.lengths[place] = talk.dice.pick(&[513, 514, 1_024, 65_535]);
        }
        3 => {
            let j = (i + 1 + talk.dice.below(SLOTS - 1)) % SLOTS;
            let state = talk.dice.pick(&[ESTABLISHED, FIN_SENT, FIN_RECEIVED]);
            let twin = fields::slot(&mut talk.dice, state, slot.sid);
            talk.record(j, &twin);
        }
        4 => {
            let free = slots_in(&talk.ours.end, &[FREE]);
            if !free.is_empty() {
                let j = talk.dice.pick(&free);
                let stray = stray_field(&mut talk.dice);
                talk.record(j, &stray);
                return;
            }
            slot.h = slot.s.wrapping_add(HIGHEST_GRANT + 1);
        }
        5 => {
            let role = if talk.ours.end.server { "server" } else { "client" };
            talk.say(format!("end {role} 0"));
        }
        _ => slot.l = slot.g.wrapping_sub(fields::too_much_untold(&mut talk.dice)),
    }
    talk.record(i, &slot);
}

/// A free slot with one field that isn't zero.
fn stray_field(dice: &mut Random) -> Slot {
    let mut slot = Slot::default();
    let value = dice.pick(&[1, 4, 512, 0x0100_0000, 0xffff_ffff]);
    match dice.weighted(&[1, 1, 1, 1, 1, 2, 1, 1, 1, 1]) {
        0 => slot.sid = dice.pick(&[1, 256, 65_535]),
        1 => slot.s = value,
        2 => slot.h = value,
        3 => slot.r = value,
        4 => slot.g = value,
        5 => slot.l = value,
        place => slot.lengths[place - 6] = dice.pick(&[1, 256, 512, 513]),
    }
    slot
}
