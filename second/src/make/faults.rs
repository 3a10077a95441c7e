//! Scripts that bring an end to a state, then give it a packet that is a fault there.

use super::damage::{allowed, faulty};
use super::fields::{self, unknown_sid};
use super::talk::Talk;
use super::traffic::{start_again, traffic, while_down, EVEN, MUCH_CLOSING, NOBODY_READS};
use crate::record::{Slot, ESTABLISHED, FIN_RECEIVED, FIN_SENT, FREE, SLOTS};

/// Some traffic, then a packet that is a fault; this once or twice.
pub fn faults(talk: &mut Talk) {
    for _ in 0..1 + talk.dice.below(2) {
        let steps = 10 + talk.dice.below(50);
        let weights = talk.dice.pick(&[EVEN, NOBODY_READS, MUCH_CLOSING]);
        traffic(talk, steps, &weights);
        // What a peer may grant has more edges than the rest.
        let number = talk.dice.pick(&[20, 21, 22, 23, 24, 25, 26, 27, 27, 28, 28, 29, 30]);
        fault(talk, number);
        while_down(talk);
        start_again(talk);
    }
    traffic(talk, 10, &EVEN);
}

pub fn fault(talk: &mut Talk, number: u32) {
    if !talk.ours.end.up {
        talk.say("end server 1");
    }
    if !allowed(&talk.ours.end, number) {
        arrange(talk, number);
    }
    talk.say("show");
    let mut bytes = faulty(&mut talk.dice, &talk.ours.end, number);
    if talk.dice.chance(12) {
        let (at, bit) = (talk.dice.below(bytes.len()), talk.dice.below(8));
        bytes[at] ^= 1 << bit;
    }
    if talk.dice.chance(20) {
        let count = talk.dice.below(30);
        bytes.extend(talk.dice.bytes(count));
    }
    talk.take_bytes(&bytes);
}

/// Forces role and slots so that the fault can be had.
fn arrange(talk: &mut Talk, number: u32) {
    match number {
        24 => {
            talk.say("end client 1");
        }
        25..=27 => {
            talk.say("end server 1");
        }
        _ => {}
    }
    let states: &[u8] = match number {
        30 => &[FIN_RECEIVED],
        _ => &[ESTABLISHED, FIN_SENT],
    };
    for i in 0..SLOTS {
        if allowed(&talk.ours.end, number) {
            return;
        }
        if number == 27 {
            talk.record(i, &Slot::default());
        } else if talk.ours.end.slots[i].state == FREE || number >= 28 {
            let sid = unknown_sid(&mut talk.dice, &talk.ours.end);
            let state = talk.dice.pick(states);
            let slot = fields::slot(&mut talk.dice, state, sid);
            talk.record(i, &slot);
        }
    }
}
