//! Scripts for a peer that grants more than four: all of a window is sent at once, then one packet
//! too many; and packets with a WNDW at the edges of its range.

use super::fields::{self, unknown_sid};
use super::talk::Talk;
use crate::packet::{packet, ACK, SYN};
use crate::record::{HIGHEST_GRANT, LOWEST_GRANT};

pub fn grants(talk: &mut Talk) {
    match talk.dice.chance(40) {
        true => all_at_once(talk),
        false => at_the_edges(talk),
    }
}

/// A session made for the script, with the SYN's SEQNUM and what the peer grants; its SID.
fn begin(talk: &mut Talk, seqnum: u32, granted: u32) -> u16 {
    let ours = &talk.ours.end;
    if ours.server {
        let sid = unknown_sid(&mut talk.dice, ours);
        talk.take_bytes(&packet(SYN, sid, seqnum, granted, &[]));
        return sid;
    }
    let sid = talk.say("open 16")[1].parse().unwrap_or(0);
    ack(talk, sid, granted);
    sid
}

fn ack(talk: &mut Talk, sid: u16, wndw: u32) {
    let r = talk.ours.end.find(sid).map_or(0, |i| talk.ours.end.slots[i].r);
    talk.take_bytes(&packet(ACK, sid, r, wndw, &[]));
}

/// Sends until the window is closed, then once more; then the peer grants some more, twice.
fn all_at_once(talk: &mut Talk) {
    let granted = talk.dice.pick(&[4, 5, 6, 8, 31, 32, 32, 33]);
    let sid = begin(talk, 0, granted);
    let mut wndw = granted;
    for _ in 0..3 {
        while talk.ours.end.find(sid).is_some_and(|i| talk.ours.end.slots[i].window() > 0) {
            talk.send(sid);
        }
        talk.send(sid);
        talk.say("show");
        wndw += talk.dice.pick(&[0, 1, 2, 5, 7]);
        ack(talk, sid, wndw);
    }
}

/// A WNDW at an edge of its range or one past it, until it is a fault. A send in between moves S,
/// and the edges with it.
fn at_the_edges(talk: &mut Talk) {
    for _ in 0..1 + talk.dice.below(4) {
        if !talk.ours.end.up {
            talk.start(true);
        }
        let right = fields::grant(&mut talk.dice);
        let (seqnum, granted) = match talk.dice.weighted(&[70, 10, 10, 10]) {
            1 if talk.ours.end.server => (0, LOWEST_GRANT - 1),
            2 if talk.ours.end.server => (0, HIGHEST_GRANT + 1),
            3 => (1, right),
            _ => (0, right),
        };
        let sid = begin(talk, seqnum, granted);
        for _ in 0..1 + talk.dice.below(6) {
            let Some(i) = talk.ours.end.find(sid) else { break };
            if talk.dice.chance(40) {
                talk.send(sid);
            }
            let slot = talk.ours.end.slots[i].clone();
            let highest = slot.s.wrapping_add(HIGHEST_GRANT);
            let wndw = match talk.dice.weighted(&[6, 6, 4, 1, 1]) {
                0 => highest,
                1 => highest.wrapping_sub(1),
                2 => slot.h,
                3 => highest.wrapping_add(1),
                _ => slot.h.wrapping_sub(1),
            };
            ack(talk, sid, wndw);
        }
        talk.say("show");
    }
}
