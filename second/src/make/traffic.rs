//! The steps of which most scripts are made: calls of our end, doings of the peer, and odd calls
//! in between. What is likely differs from script to script.

use super::bad::bad_line;
use super::fields::{near, unknown_sid, used_slots};
use super::talk::Talk;

/// How likely each step is: open, then our send, read, close, take, then the peer's send, read,
/// close, take, then show, peek, an odd call, a bad line.
pub type Weights = [usize; 13];

pub const EVEN: Weights = [8, 20, 16, 2, 30, 20, 12, 2, 16, 2, 2, 3, 1];
pub const NOBODY_READS: Weights = [5, 30, 2, 1, 30, 30, 2, 1, 16, 2, 2, 2, 1];
pub const WE_READ_ALL: Weights = [4, 4, 35, 1, 40, 35, 4, 1, 16, 2, 3, 2, 1];
pub const PEER_READS_ALL: Weights = [4, 35, 4, 1, 30, 4, 35, 1, 30, 2, 1, 2, 1];
pub const MUCH_CLOSING: Weights = [22, 10, 8, 14, 34, 12, 4, 14, 20, 3, 1, 2, 1];
pub const MANY: Weights = [60, 10, 6, 1, 60, 12, 4, 1, 16, 1, 1, 1, 0];

pub fn traffic(talk: &mut Talk, steps: usize, weights: &Weights) {
    for _ in 0..steps {
        step(talk, weights);
    }
}

pub fn step(talk: &mut Talk, weights: &Weights) {
    let mut which = talk.dice.weighted(weights);
    // Calls that need a session or a packet are of little use without one.
    let idle = used_slots(&talk.ours.end).is_empty() && (1..=3).contains(&which);
    if (idle || which == 4 && !talk.has_mail()) && talk.dice.chance(90) {
        which = if talk.has_mail() { 4 } else { talk.dice.pick(&[0, 5, 5, 6]) };
    }
    match which {
        0 if !talk.ours.end.server => talk.open(),
        0 => talk.peer_open(),
        1 => call(talk, 1),
        2 => call(talk, 2),
        3 => call(talk, 3),
        4 => talk.take(),
        5 => talk.peer_send(),
        6 => talk.peer_read(),
        7 => talk.peer_close(),
        8 => talk.peer_take(),
        9 => {
            talk.say("show");
        }
        10 => talk.peek(),
        11 => odd_call(talk),
        _ => {
            let line = bad_line(&mut talk.dice);
            talk.say(line);
        }
    }
}

/// Call number `which`: open, send, read, close, shutdown, or a take of something near.
pub fn call(talk: &mut Talk, which: usize) {
    let sid = talk.some_sid();
    match which {
        0 => talk.open(),
        1 => talk.send(sid),
        2 => {
            let sid = talk.some_sid_to_read();
            talk.read(sid)
        }
        3 => talk.close(sid),
        4 => {
            talk.say("shutdown");
        }
        _ => {
            let bytes = near(&mut talk.dice, &talk.ours.end);
            talk.take_bytes(&bytes);
        }
    }
}

/// A call that is likely refused, or with a short storage.
pub fn odd_call(talk: &mut Talk) {
    match talk.dice.below(4) {
        0 => {
            let sid = unknown_sid(&mut talk.dice, &talk.ours.end);
            match talk.dice.below(3) {
                0 => talk.send(sid),
                1 => talk.read(sid),
                _ => talk.close(sid),
            }
        }
        1 if talk.ours.end.server => talk.open(),
        1 => {
            talk.take_bytes(&[]);
        }
        _ => {
            let short = talk.dice.pick(&[0, 1, 512, 2_048, 16_384, 32_767]);
            talk.say(format!("lend {short}"));
            for _ in 0..1 + talk.dice.below(4) {
                match talk.dice.below(6) {
                    0 | 1 => talk.take(),
                    2 | 3 => call(talk, 2),
                    4 => talk.peek(),
                    _ => step(talk, &EVEN),
                }
            }
            talk.say("lend 32768");
        }
    }
}

/// Starts again in some role, at times with a short storage, which stays short.
pub fn start_again(talk: &mut Talk) {
    let short = talk.dice.chance(15);
    if short {
        talk.say("lend 32767");
    }
    let server = talk.dice.chance(50);
    talk.start(server);
    if short {
        for _ in 0..1 + talk.dice.below(3) {
            let which = talk.dice.pick(&[0, 5, 5]);
            call(talk, which);
        }
        // The calls above told the peer nothing.
        talk.say("lend 32768");
        talk.start(server);
    }
}

/// Calls on an end that is down.
pub fn while_down(talk: &mut Talk) {
    talk.say("show");
    for _ in 0..1 + talk.dice.below(5) {
        let which = talk.dice.below(6);
        call(talk, which);
    }
}
