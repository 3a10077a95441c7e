//! Call scripts: what each sort of script does. Every sort ends with the record shown and the
//! storage looked at, so that these are compared too.

use super::bad::{bad_line, edge_line, spoiled};
use super::faults::{fault, faults};
use super::grants::grants;
use super::records::{any_records, ill_made};
use super::talk::Talk;
use super::traffic::{
    start_again, step, traffic, while_down, EVEN, MANY, MUCH_CLOSING, NOBODY_READS, PEER_READS_ALL,
    WE_READ_ALL,
};
use crate::random::Random;
use crate::record::SLOTS;

pub fn script(dice: Random) -> Vec<Vec<u8>> {
    let mut talk = Talk::new(dice);
    let server = talk.dice.chance(50);
    talk.start(server);
    talk.say("lend 32768");
    match talk.dice.weighted(&[23, 14, 5, 23, 16, 9, 8, 8]) {
        0 => plain(&mut talk),
        1 => across_the_wrap(&mut talk),
        2 => sixteen_and_one(&mut talk),
        3 => any_records(&mut talk),
        4 => faults(&mut talk),
        5 => ill_made(&mut talk),
        6 => bad_lines(&mut talk),
        _ => grants(&mut talk),
    }
    talk.finish()
}

fn plain(talk: &mut Talk) {
    let weights =
        [EVEN, EVEN, NOBODY_READS, WE_READ_ALL, PEER_READS_ALL, MUCH_CLOSING, MUCH_CLOSING];
    let weights = talk.dice.pick(&weights);
    let steps = 40 + talk.dice.below(120);
    traffic(talk, steps, &weights);
    if talk.dice.chance(25) {
        talk.say("shutdown");
        while_down(talk);
        if talk.dice.chance(50) {
            start_again(talk);
            traffic(talk, 30, &EVEN);
        }
    }
}

/// Counters near 2^32 at both ends, and traffic across the wrap.
fn across_the_wrap(talk: &mut Talk) {
    let count = 1 + talk.dice.below(4);
    for i in 0..count {
        talk.matching_records(i, i as u16);
    }
    let weights = talk.dice.pick(&[EVEN, WE_READ_ALL, PEER_READS_ALL, NOBODY_READS, MUCH_CLOSING]);
    let steps = 50 + talk.dice.below(100);
    traffic(talk, steps, &weights);
}

/// All slots in use, and one session more; then some freed and used again.
fn sixteen_and_one(talk: &mut Talk) {
    let server = talk.ours.end.server;
    for _ in 0..SLOTS + 1 {
        match server {
            true => talk.peer_open(),
            false => talk.open(),
        }
    }
    talk.take_everything();
    talk.peer_take();
    traffic(talk, 30, &EVEN);
    traffic(talk, 30, &MUCH_CLOSING);
    traffic(talk, 60, &MANY);
    talk.take_everything();
    if server && talk.dice.chance(70) {
        fault(talk, 26);
    }
}

/// Lines of every bad sort between right ones.
fn bad_lines(talk: &mut Talk) {
    traffic(talk, 20, &EVEN);
    for _ in 0..15 + talk.dice.below(25) {
        match talk.dice.weighted(&[60, 10, 10, 12, 8]) {
            0 => {
                let line = bad_line(&mut talk.dice);
                talk.say(line);
            }
            1 => {
                let line = edge_line(&mut talk.dice);
                talk.say(line);
            }
            2 => {
                let made = talk.dice.below(talk.lines.len());
                let line = spoiled(&mut talk.dice, &talk.lines[made].clone());
                talk.say(line);
            }
            3 => step(talk, &EVEN),
            _ => {
                talk.say("show");
            }
        }
    }
    if talk.dice.chance(50) {
        start_again(talk);
        talk.say("lend 32768");
        traffic(talk, 10, &EVEN);
    }
}
