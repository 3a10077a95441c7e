//! Cases that an answer's number alone doesn't show, and that a comparison must meet: what request
//! (i) says of reads and of L, and request (ii) of what a peer grants.

use crate::packet::{Header, ACK, DATA, FIN, HEADER, SYN};
use crate::record::{
    End, Slot, ESTABLISHED, FIN_RECEIVED, FREE, HIGHEST_GRANT, LOWEST_GRANT, STORAGE, WINDOW,
};

/// A line of `calls` that was answered.
pub struct Met<'a> {
    pub words: Vec<&'a str>,
    pub answer: Vec<&'a str>,
    /// The header of the packet that a take gets; none for other lines, and where it is cut.
    pub header: Option<Header>,
    /// The session that the line or its packet names, as it was before; a free slot where there is
    /// none.
    pub slot: Slot,
    /// The end after the line. A refusal leaves it as it was.
    pub end: &'a End,
}

pub type Case = (&'static str, fn(&Met) -> bool);

pub const CASES: [Case; 27] = [
    ("read with an ACK", read_with_ack),
    ("read in ESTABLISHED without one", read_without_ack),
    ("the same with an ACK room under 16", |met| read_without_ack(met) && ack_room(met) < HEADER),
    ("read in FIN RECEIVED", |met| read_done(met, FIN_RECEIVED)),
    ("9 for want of ACK room alone", wants_ack_room),
    ("ACK with its WNDW past the wrap and L before it", |met| {
        read_with_ack(met) && met.slot.g.wrapping_add(1) < met.slot.l
    }),
    ("no ACK where the new G is 0", |met| read_without_ack(met) && met.slot.g == u32::MAX),
    ("12 for G - L = 2 alone", |met| bad_l_in_use(met, 2)),
    ("12 for L = G + 1 alone", |met| bad_l_in_use(met, u32::MAX)),
    ("12 for L in a free slot alone", bad_l_in_a_free_slot),
    ("SYN that grants 4", |met| is_syn(met, "0") && wndw(met) == LOWEST_GRANT),
    ("SYN that grants more than 4", |met| is_syn(met, "0") && wndw(met) > LOWEST_GRANT),
    ("SYN that grants 2^31 - 1", |met| is_syn(met, "0") && wndw(met) == HIGHEST_GRANT),
    ("27 for a grant of 3 alone", |met| wrong_syn(met) && wndw(met) == LOWEST_GRANT - 1),
    ("27 for a grant of 2^31 alone", |met| wrong_syn(met) && wndw(met) == HIGHEST_GRANT + 1),
    ("27 for SEQNUM alone with a grant over 4", |met| {
        is_syn(met, "27") && (LOWEST_GRANT + 1..=HIGHEST_GRANT).contains(&wndw(met))
    }),
    ("WNDW - S over 4", |met| is_other(met, "0") && granted(met) > WINDOW),
    ("the same with WNDW past the wrap and S before it", |met| {
        is_other(met, "0") && granted(met) > WINDOW && wndw(met) < met.slot.s
    }),
    ("WNDW - S = 2^31 - 1", |met| is_other(met, "0") && granted(met) == HIGHEST_GRANT),
    ("28 for WNDW - S = 2^31", |met| is_other(met, "28") && granted(met) == HIGHEST_GRANT + 1),
    ("28 for WNDW = H - 1 with H - S over 4", |met| {
        is_other(met, "28") && met.slot.window() > WINDOW && granted(met) == met.slot.window() - 1
    }),
    ("send with H - S over 4", |met| is_send(met, "0") && met.slot.window() > WINDOW),
    ("7 at S = H = 32", |met| is_send(met, "7") && met.slot.s == 32),
    ("another answer than 12 with H - S = 2^31 - 1", |met| {
        is_call(met)
            && !["12", "bad"].contains(&met.answer[0])
            && met.slot.window() == HIGHEST_GRANT
    }),
    ("12 for H - S = 2^31 alone", |met| {
        bad_in_use(met, |slot| slot.window() == HIGHEST_GRANT + 1, |slot| slot.h = slot.s)
    }),
    ("12 for G - R = 5 alone", |met| {
        bad_in_use(
            met,
            |slot| slot.g.wrapping_sub(slot.r) == WINDOW + 1,
            |slot| (slot.g, slot.l) = (slot.r, slot.r.wrapping_sub(slot.untold())),
        )
    }),
    ("open with WNDW 4", |met| {
        met.words[0] == "open" && met.answer[0] == "0" && met.answer[2].ends_with("04000000")
    }),
];

/// Cases of `feed`, whose server never sends: a frame's header and what take answered.
pub type FeedCase = (&'static str, fn(&Header, &str) -> bool);

pub const FEED_CASES: [FeedCase; 8] = [
    ("feed SYN that grants 32", |header, answer| {
        header.flags == SYN && answer == "0" && header.wndw == 32
    }),
    ("feed SYN that grants 2^31 - 1", |header, answer| {
        header.flags == SYN && answer == "0" && header.wndw == HIGHEST_GRANT
    }),
    ("feed 27 for a grant of 3 alone", |header, answer| {
        answer == "27" && header.seqnum == 0 && header.wndw == LOWEST_GRANT - 1
    }),
    ("feed 27 for a grant of 2^31 alone", |header, answer| {
        answer == "27" && header.seqnum == 0 && header.wndw == HIGHEST_GRANT + 1
    }),
    ("feed WNDW over 4", |header, answer| {
        header.flags != SYN && answer == "0" && header.wndw > WINDOW
    }),
    ("feed WNDW 2^31 - 1", |header, answer| {
        header.flags != SYN && answer == "0" && header.wndw == HIGHEST_GRANT
    }),
    ("feed 28 for WNDW 2^31", |header, answer| answer == "28" && header.wndw == HIGHEST_GRANT + 1),
    ("feed 28 for a smaller WNDW over 4", |header, answer| {
        answer == "28" && (WINDOW + 1..HIGHEST_GRANT).contains(&header.wndw)
    }),
];

/// Whether the line is a call that has a record to look at.
fn is_call(met: &Met) -> bool {
    ["open", "send", "read", "close", "shutdown", "take"].contains(&met.words[0])
}

fn is_send(met: &Met, number: &str) -> bool {
    met.words[0] == "send" && met.answer[0] == number
}

/// A take of a SYN that has its answer.
fn is_syn(met: &Met, number: &str) -> bool {
    met.answer[0] == number && met.header.is_some_and(|header| header.flags == SYN)
}

/// A take of another packet that has its answer.
fn is_other(met: &Met, number: &str) -> bool {
    met.answer[0] == number
        && met.header.is_some_and(|header| matches!(header.flags, ACK | FIN | DATA))
}

/// A 27 where SEQNUM is 0.
fn wrong_syn(met: &Met) -> bool {
    is_syn(met, "27") && met.header.is_some_and(|header| header.seqnum == 0)
}

fn wndw(met: &Met) -> u32 {
    met.header.map_or(0, |header| header.wndw)
}

/// WNDW less S.
fn granted(met: &Met) -> u32 {
    wndw(met).wrapping_sub(met.slot.s)
}

fn is_read(met: &Met, number: &str) -> bool {
    met.words[0] == "read" && met.answer[0] == number
}

fn read_done(met: &Met, state: u8) -> bool {
    is_read(met, "0") && met.slot.state == state
}

fn read_with_ack(met: &Met) -> bool {
    read_done(met, ESTABLISHED) && met.answer[2] != "-"
}

fn read_without_ack(met: &Met) -> bool {
    read_done(met, ESTABLISHED) && met.answer[2] == "-"
}

/// Word number `at` of a right line, which is a number.
fn number(met: &Met, at: usize) -> usize {
    met.words[at].parse().expect("a right line")
}

fn ack_room(met: &Met) -> usize {
    number(met, 3)
}

/// A 9 where the storage is whole and the payload has its room.
fn wants_ack_room(met: &Met) -> bool {
    let length = usize::from(met.slot.lengths[met.slot.oldest()]);
    is_read(met, "9") && met.end.lent == STORAGE && number(met, 2) >= length
}

/// A 12 to an end that is well made once some slots are mended.
fn well_made_but_for(met: &Met, bad: impl Fn(&Slot) -> bool, mend: fn(&mut Slot)) -> bool {
    if !is_call(met) || met.answer[0] != "12" || !met.end.slots.iter().any(&bad) {
        return false;
    }
    let mut end = met.end.clone();
    end.slots.iter_mut().filter(|slot| bad(slot)).for_each(mend);
    end.is_well_made()
}

fn bad_in_use(met: &Met, bad: fn(&Slot) -> bool, mend: fn(&mut Slot)) -> bool {
    well_made_but_for(met, |slot| slot.state != FREE && bad(slot), mend)
}

fn bad_l_in_use(met: &Met, untold: u32) -> bool {
    let bad = |slot: &Slot| slot.state != FREE && slot.untold() == untold;
    well_made_but_for(met, bad, |slot| slot.l = slot.g)
}

fn bad_l_in_a_free_slot(met: &Met) -> bool {
    well_made_but_for(met, |slot| slot.state == FREE && slot.l != 0, |slot| slot.l = 0)
}
