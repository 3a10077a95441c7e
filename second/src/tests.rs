//! Tests worked out from document 01: its bench values (number 9 as request (ii) has it), its
//! listing, and a few lines of `calls`. Those of document 02's request (i) are in
//! `tests/notices.rs`, those of its request (ii) in `tests/grants.rs`.

mod grants;
mod notices;

use crate::calls::{answers, Calls};
use crate::compare::tally::Tally;
use crate::feed::report;
use crate::make::edges::{LISTING, LISTING_REPORT};
use crate::make::{capture, script};
use crate::packet::{packet, unhex, Header, ACK, DATA};
use crate::record::{End, Slot, ESTABLISHED};

fn server_with(slot: Slot) -> End {
    let mut end = End::new();
    end.start(true);
    end.slots[0] = slot;
    end
}

/// Take's number for a packet whose header is changed before.
fn number(end: &End, bytes: Vec<u8>, change: impl Fn(&mut Header)) -> u32 {
    let mut header = Header::read(&bytes).expect("a header");
    change(&mut header);
    end.clone().take(&[&header.bytes(), &bytes[16..]].concat()).number
}

#[test]
fn listing() {
    assert_eq!(report(LISTING.as_bytes()), LISTING_REPORT.as_bytes());
}

#[test]
fn bench_values() {
    let end = server_with(Slot::fresh(5, 4));
    let ack = packet(ACK, 5, 0, 4, &[]);
    let data = packet(DATA, 5, 1, 4, &[7; 513]);
    assert_eq!(number(&end, ack.clone(), |h| h.flags = 0x06), 21);
    assert_eq!(number(&end, ack.clone(), |h| h.flags = 0x00), 21);
    assert_eq!(number(&end, data.clone(), |h| h.length = 15), 22);
    assert_eq!(number(&end, data.clone(), |h| h.length = 528), 0);
    assert_eq!(number(&end, data, |h| h.length = 529), 22);
    assert_eq!(number(&end, ack, |h| h.length = 17), 22);

    let mut end = server_with(Slot {
        state: ESTABLISHED,
        sid: 5,
        s: 0xffff_ffff,
        h: 3,
        g: 4,
        l: 4,
        ..Slot::default()
    });
    let ack = packet(ACK, 5, 0, 3, &[]);
    assert_eq!(number(&end, ack.clone(), |h| h.wndw = 3), 0);
    assert_eq!(number(&end, ack.clone(), |h| h.wndw = 4), 0);
    assert_eq!(number(&end, ack, |h| h.wndw = 2), 28);
    let mut room = [0; 16];
    assert_eq!(end.send(5, &[], &mut room).number, 0);
    assert_eq!(Header::read(&room).expect("a header").seqnum, 0);

    let end = server_with(Slot {
        state: ESTABLISHED,
        sid: 5,
        h: 4,
        r: 0xffff_fffe,
        g: 2,
        l: 2,
        ..Slot::default()
    });
    let ack = packet(ACK, 5, 2, 4, &[]);
    assert_eq!(number(&end, packet(DATA, 5, 0xffff_ffff, 4, &[]), |_| ()), 0);
    assert_eq!(number(&end, ack.clone(), |h| h.seqnum = 2), 0);
    assert_eq!(number(&end, ack, |h| h.seqnum = 3), 29);
    let none = end.clone().take(&[]);
    assert_eq!((none.number, none.missing), (10, 16));
}

/// Gives lines to a `calls`, each with the answer that it must have.
fn talk(lines: &[(&str, &str)]) {
    let mut calls = Calls::new();
    for (line, answer) in lines {
        assert_eq!(calls.answer(line.as_bytes()), *answer, "{line}");
    }
}

#[test]
fn lines_and_their_answers() {
    talk(&[
        ("open 16", "1 0 -"),
        ("start client", "0"),
        ("open 15", "9 0 -"),
        ("open 0000000016", "0 0 53010000100000000000000004000000"),
        ("send 0 - 8192", "0 53080000100000000100000004000000"),
        ("send 0 0 8192", "bad"),
        ("take 53080000120000000100000004000000abcdef", "0 18 8 0 0"),
        ("take 53080000120000000200000004000000ab", "10 0 0 0 1"),
        ("read 0 1 16", "9 - -"),
        ("read 0 2 16", "0 abcd -"),
        ("read 0 2 16", "8 - -"),
        ("peek 512 3", "abcd00"),
        ("close 0 16", "0 53040000100000000100000005000000"),
        ("close 0 16", "5 -"),
        ("show", "client 1 0:2:0:1:4:1:5:5:0:2:0:0"),
        ("take 53040000100000000100000005000000", "0 16 4 0 0"),
        ("show", "client 1"),
        ("record 3 0 0 0 0 0 0 0 0 0 0 1", "ok"),
        ("shutdown", "12"),
        ("shutdown ", "bad"),
    ]);
    assert_eq!(answers(b"\nshow"), b"bad\nclient 0\n");
}

/// The two implementations here, `feed.rs` and `end.rs`, agree on captures.
#[test]
fn feed_and_end_agree() {
    for number in 0..200 {
        let input = capture(3, number).concat();
        let mut end = End::new();
        end.start(true);
        let text = String::from_utf8(report(&input)).expect("plain characters");
        for (line, told) in input.split(|&byte| byte == b'\n').zip(text.lines()) {
            let Some(frame) = unhex(line).filter(|frame| frame.len() <= 528) else { continue };
            if told.starts_with("end") {
                break;
            }
            let words: Vec<&str> = told.split(' ').collect();
            // A last line that is cut by the input's limit isn't this frame.
            if input.len() > crate::feed::INPUT {
                break;
            }
            assert_eq!(words[1], end.take(&frame).number.to_string());
            let slot = Header::read(&frame).and_then(|header| end.find(header.sid));
            let unread = slot.map_or(0, |i| end.slots[i].unread());
            assert_eq!(words[3], unread.to_string());
        }
    }
}

#[test]
fn scripts_begin_alike_and_hold_whole_lines() {
    for number in 0..200 {
        let made = script(3, number);
        assert!(made[0] == b"start client\n" || made[0] == b"start server\n");
        assert_eq!(made[1], b"lend 32768\n");
        for line in made {
            assert_eq!(line.iter().position(|&byte| byte == b'\n'), Some(line.len() - 1));
        }
    }
}

/// Four hundred scripts meet every answer of every call, and every case.
#[test]
fn scripts_reach_everything() {
    let mut tally = Tally::default();
    for number in 0..400 {
        tally.add_calls(&script(3, number));
    }
    let never = tally.never_seen();
    let never: Vec<&String> = never.iter().filter(|name| !name.starts_with("feed ")).collect();
    assert!(never.is_empty(), "never seen: {never:?}");
}
