//! Tests worked out by hand from document 02's request (ii), window four is not the protocol's
//! limit. A session has SID 5. The numbers in the middle and at the wrap are
//! 2147483647 = 2^31 - 1 = 0x7fffffff, and 4294967295 = 2^32 - 1 = 0xffffffff.

use super::talk;
use crate::feed::report;
use crate::random::Random;
use crate::record::End;

/// Gives a record to a server, and a packet for it, FLAGS to WNDW in hexadecimal; the answer, and
/// slot 0 after it, or none where the end is down.
fn take_on(record: &str, packet: &str, answer: &str, slot: Option<&str>) {
    let shown = match slot {
        Some(slot) => format!("server 1 0:{slot}:0:0:0:0"),
        None => "server 0".to_string(),
    };
    talk(&[
        ("start server", "0"),
        (&format!("record 0 {record} 0 0 0 0"), "ok"),
        (&format!("take 53{packet}"), answer),
        ("show", &shown),
    ]);
}

const SYN_DONE: &str = "0 16 1 5 0";
const ACK_DONE: &str = "0 16 2 5 0";
const FIN_DONE: &str = "0 16 4 5 0";
const DATA_DONE: &str = "0 16 8 5 0";
const FAULT_27: &str = "27 0 0 0 0";
const FAULT_28: &str = "28 0 0 0 0";

/// "A SYN may grant 4 to 2,147,483,647, which becomes H." Else, and for a SEQNUM that isn't 0, 27.
#[test]
fn what_a_syn_may_grant() {
    for (fields, h) in [
        ("0000000004000000", "4"),
        ("0000000005000000", "5"),
        ("0000000020000000", "32"),
        ("0000000000000040", "1073741824"),
        ("00000000feffff7f", "2147483646"),
        ("00000000ffffff7f", "2147483647"),
    ] {
        talk(&[
            ("start server", "0"),
            (&format!("take 5301050010000000{fields}"), SYN_DONE),
            ("show", &format!("server 1 0:1:5:0:{h}:0:4:4:0:0:0:0")),
        ]);
    }
    for fields in [
        "0000000000000000",
        "0000000001000000",
        "0000000003000000",
        "0000000000000080",
        "0000000001000080",
        "0000000004000080",
        "0000000020000080",
        "00000000ffffffff",
        "0100000004000000",
        "0100000020000000",
        "01000000ffffff7f",
        "0100000000000080",
        "ffffffff20000000",
    ] {
        talk(&[
            ("start server", "0"),
            (&format!("take 5301050010000000{fields}"), FAULT_27),
            ("show", "server 0"),
        ]);
    }
}

/// 27 keeps its place: 24, 25 and 26 come before it.
#[test]
fn before_27() {
    talk(&[
        ("start client", "0"),
        ("take 53010500100000000000000000000080", "24 0 0 0 0"),
        ("start server", "0"),
        ("take 53010500100000000000000020000000", SYN_DONE),
        ("take 53010500100000000000000003000000", "25 0 0 0 0"),
    ]);
    let mut lines = vec![("start server".to_string(), "0".to_string())];
    for sid in 0..16 {
        let syn = format!("take 5301{sid:02x}00100000000000000020000000");
        lines.push((syn, format!("0 16 1 {sid} 0")));
    }
    let syn = "take 53011000100000000000000003000000";
    lines.push((syn.to_string(), "26 0 0 0 0".to_string()));
    let lines: Vec<(&str, &str)> = lines.iter().map(|(a, b)| (a.as_str(), b.as_str())).collect();
    talk(&lines);
}

/// S = 0xffffffff, H = 3: WNDW 3 passes (8), WNDW 4 passes now (9), WNDW 2 gives 28 (10).
#[test]
fn bench_values_8_to_10() {
    let record = "1 5 4294967295 3 0 4 4";
    let after = |h: &str| format!("1:5:4294967295:{h}:0:4:4");
    take_on(record, "020500100000000000000003000000", ACK_DONE, Some(&after("3")));
    take_on(record, "020500100000000000000004000000", ACK_DONE, Some(&after("4")));
    take_on(record, "020500100000000000000002000000", FAULT_28, None);
}

/// The same record at the other edge: WNDW 0x7ffffffe is 2^31 - 1 past S, WNDW 0x7fffffff 2^31. And
/// WNDW = S is below H.
#[test]
fn wndw_far_from_s() {
    let record = "1 5 4294967295 3 0 4 4";
    let after = "1:5:4294967295:2147483646:0:4:4";
    take_on(record, "0205001000000000000000feffff7f", ACK_DONE, Some(after));
    take_on(record, "0205001000000000000000ffffff7f", FAULT_28, None);
    take_on(record, "0205001000000000000000feffffff", FAULT_28, None);
    take_on(record, "0205001000000000000000ffffffff", FAULT_28, None);
    let after = "3:5:4294967295:2147483646:0:4:4";
    take_on(record, "0405001000000000000000feffff7f", FIN_DONE, Some(after));
    take_on(record, "0405001000000000000000ffffff7f", FAULT_28, None);
    let after = "1:5:4294967295:2147483646:1:4:4";
    take_on(record, "0805001000000001000000feffff7f", DATA_DONE, Some(after));
    take_on(record, "0805001000000001000000ffffff7f", FAULT_28, None);
}

/// H - S is 2^31 - 1, so that only WNDW = H is in range; or one less, and there are two.
#[test]
fn wndw_on_wide_windows() {
    let record = "1 5 4294967295 2147483646 0 4 4";
    let after = "1:5:4294967295:2147483646:0:4:4";
    take_on(record, "0205001000000000000000fdffff7f", FAULT_28, None);
    take_on(record, "0205001000000000000000feffff7f", ACK_DONE, Some(after));
    take_on(record, "0205001000000000000000ffffff7f", FAULT_28, None);
    let record = "1 5 4294967295 2147483645 0 4 4";
    let before = "1:5:4294967295:2147483645:0:4:4";
    take_on(record, "0205001000000000000000fcffff7f", FAULT_28, None);
    take_on(record, "0205001000000000000000fdffff7f", ACK_DONE, Some(before));
    take_on(record, "0205001000000000000000feffff7f", ACK_DONE, Some(after));
    take_on(record, "0205001000000000000000ffffff7f", FAULT_28, None);
    // S = 0x80000000: 2^31 - 1 past it is 0xffffffff, and 0 is one too far.
    let record = "1 5 2147483648 2147483680 0 4 4";
    take_on(record, "02050010000000000000001f000080", FAULT_28, None);
    let after = "1:5:2147483648:2147483680:0:4:4";
    take_on(record, "020500100000000000000020000080", ACK_DONE, Some(after));
    let after = "1:5:2147483648:4294967295:0:4:4";
    take_on(record, "0205001000000000000000ffffffff", ACK_DONE, Some(after));
    take_on(record, "020500100000000000000000000000", FAULT_28, None);
}

/// In FIN SENT the range is asked for, and H stays.
#[test]
fn ignored_packets() {
    let record = "2 5 0 32 0 4 4";
    let after = "2:5:0:32:0:4:4";
    take_on(record, "02050010000000000000001f000000", FAULT_28, None);
    take_on(record, "020500100000000000000020000000", ACK_DONE, Some(after));
    take_on(record, "0205001000000000000000ffffff7f", ACK_DONE, Some(after));
    take_on(record, "0805001000000000000000ffffff7f", DATA_DONE, Some(after));
    take_on(record, "020500100000000000000000000080", FAULT_28, None);
}

/// "A well-made record has H - S up to that." Only H - S widens: G - R is at most 4 as before.
#[test]
fn well_made() {
    for state in 1..=3 {
        for (s, h, answer) in [
            (4294967295u32, 2147483645u32, "0"),
            (4294967295, 2147483646, "0"),
            (4294967295, 2147483647, "12"),
            (4294967295, 4294967294, "12"),
            (0, 5, "0"),
            (0, 32, "0"),
            (0, 2147483647, "0"),
            (0, 2147483648, "12"),
            (0, 4294967295, "12"),
            (1, 2147483648, "0"),
            (1, 2147483649, "12"),
            (1, 0, "12"),
            (2147483648, 4294967295, "0"),
            (2147483648, 0, "12"),
            (2147483649, 0, "0"),
            (2147483649, 1, "12"),
        ] {
            let record = format!("record 7 {state} 5 {s} {h} 0 4 4 0 0 0 0");
            talk(&[("start client", "0"), (&record, "ok"), ("shutdown", answer)]);
        }
        for (r, g, answer) in [
            (0, 4, "0"),
            (0, 5, "12"),
            (0, 32, "12"),
            (0, 2147483647, "12"),
            (4294967295u32, 3, "0"),
            (4294967295, 4, "12"),
            (4294967295, 2147483646, "12"),
        ] {
            let record = format!("record 7 {state} 5 0 32 {r} {g} {g} 0 0 0 0");
            talk(&[("start client", "0"), (&record, "ok"), ("shutdown", answer)]);
        }
    }
}

/// A send with H - S = 2^31 - 1, where S goes past the wrap; and one with H in the middle, after
/// which the window is closed.
#[test]
fn sends_with_wide_windows() {
    talk(&[
        ("start client", "0"),
        ("record 0 1 5 4294967295 2147483646 0 4 4 0 0 0 0", "ok"),
        ("send 5 - 16", "0 53080500100000000000000004000000"),
        ("show", "client 1 0:1:5:0:2147483646:0:4:4:0:0:0:0"),
        ("record 0 1 5 2147483645 2147483646 0 4 4 0 0 0 0", "ok"),
        ("send 5 - 16", "0 5308050010000000feffff7f04000000"),
        ("send 5 - 16", "7 -"),
        ("show", "client 1 0:1:5:2147483646:2147483646:0:4:4:0:0:0:0"),
    ]);
}

/// A peer that granted 32 gets thirty-two packets, the next send is 7, and after a WNDW of 33 there
/// is one more.
#[test]
fn thirty_two_sends() {
    let mut lines = vec![("start server".to_string(), "0".to_string())];
    lines.push(("take 53010500100000000000000020000000".to_string(), SYN_DONE.to_string()));
    for seqnum in 1..=32 {
        let packet = format!("5308050010000000{seqnum:02x}00000004000000");
        lines.push(("send 5 - 16".to_string(), format!("0 {packet}")));
    }
    for (line, answer) in [
        ("send 5 - 16", "7 -"),
        ("show", "server 1 0:1:5:32:32:0:4:4:0:0:0:0"),
        ("take 53020500100000000000000021000000", ACK_DONE),
        ("send 5 - 16", "0 53080500100000002100000004000000"),
        ("send 5 - 16", "7 -"),
        ("show", "server 1 0:1:5:33:33:0:4:4:0:0:0:0"),
    ] {
        lines.push((line.to_string(), answer.to_string()));
    }
    let lines: Vec<(&str, &str)> = lines.iter().map(|(a, b)| (a.as_str(), b.as_str())).collect();
    talk(&lines);
}

/// "Our own receive window stays 4": our SYN grants 4, and a client's H is 4 until the peer tells
/// more. At most four packets are unread, whatever the peer grants.
#[test]
fn our_own_window() {
    talk(&[
        ("start client", "0"),
        ("open 16", "0 0 53010000100000000000000004000000"),
        ("show", "client 1 0:1:0:0:4:0:4:4:0:0:0:0"),
        ("take 53020000100000000000000020000000", "0 16 2 0 0"),
        ("show", "client 1 0:1:0:0:32:0:4:4:0:0:0:0"),
        ("take 53080000100000000100000020000000", "0 16 8 0 0"),
        ("take 53080000100000000200000020000000", "0 16 8 0 0"),
        ("take 53080000100000000300000020000000", "0 16 8 0 0"),
        ("take 53080000100000000400000020000000", "0 16 8 0 0"),
        ("show", "client 1 0:1:0:0:32:4:4:4:0:0:0:0"),
        ("take 53080000100000000500000020000000", "29 0 0 0 0"),
    ]);
}

/// `feed` with a peer that grants 32, and then less than it has granted.
#[test]
fn a_capture_of_a_peer_that_grants_32() {
    let capture = "\
53010500100000000000000020000000
53080500120000000100000020000000abcd
53020500100000000100000021000000
53080500120000000200000041000000abcd
53040500100000000200000040000000
53020500100000000200000041000000
";
    let told = "\
1 0 0005 0
2 0 0005 1
3 0 0005 1
4 0 0005 2
5 28 0005 0
6 1 0005 0
end down 0
";
    assert_eq!(report(capture.as_bytes()), told.as_bytes());
}

/// `feed` at the highest window, and past it.
#[test]
fn captures_at_the_edges() {
    for (frames, told) in [
        (["0000000003000000", "0000000003000000"], "1 27 0005 0\n2 1 0005 0\nend down 0\n"),
        (["0000000004000000", "0000000003000000"], "1 0 0005 0\n2 28 0005 0\nend down 0\n"),
        (["0000000004000000", "00000000ffffff7f"], "1 0 0005 0\n2 0 0005 0\nend up 1\n"),
        (["0000000004000000", "0000000000000080"], "1 0 0005 0\n2 28 0005 0\nend down 0\n"),
        (["00000000ffffff7f", "00000000ffffff7f"], "1 0 0005 0\n2 0 0005 0\nend up 1\n"),
        (["00000000ffffff7f", "00000000feffff7f"], "1 0 0005 0\n2 28 0005 0\nend down 0\n"),
        (["00000000ffffff7f", "0000000000000080"], "1 0 0005 0\n2 28 0005 0\nend down 0\n"),
        (["0000000000000080", "0000000000000080"], "1 27 0005 0\n2 1 0005 0\nend down 0\n"),
        (["00000000ffffffff", "00000000ffffffff"], "1 27 0005 0\n2 1 0005 0\nend down 0\n"),
        (["0100000020000000", "0000000020000000"], "1 27 0005 0\n2 1 0005 0\nend down 0\n"),
    ] {
        let capture = format!("5301050010000000{}\n5302050010000000{}\n", frames[0], frames[1]);
        assert_eq!(report(capture.as_bytes()), told.as_bytes(), "{capture}");
    }
}

/// "Between two of our ends nothing changes": neither finds H more than 4 past S.
#[test]
fn two_of_our_ends() {
    let mut dice = Random::new(2, 0);
    let mut ends = [End::new(), End::new()];
    let mut channels = [Vec::new(), Vec::new()];
    ends[0].start(false);
    ends[1].start(true);
    for _ in 0..20_000 {
        let who = dice.below(2);
        let sid = dice.below(4) as u16;
        let (mut room, mut ack) = ([0; 20], [0; 16]);
        let emitted = match dice.weighted(&[1, 12, 12, 1, 24]) {
            0 if who == 0 && ends[0].find(3).is_none() => ends[0].open(&mut room).front,
            1 => ends[who].send(sid, &[1, 2, 3, 4], &mut room).front,
            2 => {
                let front = ends[who].read(sid, &mut room, &mut ack).ack;
                room[..front].copy_from_slice(&ack[..front]);
                front
            }
            3 => ends[who].close(sid, &mut room).front,
            _ => {
                let taken = ends[who].take(&channels[who]);
                assert!(matches!(taken.number, 0 | 10));
                channels[who].drain(..taken.used);
                0
            }
        };
        channels[1 - who].extend(&room[..emitted]);
        assert!(ends.iter().all(|end| end.slots.iter().all(|slot| slot.window() <= 4)));
    }
}
