//! Tests worked out by hand from document 02's request (i), fewer window notices. A session has
//! SID 5, its payloads one byte each.

use super::talk;

const SYN: (&str, &str) = ("take 53010500100000000000000004000000", "0 16 1 5 0");
const DATA_1: (&str, &str) = ("take 5308050011000000010000000400000001", "0 17 8 5 0");
const DATA_2: (&str, &str) = ("take 5308050011000000020000000400000002", "0 17 8 5 0");
const DATA_3: (&str, &str) = ("take 5308050011000000030000000400000003", "0 17 8 5 0");
const FIN_AFTER_2: (&str, &str) = ("take 53040500100000000200000004000000", "0 16 4 5 0");

/// Both ends begin with L = 4, so that the first read tells nothing and the second does.
#[test]
fn fresh_records() {
    talk(&[
        ("start client", "0"),
        ("open 16", "0 0 53010000100000000000000004000000"),
        ("show", "client 1 0:1:0:0:4:0:4:4:0:0:0:0"),
        ("start server", "0"),
        SYN,
        ("show", "server 1 0:1:5:0:4:0:4:4:0:0:0:0"),
    ]);
}

/// Each row is read as it comes; the second, fourth, sixth and eighth read say so.
#[test]
fn eight_rows_give_four_acks() {
    let mut lines = vec![("start server".to_string(), "0".to_string())];
    lines.push((SYN.0.to_string(), SYN.1.to_string()));
    let acks = ["-", "06", "-", "08", "-", "0a", "-", "0c"];
    for (row, wndw) in (1..).zip(acks) {
        let data = format!("take 5308050011000000{row:02x}00000004000000{row:02x}");
        lines.push((data, "0 17 8 5 0".to_string()));
        let ack = match wndw {
            "-" => "-".to_string(),
            _ => format!("530205001000000000000000{wndw}000000"),
        };
        lines.push(("read 5 1 16".to_string(), format!("0 {row:02x} {ack}")));
    }
    lines.push(("show".to_string(), "server 1 0:1:5:0:4:8:12:12:1:1:1:1".to_string()));
    let lines: Vec<(&str, &str)> = lines.iter().map(|(a, b)| (a.as_str(), b.as_str())).collect();
    talk(&lines);
}

/// DATA that goes back carries the window, so that the read after it tells nothing.
#[test]
fn data_announces_the_window() {
    talk(&[
        ("start server", "0"),
        SYN,
        DATA_1,
        ("read 5 1 16", "0 01 -"),
        ("show", "server 1 0:1:5:0:4:1:5:4:0:1:0:0"),
        ("send 5 - 16", "0 53080500100000000100000005000000"),
        ("show", "server 1 0:1:5:1:4:1:5:5:0:1:0:0"),
        DATA_2,
        ("read 5 1 16", "0 02 -"),
        DATA_3,
        ("read 5 1 16", "0 03 53020500100000000100000007000000"),
        ("show", "server 1 0:1:5:1:4:3:7:7:0:1:1:1"),
    ]);
}

/// A send that is refused emits nothing, and so leaves L.
#[test]
fn a_refused_send_announces_nothing() {
    talk(&[
        ("start server", "0"),
        SYN,
        DATA_1,
        ("read 5 1 16", "0 01 -"),
        ("send 5 - 15", "9 -"),
        ("show", "server 1 0:1:5:0:4:1:5:4:0:1:0:0"),
        DATA_2,
        ("read 5 1 16", "0 02 53020500100000000000000006000000"),
    ]);
}

/// Room for an ACK is asked for only by the read that emits one; its refusal changes nothing.
#[test]
fn ack_room() {
    talk(&[
        ("start server", "0"),
        SYN,
        DATA_1,
        DATA_2,
        ("read 5 1 0", "0 01 -"),
        ("read 5 1 0", "9 - -"),
        ("read 5 1 15", "9 - -"),
        ("show", "server 1 0:1:5:0:4:2:5:4:0:1:1:0"),
        ("read 5 0 16", "9 - -"),
        ("lend 32767", "ok"),
        ("read 5 1 16", "9 - -"),
        ("lend 32768", "ok"),
        ("read 5 1 16", "0 02 53020500100000000000000006000000"),
    ]);
}

/// After FIN nobody is told, and the record stays well made all the same.
#[test]
fn reads_after_fin() {
    talk(&[
        ("start server", "0"),
        SYN,
        DATA_1,
        DATA_2,
        FIN_AFTER_2,
        ("read 5 1 0", "0 01 -"),
        ("show", "server 1 0:3:5:0:4:2:5:5:0:1:1:0"),
        ("read 5 1 0", "0 02 -"),
        ("show", "server 1 0:3:5:0:4:2:6:6:0:1:1:0"),
        ("read 5 1 0", "11 - -"),
        ("close 5 16", "0 53040500100000000000000006000000"),
        ("show", "server 1"),
    ]);
}

/// A FIN tells the window too: from ESTABLISHED it sets L, and a slot that it frees has none.
#[test]
fn close_announces_the_window() {
    talk(&[
        ("start server", "0"),
        SYN,
        DATA_1,
        ("read 5 1 16", "0 01 -"),
        ("close 5 15", "9 -"),
        ("show", "server 1 0:1:5:0:4:1:5:4:0:1:0:0"),
        ("close 5 16", "0 53040500100000000000000005000000"),
        ("show", "server 1 0:2:5:0:4:1:5:5:0:1:0:0"),
        ("take 53040500100000000100000004000000", "0 16 4 5 0"),
        ("show", "server 1"),
        ("shutdown", "0"),
    ]);
}

/// G is 2^32 - 1, then 0, then 1; L goes from 2^32 - 1 to 1.
#[test]
fn across_the_wrap() {
    talk(&[
        ("start server", "0"),
        ("record 0 1 5 0 4 4294967295 4294967295 4294967295 0 0 0 0", "ok"),
        ("read 5 0 0", "0 - -"),
        ("show", "server 1 0:1:5:0:4:4294967295:0:4294967295:0:0:0:0"),
        ("read 5 0 0", "9 - -"),
        ("read 5 0 16", "0 - 53020500100000000000000001000000"),
        ("show", "server 1 0:1:5:0:4:4294967295:1:1:0:0:0:0"),
        ("record 0 1 5 0 4 4294967295 4294967295 4294967294 0 0 0 0", "ok"),
        ("read 5 0 16", "0 - 53020500100000000000000000000000"),
        ("show", "server 1 0:1:5:0:4:4294967295:0:0:0:0:0:0"),
    ]);
}

/// G - L may be 0 or 1 in every state in use, and nothing else; a free slot has no L.
#[test]
fn well_made() {
    for state in 1..=3 {
        for (g, l, answer) in [
            (2, 2, "0"),
            (2, 1, "0"),
            (0, 4294967295u32, "0"),
            (2, 0, "12"),
            (3, 0, "12"),
            (0, 4294967294, "12"),
            (2, 3, "12"),
            (0, 1, "12"),
            (2, 2147483650, "12"),
        ] {
            let record = format!("record 7 {state} 5 0 4 4294967295 {g} {l} 0 0 0 0");
            talk(&[("start client", "0"), (&record, "ok"), ("shutdown", answer)]);
        }
    }
    for l in ["1", "4", "4294967295"] {
        let record = format!("record 7 0 0 0 0 0 0 {l} 0 0 0 0");
        let shown = format!("client 1 7:0:0:0:0:0:0:{l}:0:0:0:0");
        talk(&[("start client", "0"), (&record, "ok"), ("show", &shown), ("shutdown", "12")]);
    }
}

/// A `record` line with no L, or with one that is too large, is none.
#[test]
fn record_lines() {
    talk(&[
        ("record 0 1 5 0 4 0 4 0 0 0 0", "bad"),
        ("record 0 1 5 0 4 0 4 4294967296 0 0 0 0", "bad"),
        ("record 0 1 5 0 4 0 4 4 0 0 0 0 0", "bad"),
        ("show", "client 0"),
        ("record 0 1 5 1 2 3 4 4294967295 6 7 8 9", "ok"),
        ("show", "client 0 0:1:5:1:2:3:4:4294967295:6:7:8:9"),
    ]);
}
