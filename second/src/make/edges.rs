//! A few fixed inputs that random ones would seldom be: empty ones, last lines without LF,
//! lines before the first `start`, the edges of what a peer may grant.

use crate::calls::LONGEST_LINE;
use crate::feed::INPUT;

/// Document 01's listing and its report.
pub const LISTING: &str = "\
53010500100000000000000004000000
53080500120000000100000004000000abcd
53020500100000000100000004000000
53080500100000000300000004000000
00
";
pub const LISTING_REPORT: &str = "\
1 0 0005 0
2 0 0005 1
3 0 0005 1
4 29 0005 0
5 1 ---- 0
end down 0
";

/// Lines for an end that was never started, then one that is started, each answered at once.
pub const CONVERSATION: &str = "\
show
open 16
send 0 00 17
read 0 512 16
close 0 16
shutdown
take -
take 53010000100000000000000004000000
peek 0 16
start server
take 53010000100000000000000004000000
take 53080000140000000100000004000000616263
take 53080000140000000100000004000000616263640a
show
send 0 6f6b 528
read 0 512 16
peek 0 8
take 5308000011000000020000000500000065
read 0 512 15
read 0 512 16
show
take 53040000100000000200000005000000
read 0 512 16
close 0 16
show
shutdown
show
";

/// Reads with G and L on both sides of the wrap, and records with an L that isn't well made.
const AROUND_THE_WRAP: &str = "\
start server
record 0 1 5 0 4 4294967295 0 4294967295 1 2 3 4
read 5 512 15
read 5 512 16
show
record 0 1 5 0 4 4294967294 4294967295 4294967295 1 2 3 4
read 5 512 0
read 5 512 0
read 5 512 16
show
record 0 3 5 0 4 4294967294 4294967295 4294967294 1 2 3 4
read 5 512 0
read 5 512 0
show
close 5 16
show
record 0 1 5 0 4 4294967295 0 4294967294 1 2 3 4
read 5 512 16
record 0 1 5 0 4 4294967294 4294967295 0 1 2 3 4
read 5 512 16
record 0 0 0 0 0 0 0 4294967295 0 0 0 0
show
shutdown
";

/// Records, SYNs and WNDWs at the edges of what a peer may grant, and one past them.
const GRANTS: &str = "\
start server
record 0 1 5 4294967295 3 0 4 4 0 0 0 0
take 53020500100000000000000004000000
show
take 530205001000000000000000feffff7f
show
send 5 - 16
show
take 530205001000000000000000ffffff7f
show
take 530205001000000000000000feffff7f
show
start server
record 0 1 5 4294967295 2147483646 0 4 4 0 0 0 0
take 530205001000000000000000ffffff7f
show
start server
take 530105001000000000000000ffffff7f
take 530106001000000000000000feffff7f
take 53010700100000000000000020000000
take 53010800100000000000000005000000
take 53010900100000000000000004000000
show
take 530206001000000000000000ffffff7f
take 53020600100000000000000000000080
show
start server
take 53010500100000000000000003000000
start server
take 53010500100000000000000000000080
start server
take 530105001000000000000000ffffffff
start server
take 53010500100000000100000020000000
start client
open 16
take 530200001000000000000000ffffff7f
show
record 0 1 0 0 2147483648 0 4 4 0 0 0 0
send 0 - 16
record 0 1 0 4294967295 2147483647 0 4 4 0 0 0 0
send 0 - 16
record 0 1 0 4294967295 2147483646 0 4 4 0 0 0 0
send 0 - 16
record 0 1 0 0 4 0 5 5 0 0 0 0
send 0 - 16
record 0 1 0 0 2147483647 0 5 5 0 0 0 0
send 0 - 16
show
";

/// Captures of peers that grant 32, as much as they may, and more; the last frame of each is a
/// fault.
const GRANTED: [&str; 6] = [
    "53010500100000000000000020000000\n53080500120000000100000020000000abcd\n\
     53020500100000000100000021000000\n53020500100000000100000020000000\n",
    "530105001000000000000000ffffff7f\n530205001000000000000000ffffff7f\n\
     53020500100000000000000000000080\n",
    "530105001000000000000000feffff7f\n530205001000000000000000ffffff7f\n\
     530205001000000000000000feffff7f\n",
    "53010500100000000000000000000080\n",
    "530105001000000000000000ffffffff\n",
    "53010500100000000000000003000000\n",
];

pub fn calls() -> Vec<Vec<u8>> {
    let line = |size: usize| [b"take ".as_slice(), &vec![b'0'; size - 5]].concat();
    let joined = |lines: &[&[u8]]| lines.join(&b'\n');
    vec![
        b"".to_vec(),
        b"\n".to_vec(),
        b"\n\n\n".to_vec(),
        b"show".to_vec(),
        b"show\n ".to_vec(),
        b"\0".to_vec(),
        b"show\r\nshow\r".to_vec(),
        CONVERSATION.as_bytes().to_vec(),
        AROUND_THE_WRAP.as_bytes().to_vec(),
        GRANTS.as_bytes().to_vec(),
        b"end server 1\nopen 16\nopen 0\nend client 1\nopen 15\nopen 16\nshow\nlend 0\nclose 0 16"
            .to_vec(),
        joined(&[b"start server", &line(LONGEST_LINE - 1), b"show"]),
        joined(&[b"start server", &line(LONGEST_LINE), b"show", &line(LONGEST_LINE + 1)]),
        joined(&[b"start server", &line(LONGEST_LINE + 1), b"show"]),
        joined(&[b"start server", &line(10 * LONGEST_LINE + 1), b"show", &line(5 * LONGEST_LINE)]),
    ]
}

pub fn feed() -> Vec<Vec<u8>> {
    let listing = LISTING.as_bytes();
    let mut inputs = vec![
        b"".to_vec(),
        b"\n".to_vec(),
        b"\n\n".to_vec(),
        b"0".to_vec(),
        b"00".to_vec(),
        b"\r".to_vec(),
        b" ".to_vec(),
        b"\0".to_vec(),
        listing[..listing.len() - 1].to_vec(),
        [listing, b"\n"].concat(),
        vec![b'\n'; INPUT],
        vec![b'\n'; INPUT + 1],
        vec![b'0'; INPUT],
        [vec![b'\n'; INPUT - 1], b"00".to_vec()].concat(),
    ];
    inputs.extend(GRANTED.map(|capture| capture.as_bytes().to_vec()));
    inputs
}
