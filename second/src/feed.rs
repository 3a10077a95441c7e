//! `feed` by document 01, "The line program". It shares no types with `record.rs`: sessions stand
//! in a map by SID, payloads in queues, and a session's unread packets are its queue's length.
//! A fresh server never sends, reads or closes, so only its take is here. What a peer may grant is
//! as in document 02, (ii).

use crate::packet::{unhex, Header, ACK, DATA, FIN, HEADER, PAYLOAD, SMID, SYN};
use std::collections::{BTreeMap, VecDeque};

pub const INPUT: usize = 65_536;
const LONGEST_FRAME: usize = HEADER + PAYLOAD;
const MOST_SESSIONS: usize = 16;
/// Our own window, which stays 4.
const MOST_UNREAD: usize = 4;
/// What a peer may grant: a SYN at least 4, no packet over 2,147,483,647 past what we have sent.
const LEAST_GRANTED: u64 = 4;
const MOST_GRANTED: u64 = (1 << 31) - 1;
const TURN: u64 = 1 << 32;

/// Counters never wrap here; they are reduced where they meet a packet's field.
#[derive(Default)]
struct Session {
    sent: u64,
    allowed_beyond_sent: u64,
    received: u64,
    unread: VecDeque<Vec<u8>>,
    writer_ended: bool,
}

/// The sessions of a server that is up; none at all when it is down.
struct Server {
    sessions: Option<BTreeMap<u16, Session>>,
}

/// How far a field lies beyond a counter, going round at 2^32.
fn beyond(field: u32, counter: u64) -> u64 {
    (u64::from(field) + TURN - counter % TURN) % TURN
}

impl Session {
    /// The fault that the packet is, or nothing.
    fn take(&mut self, header: &Header, payload: &[u8]) -> Result<(), u32> {
        if self.writer_ended {
            return Err(30);
        }
        let window = beyond(header.wndw, self.sent);
        if window < self.allowed_beyond_sent || window > MOST_GRANTED {
            return Err(28);
        }
        let ahead = beyond(header.seqnum, self.received);
        let free = (MOST_UNREAD - self.unread.len()) as u64;
        let in_range = match header.flags {
            DATA => ahead == 1 && free > 0,
            _ => ahead <= free,
        };
        if !in_range {
            return Err(29);
        }
        self.allowed_beyond_sent = window;
        match header.flags {
            DATA => {
                self.received += 1;
                self.unread.push_back(payload.to_vec());
            }
            FIN => self.writer_ended = true,
            _ => {}
        }
        Ok(())
    }
}

impl Server {
    fn take(&mut self, frame: &[u8]) -> u32 {
        let Some(sessions) = &mut self.sessions else { return 1 };
        let fault = match handle(sessions, frame) {
            Ok(()) => return 0,
            Err(10) => return 10,
            Err(fault) => fault,
        };
        self.sessions = None;
        fault
    }

    fn unread(&self, sid: u16) -> usize {
        let session = self.sessions.as_ref().and_then(|sessions| sessions.get(&sid));
        session.map_or(0, |session| session.unread.len())
    }
}

fn handle(sessions: &mut BTreeMap<u16, Session>, frame: &[u8]) -> Result<(), u32> {
    let header = Header::read(frame).ok_or(10u32)?;
    if header.smid != SMID {
        return Err(20);
    }
    let longest = match header.flags {
        SYN | ACK | FIN => HEADER,
        DATA => LONGEST_FRAME,
        _ => return Err(21),
    };
    let length = header.length as usize;
    if length < HEADER || length > longest {
        return Err(22);
    }
    let payload = frame.get(HEADER..length).ok_or(10u32)?;
    if header.flags != SYN {
        return sessions.get_mut(&header.sid).ok_or(23u32)?.take(&header, payload);
    }
    if sessions.contains_key(&header.sid) {
        return Err(25);
    }
    if sessions.len() == MOST_SESSIONS {
        return Err(26);
    }
    let allowed_beyond_sent = u64::from(header.wndw);
    if header.seqnum != 0 || !(LEAST_GRANTED..=MOST_GRANTED).contains(&allowed_beyond_sent) {
        return Err(27);
    }
    sessions.insert(header.sid, Session { allowed_beyond_sent, ..Session::default() });
    Ok(())
}

/// The whole report on an input.
pub fn report(input: &[u8]) -> Vec<u8> {
    let input = &input[..input.len().min(INPUT)];
    let mut lines: Vec<&[u8]> = input.split(|&byte| byte == b'\n').collect();
    if lines.last().is_some_and(|last| last.is_empty()) {
        lines.pop();
    }
    let mut server = Server { sessions: Some(BTreeMap::new()) };
    let mut text = String::new();
    for (i, line) in lines.iter().enumerate() {
        let number = i + 1;
        match unhex(line) {
            Some(frame) if frame.len() <= LONGEST_FRAME => {
                let answer = server.take(&frame);
                let (sid, unread) = match Header::read(&frame) {
                    Some(header) => (format!("{:04x}", header.sid), server.unread(header.sid)),
                    None => ("----".to_string(), 0),
                };
                text += &format!("{number} {answer} {sid} {unread}\n");
            }
            _ => text += &format!("{number} bad\n"),
        }
    }
    text += &match &server.sessions {
        Some(sessions) => format!("end up {}\n", sessions.len()),
        None => "end down 0\n".to_string(),
    };
    text.into_bytes()
}
