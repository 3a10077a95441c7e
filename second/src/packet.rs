//! The packet of document 01: sixteen header bytes, then a payload.
//! `feed`, `calls` and the generator all read and build packets here.

use std::fmt::Write;

pub const SMID: u8 = 0x53;

pub const SYN: u8 = 0x01;
pub const ACK: u8 = 0x02;
pub const FIN: u8 = 0x04;
pub const DATA: u8 = 0x08;

pub const HEADER: usize = 16;
pub const PAYLOAD: usize = 512;

#[derive(Clone, Copy, Debug)]
pub struct Header {
    pub smid: u8,
    pub flags: u8,
    pub sid: u16,
    pub length: u32,
    pub seqnum: u32,
    pub wndw: u32,
}

impl Header {
    /// The header at the front of some bytes, if there are sixteen.
    pub fn read(bytes: &[u8]) -> Option<Header> {
        if bytes.len() < HEADER {
            return None;
        }
        let four = |at: usize| {
            u32::from_le_bytes([bytes[at], bytes[at + 1], bytes[at + 2], bytes[at + 3]])
        };
        Some(Header {
            smid: bytes[0],
            flags: bytes[1],
            sid: u16::from_le_bytes([bytes[2], bytes[3]]),
            length: four(4),
            seqnum: four(8),
            wndw: four(12),
        })
    }

    pub fn bytes(&self) -> Vec<u8> {
        let mut bytes = vec![self.smid, self.flags];
        bytes.extend(self.sid.to_le_bytes());
        bytes.extend(self.length.to_le_bytes());
        bytes.extend(self.seqnum.to_le_bytes());
        bytes.extend(self.wndw.to_le_bytes());
        bytes
    }
}

/// A whole packet with a true LENGTH.
pub fn packet(flags: u8, sid: u16, seqnum: u32, wndw: u32, payload: &[u8]) -> Vec<u8> {
    let length = (HEADER + payload.len()) as u32;
    let mut bytes = Header { smid: SMID, flags, sid, length, seqnum, wndw }.bytes();
    bytes.extend_from_slice(payload);
    bytes
}

/// Lower-case hexadecimal, two digits a byte.
pub fn hex(bytes: &[u8]) -> String {
    let mut text = String::with_capacity(2 * bytes.len());
    for byte in bytes {
        write!(text, "{byte:02x}").expect("a string takes all");
    }
    text
}

/// The bytes that lower-case hexadecimal stands for; nothing for an odd count of digits or
/// another character.
pub fn unhex(digits: &[u8]) -> Option<Vec<u8>> {
    let value = |digit: u8| match digit {
        b'0'..=b'9' => Some(digit - b'0'),
        b'a'..=b'f' => Some(digit - b'a' + 10),
        _ => None,
    };
    if digits.len() % 2 == 1 {
        return None;
    }
    digits.chunks(2).map(|two| Some(16 * value(two[0])? + value(two[1])?)).collect()
}
