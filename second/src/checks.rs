//! The checks of all calls of `end.rs`: a table of what each call asks, in document 01's order,
//! and one function that finds the first ask that fails. The ranges of 27 and 28 are those of
//! document 02, (ii).

use crate::packet::{Header, ACK, DATA, FIN, HEADER, PAYLOAD, SMID, SYN};
use crate::record::{
    End, Slot, ESTABLISHED, FIN_RECEIVED, FIN_SENT, FREE, HIGHEST_GRANT, LOWEST_GRANT, STORAGE,
};

#[derive(Clone, Copy)]
pub enum Ask {
    WellMade,
    Up,
    Client,
    Server,
    FreeSlot,
    Known,
    Unknown,
    Established,
    NotFinSent,
    NotFinReceived,
    SmallPayload,
    OpenWindow,
    NotWaiting,
    NotEnded,
    PacketRoom,
    ReadRooms,
    Storage,
    WholeHeader,
    Smid,
    Flags,
    Length,
    WholePacket,
    SynFields,
    Wndw,
    Seqnum,
}

/// An ask and the number given where it fails; the first failing one counts.
pub type Asks = &'static [(Ask, u32)];

pub const OPEN: Asks = &[
    (Ask::WellMade, 12),
    (Ask::Up, 1),
    (Ask::Client, 2),
    (Ask::FreeSlot, 3),
    (Ask::PacketRoom, 9),
];
pub const SEND: Asks = &[
    (Ask::WellMade, 12),
    (Ask::Up, 1),
    (Ask::Known, 4),
    (Ask::Established, 5),
    (Ask::SmallPayload, 6),
    (Ask::OpenWindow, 7),
    (Ask::PacketRoom, 9),
];
pub const READ: Asks = &[
    (Ask::WellMade, 12),
    (Ask::Up, 1),
    (Ask::Known, 4),
    (Ask::NotFinSent, 5),
    (Ask::NotWaiting, 8),
    (Ask::NotEnded, 11),
    (Ask::ReadRooms, 9),
    (Ask::Storage, 9),
];
pub const CLOSE: Asks = &[
    (Ask::WellMade, 12),
    (Ask::Up, 1),
    (Ask::Known, 4),
    (Ask::NotFinSent, 5),
    (Ask::PacketRoom, 9),
];
pub const SHUTDOWN: Asks = &[(Ask::WellMade, 12), (Ask::Up, 1)];
pub const TAKE: Asks = &[
    (Ask::WellMade, 12),
    (Ask::Up, 1),
    (Ask::Storage, 9),
    (Ask::WholeHeader, 10),
    (Ask::Smid, 20),
    (Ask::Flags, 21),
    (Ask::Length, 22),
    (Ask::WholePacket, 10),
];
pub const TAKE_SYN: Asks =
    &[(Ask::Server, 24), (Ask::Unknown, 25), (Ask::FreeSlot, 26), (Ask::SynFields, 27)];
pub const TAKE_OTHER: Asks =
    &[(Ask::Known, 23), (Ask::NotFinReceived, 30), (Ask::Wndw, 28), (Ask::Seqnum, 29)];

/// What the caller gives with a call; a call leaves at 0 what it has no use for.
#[derive(Default)]
pub struct Given<'a> {
    pub sid: u16,
    pub payload: usize,
    pub room: usize,
    pub ack_room: usize,
    pub bytes: &'a [u8],
    pub header: Option<Header>,
}

impl End {
    /// The number of the first ask that fails, 0 if none does.
    pub fn check(&self, asks: Asks, given: &Given) -> u32 {
        let failed = asks.iter().find(|(ask, _)| !self.holds(*ask, given));
        failed.map_or(0, |(_, number)| *number)
    }

    fn holds(&self, ask: Ask, given: &Given) -> bool {
        let none = Slot::default();
        let slot = self.find(given.sid).map_or(&none, |i| &self.slots[i]);
        let none = Header { smid: 0, flags: 0, sid: 0, length: 0, seqnum: 0, wndw: 0 };
        let header = given.header.unwrap_or(none);
        match ask {
            Ask::WellMade => self.is_well_made(),
            Ask::Up => self.up,
            Ask::Client => !self.server,
            Ask::Server => self.server,
            Ask::FreeSlot => self.free_slot().is_some(),
            Ask::Known => slot.state != FREE,
            Ask::Unknown => slot.state == FREE,
            Ask::Established => slot.state == ESTABLISHED,
            Ask::NotFinSent => slot.state != FIN_SENT,
            Ask::NotFinReceived => slot.state != FIN_RECEIVED,
            Ask::SmallPayload => given.payload <= PAYLOAD,
            Ask::OpenWindow => slot.s != slot.h,
            Ask::NotWaiting => slot.unread() > 0 || slot.state != ESTABLISHED,
            Ask::NotEnded => slot.unread() > 0 || slot.state != FIN_RECEIVED,
            Ask::PacketRoom => given.room >= HEADER + given.payload,
            Ask::ReadRooms => {
                given.room >= usize::from(slot.lengths[slot.oldest()])
                    && (!slot.read_emits_ack() || given.ack_room >= HEADER)
            }
            Ask::Storage => self.lent >= STORAGE,
            Ask::WholeHeader => given.header.is_some(),
            Ask::Smid => header.smid == SMID,
            Ask::Flags => matches!(header.flags, SYN | ACK | FIN | DATA),
            Ask::Length => match header.flags {
                DATA => (HEADER..=HEADER + PAYLOAD).contains(&(header.length as usize)),
                _ => header.length as usize == HEADER,
            },
            Ask::WholePacket => given.bytes.len() >= header.length as usize,
            Ask::SynFields => {
                header.seqnum == 0 && (LOWEST_GRANT..=HIGHEST_GRANT).contains(&header.wndw)
            }
            Ask::Wndw => {
                let a = slot.window();
                let b = header.wndw.wrapping_sub(slot.s);
                a <= b && b <= HIGHEST_GRANT
            }
            Ask::Seqnum if header.flags == DATA && slot.state == ESTABLISHED => {
                header.seqnum == slot.r.wrapping_add(1) && slot.r != slot.g
            }
            Ask::Seqnum => header.seqnum.wrapping_sub(slot.r) <= slot.g.wrapping_sub(slot.r),
        }
    }
}
