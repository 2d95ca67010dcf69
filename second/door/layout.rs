//! Where the fields of a record lie in its 272 bytes, all little-endian.

pub const RECORD_LENGTH: usize = 272;

pub const STATE: usize = 0;
pub const IDEMPOTENT: usize = 1;
/// The client's WAIT count and resends; the server's RESEND count stands in the first place.
pub const FIRST_COUNT: usize = 2;
pub const SECOND_COUNT: usize = 3;
pub const FRAGMENTS: usize = 4;
pub const SENT: usize = 6;
pub const ACKNOWLEDGED: usize = 8;
pub const KNOWN_LAST: usize = 10;
pub const SERIAL: usize = 12;
pub const OPERATION: usize = 14;
pub const NUMBER: usize = 16;
pub const VERSION: usize = 20;
pub const MESSAGE_LENGTH: usize = 24;
/// Spare at the client.
pub const BOOT: usize = 28;
pub const TICKET_COUNTER: usize = 32;
/// The ticket of WAIT or RESEND.
pub const FIRST_TICKET: usize = 40;
/// The ticket of ACK; at the server the status of a fault that is held.
pub const SECOND_TICKET: usize = 48;
pub const STATUS: usize = 48;
/// The ticket of CANCEL; spare at the server.
pub const THIRD_TICKET: usize = 56;
/// Whether WAIT or RESEND is armed, whether ACK is, and whether CANCEL is.
pub const FIRST_ARMED: usize = 64;
pub const SECOND_ARMED: usize = 65;
pub const THIRD_ARMED: usize = 66;
/// The number of the last cancel; at the server that of the last one seen.
pub const CANCEL_NUMBER: usize = 68;
/// From here to the activity all is spare.
pub const LAST_SPARE: usize = 72;
pub const ACTIVITY: usize = 96;
pub const OBJECT: usize = 112;
pub const INTERFACE: usize = 128;
/// Slot i lies at this place and 4 i more: its length, whether it is held, and a spare byte.
pub const SLOTS: usize = 144;
pub const SLOT_LENGTH: usize = 4;
pub const SLOT_HELD: usize = 2;
pub const SLOT_SPARE: usize = 3;

/// The known last of a record that knows none.
pub const UNKNOWN_LAST: u16 = 65_535;

/// The spare places before the slots: from the first byte up to but without the second.
pub const CLIENT_SPARE: [(usize, usize); 3] = [(28, 32), (67, 68), (LAST_SPARE, ACTIVITY)];
pub const SERVER_SPARE: [(usize, usize); 4] = [(3, 4), (52, 64), (65, 68), (LAST_SPARE, ACTIVITY)];
