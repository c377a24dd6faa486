//! Document 01, "Refusal numbers".

pub const ACCEPTED: u8 = 0;
pub const CUT: u8 = 1;
pub const BAD_NUMBER: u8 = 2;
pub const OUT_OF_RANGE: u8 = 3;
pub const BAD_NAME: u8 = 4;
pub const TOO_MANY: u8 = 5;
pub const TRAILING: u8 = 6;
pub const UNKNOWN_ID: u8 = 7;
pub const ALREADY_ANSWERED: u8 = 8;
pub const WRONG_TYPE: u8 = 9;
pub const STALE_REFRESH: u8 = 10;
pub const ECH_NOT_SENT: u8 = 11;
pub const ALREADY_ENDED: u8 = 12;
pub const NO_ROOM: u8 = 13;
