//! 'Lines': how long a record and its line are, and the limits of a file.

pub const RECORD_BYTES: usize = 240;
pub const LINE_BYTES: usize = 242;
/// CR and LF follow each record.
pub const LINE_END: &[u8] = b"\r\n";

pub const MOST_BATCHES: u64 = 70;
pub const MOST_PAYMENTS: u64 = 10_000;
/// The cents of a file stay below this.
pub const CENTS_LIMIT: u128 = 1_000_000_000_000_000_000;
