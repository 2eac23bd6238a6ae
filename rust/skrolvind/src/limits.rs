//! How long a message can be, and how many there can be: room of these lengths is always enough. Those of file transfer and routine
//! messages are without a service byte, but for [`LONGEST_MESSAGE`].

/// Bytes of a file transfer request.
pub const LONGEST_REQUEST: usize = 65_572;
/// Bytes of a file transfer response.
pub const LONGEST_RESPONSE: usize = 292;
/// Bytes of a routine request or response that is written.
pub const LONGEST_ROUTINE: usize = 65_538;
/// Bytes of a whole message, its service byte counted.
pub const LONGEST_MESSAGE: usize = 65_573;
/// Bytes of a name.
pub const LONGEST_NAME: usize = 65_535;
/// Bytes of the block length of a response.
pub const LONGEST_BLOCK_LENGTH: usize = 255;
/// Bytes of the record of a routine message that is written.
pub const LONGEST_RECORD: usize = 65_535;
/// Messages that one call reads or takes apart.
pub const MOST_MESSAGES: usize = 4_096;
/// Records of a listing, or lines of its text.
pub const MOST_LISTED: usize = 4_096;
/// Bytes of a listing, of either sub-function.
pub const LONGEST_LISTING: usize = 24_579;
/// Bytes of a listing as text.
pub const LONGEST_LISTING_TEXT: usize = 49_152;
/// Bytes of the meaning of a refusal.
pub const LONGEST_REFUSAL_TEXT: usize = 88;
/// Records of a sheet or of a log.
pub const MOST_RECORDS: usize = 65_536;
