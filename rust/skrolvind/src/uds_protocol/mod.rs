//! The names and shapes of luminartech/uds_protocol over the proved calls: switching from it is a change of imports.
//!
//! What is decoded and encoded here goes through the library's doors; this module has no logic of its own but for the names of
//! bytes. It has file transfer, routine control and trouble codes, and nothing else of that crate. `docs/SWITCHING.md` says what
//! to change and what differs.
//!
//! ```
//! use skrolvind::uds_protocol::{
//!     DataFormatIdentifier, Decode, Encode, Error, NamePayload, RequestFileTransferRequest, SizePayload,
//! };
//!
//! let request = RequestFileTransferRequest::AddFile(
//!     NamePayload::new("a")?,
//!     DataFormatIdentifier::new(1, 1)?,
//!     SizePayload::new(255, 256),
//! );
//! let mut room = [0; 16];
//! let written = request.encode(&mut &mut room[..])?;
//! assert_eq!(room[..written], [1, 0, 1, 0x61, 0x11, 2, 0, 255, 1, 0]);
//!
//! let (read, tail) = RequestFileTransferRequest::decode(&room)?;
//! assert_eq!(read, request);
//! assert_eq!(tail, [0; 6]);
//! # Ok::<(), Error>(())
//! ```
mod codec;
mod dtc;
mod error;
mod file_transfer;
mod format;
mod masks;
mod negative;
mod payloads;
mod routine;

pub use codec::{Decode, DecodeIter, Encode, Write};
pub use dtc::{
    CLEAR_ALL_DTCS, DtcFormatIdentifier, DtcRecord, DtcStoredDataRecordNumber,
    FunctionalGroupIdentifier,
};
pub use error::{Error, Incomplete, InvalidWidth, NoRoom, TrailingBytes};
pub use file_transfer::{
    FileOperationMode, RequestFileTransferRequest, RequestFileTransferResponse,
};
pub use format::DataFormatIdentifier;
pub use masks::{DtcSeverityMask, DtcStatusMask};
pub use negative::NegativeResponseCode;
pub use payloads::{
    DirSizePayload, FileSizePayload, NamePayload, PositionPayload, SentDataPayload, SizePayload,
};
pub use routine::{RoutineControlRequest, RoutineControlResponse, RoutineControlSubFunction};
