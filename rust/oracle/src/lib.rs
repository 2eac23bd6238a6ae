//! The original Rust files, compiled unchanged where they lie, and their answers as plain data.
//!
//! The functions of this crate call the original and say what it answers in document 01's terms (see [`plain`]); no decision is
//! taken on the way, except those that the stand-ins tell of in their heads.
mod ask;
pub mod items;
mod missing;
pub mod plain;

pub use ask::*;

// The original files look for these names at the root of their crate.
pub(crate) use automotive_wire_codec::{Decode, DecodeIter, Encode, Incomplete};
pub(crate) use missing::{Error, NegativeResponseCode};

/// The four files; `build/main.rs` says which and pins them.
#[allow(dead_code, clippy::all)]
pub(crate) mod original {
    include!(concat!(env!("OUT_DIR"), "/status.rs"));
    include!(concat!(env!("OUT_DIR"), "/routine_control.rs"));
    include!(concat!(env!("OUT_DIR"), "/request_file_transfer.rs"));
    include!(concat!(env!("OUT_DIR"), "/format_identifiers.rs"));
}

/// The original's own types and calls, under the names that they have in the root of its crate: for those who time it, or hold it
/// to something, and want no translation of its answers on the way.
pub mod itself {
    pub use crate::missing::{Error, NegativeResponseCode};
    pub use crate::original::format_identifiers::DataFormatIdentifier;
    pub use crate::original::request_file_transfer::{
        DirSizePayload, FileOperationMode, FileSizePayload, NamePayload, PositionPayload,
        RequestFileTransferRequest, RequestFileTransferResponse, SentDataPayload, SizePayload,
    };
    pub use crate::original::routine_control::{
        RoutineControlRequest, RoutineControlResponse, RoutineControlSubFunction,
    };
    pub use crate::original::status::{
        CLEAR_ALL_DTCS, DtcFormatIdentifier, DtcRecord, DtcSeverityMask, DtcStatusMask,
        DtcStoredDataRecordNumber, FunctionalGroupIdentifier,
    };
    pub use automotive_wire_codec::{Decode, DecodeIter, Encode, Incomplete, InvalidWidth};
}

/// What the original files look for under this name.
pub(crate) mod shared {
    pub(crate) use crate::missing::SuppressablePositiveResponse;
    pub(crate) use crate::original::format_identifiers::DataFormatIdentifier;
}
