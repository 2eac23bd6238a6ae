//! The desk check in plain Rust, around the original's reader: the original has none.
use oracle::itself::{Decode, Error, RequestFileTransferRequest};

pub enum Fault {
    Unread(Error),
    LeftOver(usize),
    UnequalSizes,
}

pub fn check(message: &[u8]) -> Result<(), Fault> {
    use RequestFileTransferRequest as R;
    let (request, tail) = R::decode(message).map_err(Fault::Unread)?;
    if !tail.is_empty() {
        return Err(Fault::LeftOver(tail.len()));
    }
    match request {
        R::AddFile(_, format, size)
        | R::ReplaceFile(_, format, size)
        | R::ResumeFile(_, format, size)
            if format.value() == 0 && size.file_size_uncompressed != size.file_size_compressed =>
        {
            Err(Fault::UnequalSizes)
        }
        _ => Ok(()),
    }
}
