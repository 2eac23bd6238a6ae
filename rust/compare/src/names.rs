//! What refusal 2 carries for a name that is not UTF-8: document 02's own. The original says the number alone, so that the length beside
//! it is that of Rust's check, by which the original judges names.
use oracle::plain::Refusal;

/// A longer name is refused for its length, whatever its bytes are.
const LONGEST: usize = 65_535;

/// The length of the longest beginning of the name that is UTF-8, by Rust's own check.
pub fn valid_up_to(name: &[u8]) -> usize {
    match std::str::from_utf8(name) {
        Ok(_) => name.len(),
        Err(e) => e.valid_up_to(),
    }
}

/// Refusal 2 for this name: the length, or 0 where it is over-long.
pub fn refused(name: &[u8]) -> Refusal {
    let short = name.len() <= LONGEST;
    let good = if short { valid_up_to(name) } else { 0 };
    Refusal::new(2, good as u64, 0)
}

/// The original's answer about a name; where that is the number 2, with what document 02 wants beside it.
pub fn told<T>(answer: Result<T, Refusal>, name: &[u8]) -> Result<T, Refusal> {
    answer.map_err(|r| if r.number == 2 { refused(name) } else { r })
}

/// The name of a request, as much of it as there is.
pub fn of_request(message: &[u8]) -> &[u8] {
    message.get(1..).map_or(&[], of_payload)
}

/// The name behind its length, likewise.
pub fn of_payload(bytes: &[u8]) -> &[u8] {
    let &[high, low, ref rest @ ..] = bytes else {
        return &[];
    };
    let len = usize::from(u16::from_be_bytes([high, low]));
    &rest[..len.min(rest.len())]
}
