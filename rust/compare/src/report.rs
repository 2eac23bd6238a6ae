//! What is said of the first difference, after which the program ends.
use std::fmt::Debug;
use std::process::exit;

/// Ends the program unless both answers are equal. `ours` is the library's, `wanted` what it has to be.
#[inline]
pub fn agree<T: PartialEq + Debug>(sentence: &str, bytes: &[u8], ours: &T, wanted: &T) {
    if ours != wanted {
        differ(
            sentence,
            &hex(bytes),
            &format!("{ours:?}"),
            &format!("{wanted:?}"),
        );
    }
}

/// Says what differs, and ends the program.
#[cold]
pub fn differ(sentence: &str, input: &str, ours: &str, wanted: &str) -> ! {
    println!("DIFFERENCE: {sentence}");
    println!("  on      {input}");
    println!("  is      {ours}");
    println!("  wanted  {wanted}");
    exit(1)
}

const SHOWN: usize = 4096;

/// The bytes in hexadecimal; of a very long run the beginning, and how long it is.
pub fn hex(bytes: &[u8]) -> String {
    let shown = &bytes[..bytes.len().min(SHOWN)];
    let mut text: Vec<String> = shown.iter().map(|b| format!("{b:02X}")).collect();
    text.push(format!("({} bytes)", bytes.len()));
    text.join(" ")
}
