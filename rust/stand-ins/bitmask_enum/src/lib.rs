//! A stand-in for the crate `bitmask-enum`: `#[bitmask(u8)]` makes of a list of names a struct around a number, with a constant
//! for each name.
//!
//! What it decides, and the original therefore does not: that the first name without a value is bit 0, the next one bit 1 and so
//! on, and what `bits`, `intersects`, `|`, `&` and the conversions do. The original decides which names there are, in which order,
//! which of them have values of their own, and of which names a severity must have one to be valid.
use proc_macro::{TokenStream, TokenTree};

/// The attribute itself.
#[proc_macro_attribute]
pub fn bitmask(number: TokenStream, item: TokenStream) -> TokenStream {
    let tokens: Vec<TokenTree> = item.into_iter().collect();
    let at = tokens
        .iter()
        .position(|t| t.to_string() == "enum")
        .expect("a mask is written as an enum");
    let before: TokenStream = tokens[..at].iter().cloned().collect();
    let name = &tokens[at + 1];
    let TokenTree::Group(body) = &tokens[at + 2] else {
        panic!("the names of a mask stand in braces")
    };
    let constants = constants(body.stream());
    format!(
        "#[derive(Clone, Copy, Debug, PartialEq, Eq)]
        {before} struct {name}({number});
        #[allow(non_upper_case_globals)]
        impl {name} {{
            {constants}
            #[must_use] pub const fn bits(&self) -> {number} {{ self.0 }}
            #[must_use] pub const fn intersects(&self, other: Self) -> bool {{ self.0 & other.0 != 0 }}
        }}
        impl From<{number}> for {name} {{ fn from(bits: {number}) -> Self {{ Self(bits) }} }}
        impl core::ops::BitOr for {name} {{
            type Output = Self;
            fn bitor(self, other: Self) -> Self {{ Self(self.0 | other.0) }}
        }}
        impl core::ops::BitAnd for {name} {{
            type Output = Self;
            fn bitand(self, other: Self) -> Self {{ Self(self.0 & other.0) }}
        }}"
    )
    .parse()
    .expect("what is made of a mask is Rust")
}

/// A constant for each name, in the order in which they stand.
fn constants(body: TokenStream) -> String {
    let tokens: Vec<TokenTree> = body.into_iter().collect();
    tokens
        .split(|t| t.to_string() == ",")
        .filter(|entry| !entry.is_empty())
        .enumerate()
        .map(|(bit, entry)| constant(bit, entry))
        .collect()
}

/// `Name` or `Name = value`, after its attributes (a `#` and a group each).
fn constant(bit: usize, entry: &[TokenTree]) -> String {
    let at = entry
        .iter()
        .position(|t| matches!(t, TokenTree::Ident(_)))
        .expect("an entry of a mask has a name");
    let attributes: TokenStream = entry[..at].iter().cloned().collect();
    let name = &entry[at];
    let value = match entry.get(at + 2) {
        Some(value) => value.to_string(),
        None => format!("1 << {bit}"),
    };
    format!("{attributes} pub const {name}: Self = Self({value});\n")
}
