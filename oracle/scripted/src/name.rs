//! Names are byte strings; the Rust's are text. Each byte is the character of its number, so that equal stays equal.

pub fn text(name: &[u8]) -> String {
    name.iter().map(|&byte| char::from(byte)).collect()
}

/// The name that `text` has made this of.
pub fn bytes(text: &str) -> Vec<u8> {
    let byte = |letter: char| u8::try_from(u32::from(letter)).expect("a letter of one byte");
    text.chars().map(byte).collect()
}
