//! Numbers as text: lower-case hexadecimal and rows of digits.

use std::fmt::Write;

pub fn hex(bytes: &[u8]) -> String {
    let mut text = String::with_capacity(2 * bytes.len());
    for byte in bytes {
        // Writing into a String cannot fail.
        let _ = write!(text, "{byte:02x}");
    }
    text
}

/// One digit for each number, which is at most 9.
pub fn digits(numbers: &[u8]) -> String {
    numbers.iter().map(|n| char::from(b'0' + n % 10)).collect()
}

/// The numbers with one blank between.
pub fn spaced<T: ToString>(numbers: impl IntoIterator<Item = T>) -> String {
    let texts: Vec<String> = numbers.into_iter().map(|n| n.to_string()).collect();
    texts.join(" ")
}
