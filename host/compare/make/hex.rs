//! Bytes that are written as text.

/// Two digits for each; spaces and bars do not count.
pub fn bytes_of(text: &str) -> Vec<u8> {
    let digits: String = text.chars().filter(|mark| !" |".contains(*mark)).collect();
    let byte = |place| u8::from_str_radix(digits.get(place..place + 2)?, 16).ok();
    let bytes: Option<Vec<u8>> = (0..digits.len()).step_by(2).map(byte).collect();
    bytes.unwrap_or_else(|| panic!("these are not bytes: {}", text))
}
