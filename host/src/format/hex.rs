//! Bytes as hex digits.

/// Two digits for each byte.
pub fn write(bytes: &[u8]) -> String {
    bytes.iter().map(|byte| format!("{byte:02x}")).collect()
}

/// The bytes of an even number of digits.
pub fn read(text: &str) -> Result<Vec<u8>, String> {
    let digit = |letter: u8| match char::from(letter).to_digit(16) {
        Some(digit) => Ok(digit as u8),
        None => Err(format!("'{}' is not a hex digit", char::from(letter))),
    };
    if text.len() % 2 == 1 {
        return Err("there is an odd number of hex digits".into());
    }
    let pairs = text.as_bytes().chunks_exact(2);
    pairs
        .map(|pair| Ok(16 * digit(pair[0])? + digit(pair[1])?))
        .collect()
}
