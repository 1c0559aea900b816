//! From the bytes of a file to its text, or what it is instead.

/// Some editors begin a text with this, though nothing in it needs it.
const ORDER_MARK: &[u8] = "\u{feff}".as_bytes();

/// What begins a text of two bytes to a letter.
const WIDE_MARKS: [&[u8]; 2] = [&[0xff, 0xfe], &[0xfe, 0xff]];

/// The text, or why there is none.
pub fn text(bytes: &[u8]) -> Result<&str, String> {
    if is_wide(bytes) {
        return Err("the text is UTF-16: save it as UTF-8".into());
    }
    let bytes = bytes.strip_prefix(ORDER_MARK).unwrap_or(bytes);
    std::str::from_utf8(bytes).map_err(|error| foreign(bytes, error.valid_up_to()))
}

/// Text of two bytes to a letter: marked so, or every other byte zero.
fn is_wide(bytes: &[u8]) -> bool {
    let marked = WIDE_MARKS.iter().any(|mark| bytes.starts_with(mark));
    let zeros = bytes.iter().filter(|&&byte| byte == 0).count();
    let halves = bytes
        .chunks_exact(2)
        .all(|pair| (pair[0] == 0) != (pair[1] == 0));
    bytes.len() % 2 == 0 && zeros > 0 && (halves || marked)
}

/// Letters of one byte each look like text but for those beyond ASCII.
fn foreign(bytes: &[u8], place: usize) -> String {
    let control = |byte: &u8| *byte < b' ' && !b"\t\n\r\x0c".contains(byte);
    if bytes.iter().any(control) {
        return "neither text nor the bytes of a job".into();
    }
    let line = 1 + bytes[..place].iter().filter(|&&byte| byte == b'\n').count();
    let byte = bytes[place];
    format!("line {line}: the byte {byte:02x} is no letter of UTF-8; the text looks like Latin-1: save it as UTF-8")
}
