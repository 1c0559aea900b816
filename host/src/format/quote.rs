//! Parts of bad input in error lines.

/// The most letters of the input that an error line repeats.
const MOST: usize = 40;

/// The text in quotes, cut short where it would fill the line.
pub fn quoted(text: &str) -> String {
    match text.char_indices().nth(MOST) {
        Some((end, _)) => format!("'{}...'", &text[..end]),
        None => format!("'{text}'"),
    }
}
