//! Point sets and rows found by trying many: they stand exactly at a bound, or
//! show what random jobs hardly ever show. A word is a point or a row, a hex
//! digit of it a coordinate or an image.

/// Points of space and the number of planes through three of them.
pub const PLANES: &[(usize, &str)] = &[
    (
        255,
        "222 233 111 124 424 410 022 423 340 341 511 002 324 112",
    ),
    (
        256,
        "242 315 455 015 255 252 423 453 045 032 012 223 344 444",
    ),
    (
        256,
        "442 031 240 022 324 101 003 211 203 424 400 224 043 244",
    ),
    (
        257,
        "034 342 440 012 003 401 113 421 044 110 141 244 412 124",
    ),
];

/// Points of the plane, the square of the max, and the number of entries that
/// the identity row then gives without an entry limit.
pub const ENTRIES: &[(usize, u8, &str)] = &[
    (1_023, 58, "b4 20 36 06 44 b8 00 c7 73"),
    (1_024, 41, "2a a3 89 57 04 63 26 ba 69"),
    (1_024, 65, "29 2e 9a 63 88 af 1c b4 95"),
    (1_025, 52, "49 04 b6 00 25 2a 83 93 3b 77"),
];

/// Points of space and rows; a choice is emitted twice in the same order, which
/// gives two equal entries.
pub const TWICE: (&str, &str) = (
    "110 100 101 001 011 111",
    "012345 210543 203154 520413 105423",
);

/// A choice has two orders, which gives two entries with the same facets.
pub const TWO_ORDERS: (&str, &str) = ("010 120 101 000 211", "01234 01432 01342");

/// The numbers of each word.
pub fn digits(words: &'static str) -> impl Iterator<Item = Vec<u8>> {
    let digit = |letter: char| letter.to_digit(16).map(|digit| digit as u8);
    words
        .split(' ')
        .map(move |word| word.chars().filter_map(digit).collect())
}
