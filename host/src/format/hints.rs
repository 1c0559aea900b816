//! What is probably meant where a text cannot be read.

use super::text::keywords;

/// Words and signs that people write for numbers, and what to write instead.
const OF_NUMBERS: [(&str, &str); 17] = [
    ("nan", "a number is finite"),
    ("inf", "a number is finite"),
    ("phi", "the golden ratio is (1+sqrt(5))/2"),
    ("tau", "the golden ratio is (1+sqrt(5))/2"),
    ("φ", "the golden ratio is (1+sqrt(5))/2"),
    ("τ", "the golden ratio is (1+sqrt(5))/2"),
    ("pi", "write 3.141592653589793"),
    ("π", "write 3.141592653589793"),
    ("sin", "there is no function but sqrt(..)"),
    ("cos", "there is no function but sqrt(..)"),
    ("tan", "there is no function but sqrt(..)"),
    ("sqrt", "a root has brackets, sqrt(..)"),
    ("√", "a root is sqrt(..)"),
    ("−", "this dash is no minus sign, '-'"),
    ("–", "this dash is no minus sign, '-'"),
    ("^", "a square is x*x"),
    ("i", "a number is real"),
];

/// What to write instead of what a text begins with, if that is known.
pub fn of_number(text: &str) -> Option<&'static str> {
    let text = text.to_lowercase();
    let letters = text.chars().take_while(|letter| letter.is_alphabetic());
    let word: String = letters.collect();
    let known = |sign: &str| match sign.starts_with(char::is_alphabetic) {
        true => word == sign || (sign == "inf" && word == "infinity"),
        false => text.starts_with(sign),
    };
    let found = OF_NUMBERS.iter().find(|(sign, _)| known(sign));
    found.map(|(_, hint)| *hint)
}

/// The keyword that a word is nearest to, if it is near.
pub fn of_keyword(word: &str) -> Option<&'static str> {
    let lower = word.to_lowercase();
    let near = keywords().map(|keyword| (changes(&lower, keyword), keyword));
    let (changes, keyword) = near.min()?;
    (changes <= 2 && changes < keyword.len() / 2).then_some(keyword)
}

/// How many letters are to be put in, taken out or replaced to get from one word to
/// the other.
fn changes(from: &str, to: &str) -> usize {
    let to: Vec<char> = to.chars().collect();
    let mut row: Vec<usize> = (0..=to.len()).collect();
    for (i, letter) in from.chars().enumerate() {
        let mut before = row[0];
        row[0] = i + 1;
        for j in 0..to.len() {
            let replaced = before + usize::from(letter != to[j]);
            before = row[j + 1];
            row[j + 1] = replaced.min(before + 1).min(row[j] + 1);
        }
    }
    row[to.len()]
}
