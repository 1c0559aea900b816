//! The text form of a tariff: a line for the price of one edge count or of a span of
//! them, one for a joint, one for the discount. A later price takes the place of an
//! earlier one; what follows a hash is a remark; without its line the discount is 0.

use faceting_register::quote::{Tariff, DEAREST, MOST_EDGES, WHOLE_DISCOUNT};

/// The tariff that a text says, or the line where it says none.
pub fn read(text: &str) -> Result<Tariff, String> {
    let mut draft = Draft {
        prices: vec![None; MOST_EDGES],
        joint: None,
        discount: None,
    };
    for (index, line) in text.lines().enumerate() {
        let line = line.split('#').next().unwrap_or("").trim();
        if !line.is_empty() {
            let numbered = |words| format!("line {}: {words}", index + 1);
            draft.line(line).map_err(numbered)?;
        }
    }
    draft.whole()
}

struct Draft {
    prices: Vec<Option<u32>>,
    joint: Option<u32>,
    discount: Option<u32>,
}

impl Draft {
    fn line(&mut self, line: &str) -> Result<(), String> {
        let words: Vec<&str> = line.split_whitespace().collect();
        let [what, value] = words[..] else {
            return Err(format!(
                "'{line}' is not a name or an edge count and one number"
            ));
        };
        match what {
            "joint" => once(&mut self.joint, what, number(value, DEAREST)?),
            "discount" => once(&mut self.discount, what, number(value, WHOLE_DISCOUNT)?),
            _ => {
                let (first, last) = span(what)?;
                self.prices[first - 1..last].fill(Some(number(value, DEAREST)?));
                Ok(())
            }
        }
    }

    fn whole(self) -> Result<Tariff, String> {
        if let Some(place) = self.prices.iter().position(Option::is_none) {
            return Err(format!("edge count {} has no price", place + 1));
        }
        Ok(Tariff {
            prices: self.prices.into_iter().flatten().collect(),
            joint: self.joint.ok_or("the joint has no price")?,
            discount: self.discount.unwrap_or(0),
        })
    }
}

fn once(place: &mut Option<u32>, what: &str, value: u32) -> Result<(), String> {
    match place.replace(value) {
        None => Ok(()),
        Some(_) => Err(format!("'{what}' was given before")),
    }
}

fn number(text: &str, most: u32) -> Result<u32, String> {
    let digits = text.bytes().all(|byte| byte.is_ascii_digit());
    let value = text.parse().ok().filter(|&value| digits && value <= most);
    value.ok_or_else(|| format!("'{text}' is not a whole number from 0 to {most}"))
}

/// An edge count, or the first and the last of a span.
fn span(text: &str) -> Result<(usize, usize), String> {
    let (first, last) = text.split_once('-').unwrap_or((text, text));
    let count = |text: &str| number(text, MOST_EDGES as u32).map(|count| count as usize);
    match (count(first), count(last)) {
        (Ok(first), Ok(last)) if 1 <= first && first <= last => Ok((first, last)),
        _ => Err(format!(
            "'{text}' is not 'joint', 'discount', an edge count from 1 to {MOST_EDGES} or a span of them"
        )),
    }
}

#[cfg(test)]
mod tests {
    use super::*;

    #[test]
    fn later_lines_take_the_place_of_earlier_ones() {
        let tariff = read("1-190 500\n 3 120 # triangles\n\njoint 15\ndiscount 50\n").expect("one");
        assert_eq!(tariff.prices[1..4], [500, 120, 500]);
        assert_eq!(tariff.prices.len(), MOST_EDGES);
        assert_eq!((tariff.joint, tariff.discount), (15, 50));
        let plain = read("1-190 0\njoint 1000000").expect("one");
        assert_eq!((plain.joint, plain.discount), (DEAREST, 0));
    }

    #[test]
    fn every_other_text_is_told_of() {
        for (text, words) in [
            ("", "edge count 1 has no price"),
            ("1-189 5\njoint 1", "edge count 190 has no price"),
            ("1-190 5", "the joint has no price"),
            ("1-190 1000001", "line 1: '1000001' is not a whole number"),
            ("\n1-190 -1", "line 2: '-1' is not a whole number"),
            ("1-190 +1", "line 1: '+1' is not a whole number"),
            ("1-190", "line 1: '1-190' is not a name"),
            ("0 5", "line 1: '0' is not 'joint'"),
            ("191 5", "line 1: '191' is not 'joint'"),
            ("5-3 5", "line 1: '5-3' is not 'joint'"),
            ("discount 1001", "line 1: '1001' is not a whole number"),
            ("joint 1\njoint 1", "line 2: 'joint' was given before"),
            ("joints 1", "line 1: 'joints' is not 'joint'"),
        ] {
            let told = read(text).expect_err(text);
            assert!(told.starts_with(words), "{text}: {told}");
        }
    }
}
