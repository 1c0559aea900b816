//! The order in which people list names: set2 before set10.

use std::cmp::Ordering;

/// Runs of digits by the number they say, everything else letter by letter; names
/// that differ in nothing else by their letters.
pub fn natural(one: &str, other: &str) -> Ordering {
    let (mut left, mut right) = (one, other);
    while !left.is_empty() && !right.is_empty() {
        let ((a, behind_a), (b, behind_b)) = (first_run(left), first_run(right));
        let order = match (is_number(a), is_number(b)) {
            (true, true) => by_number(a, b),
            _ => a.cmp(b),
        };
        if order.is_ne() {
            return order;
        }
        (left, right) = (behind_a, behind_b);
    }
    left.len().cmp(&right.len()).then_with(|| one.cmp(other))
}

/// The digits that begin the text, or its first letter; and what follows.
fn first_run(text: &str) -> (&str, &str) {
    let digits = text.len() - text.trim_start_matches(|c: char| c.is_ascii_digit()).len();
    let letter = text.chars().next().map_or(0, char::len_utf8);
    text.split_at(digits.max(letter))
}

fn is_number(run: &str) -> bool {
    run.starts_with(|c: char| c.is_ascii_digit())
}

/// However long: the longer one is greater once zeros in front are left out.
fn by_number(one: &str, other: &str) -> Ordering {
    let (one, other) = (one.trim_start_matches('0'), other.trim_start_matches('0'));
    one.len().cmp(&other.len()).then_with(|| one.cmp(other))
}

#[cfg(test)]
mod tests {
    use super::natural;

    #[test]
    fn numbers_stand_by_their_value() {
        let sorted = [
            "",
            "a",
            "set",
            "set0",
            "set02",
            "set2",
            "set2a",
            "set10",
            "set10.2",
            "set10.10",
            "set99999999999999999999",
            "set100000000000000000000",
            "seta",
            "é1",
        ];
        let mut names = sorted;
        names.reverse();
        names.sort_by(|a, b| natural(a, b));
        assert_eq!(names, sorted);
    }
}
