//! What came, went and changed between an older catalogue and a newer one.

use std::collections::HashMap;
use std::fmt::Write;

use super::csv::{Line, COLUMNS, MEASURED, NUMBER, SET};

/// A set, a figure's number, and which of several such lines.
type Key<'a> = (&'a str, &'a str, usize);

/// The comparison in lines, the last of which counts.
pub fn against(old: &[Line], new: &[Line]) -> String {
    let (before, after) = (keyed(old), keyed(new));
    let (known, there): (HashMap<Key, &Line>, HashMap<Key, &Line>) = (
        before.iter().copied().collect(),
        after.iter().copied().collect(),
    );
    let (mut text, mut counts) = (String::new(), [0; 4]);
    for (key, line) in &after {
        let (what, count) = match known.get(key) {
            None => (Some(format!("came: {}", described(line))), 0),
            Some(old) => match changes(old, line) {
                none if none.is_empty() => (None, 3),
                some => (Some(format!("changed: {}: {some}", name(line))), 2),
            },
        };
        counts[count] += 1;
        what.into_iter().for_each(|what| put(&mut text, &what));
    }
    for (_, line) in before.iter().filter(|(key, _)| !there.contains_key(key)) {
        counts[1] += 1;
        put(&mut text, &format!("went: {}", described(line)));
    }
    let [came, went, changed, stay] = counts;
    put(
        &mut text,
        &format!("{came} came, {went} went, {changed} changed, {stay} stay"),
    );
    text
}

fn put(text: &mut String, line: &str) {
    let _ = writeln!(text, "{line}");
}

fn keyed(lines: &[Line]) -> Vec<(Key<'_>, &Line)> {
    let mut count: HashMap<(&str, &str), usize> = HashMap::new();
    let key = |line| {
        let [set, number] = [SET, NUMBER].map(|i: usize| -> &str { &Line::as_slice(line)[i] });
        let times = count.entry((set, number)).or_default();
        *times += 1;
        ((set, number, *times), line)
    };
    lines.iter().map(key).collect()
}

fn name(line: &Line) -> String {
    format!("{} {}", line[SET], line[NUMBER])
}

/// A figure by its name and all that a catalogue has of it.
fn described(line: &Line) -> String {
    let [points, edges, facets, _, _, parts] = [2, 3, 4, 5, 6, 7].map(|i| &line[i]);
    format!(
        "{}: {points} points, {edges} edges, {facets} facets; {parts}",
        name(line)
    )
}

fn changes(old: &Line, new: &Line) -> String {
    let change = |i: usize| {
        let was = if old[i].is_empty() { "none" } else { &old[i] };
        let is = if new[i].is_empty() { "none" } else { &new[i] };
        (was != is).then(|| format!("{} {is}, was {was}", COLUMNS[i]))
    };
    let changes: Vec<String> = MEASURED.filter_map(change).collect();
    changes.join("; ")
}

#[cfg(test)]
mod tests {
    use super::*;

    fn line(number: &str, edges: &str, price: &str) -> Line {
        [
            "s.txt",
            number,
            "8",
            edges,
            "6",
            "1",
            "yes",
            "6 x square",
            price,
            "0",
            "j",
        ]
        .map(String::from)
        .to_vec()
    }

    #[test]
    fn each_kind_of_change_is_told_and_counted() {
        let old = [
            line("A", "12", ""),
            line("B", "12", ""),
            line("B", "12", ""),
            line("C", "24", ""),
        ];
        let new = [
            line("D", "9", ""),
            line("A", "12", ""),
            line("B", "12", ""),
            line("C", "24", "5.00"),
        ];
        let told = "\
came: s.txt D: 8 points, 9 edges, 6 facets; 6 x square
changed: s.txt C: price 5.00, was none
went: s.txt B: 8 points, 12 edges, 6 facets; 6 x square
1 came, 1 went, 1 changed, 2 stay
";
        assert_eq!(against(&old, &new), told);
        assert_eq!(against(&old, &old), "0 came, 0 went, 0 changed, 4 stay\n");
    }
}
