//! An answer in readable lines.

use std::fmt::Write;

use faceting_register::answer::Pair;
use faceting_register::{Answer, Figure};

/// Every part of the answer, named.
pub fn show(answer: &Answer) -> String {
    let mut text = format!("examined {} lists\n", answer.examined);
    let _ = writeln!(
        text,
        "{} hyperplane orbits, counts: {}",
        answer.counts.len(),
        spaced(&answer.counts)
    );
    let _ = writeln!(text, "{} entries", answer.entries.len());
    for (e, entry) in answer.entries.iter().enumerate() {
        let (list, before) = (pairs(&entry.list), pairs(&entry.before));
        let summary = summary(answer, e);
        let _ = writeln!(
            text,
            "entry {e}: {list}; before splitting {before}{summary}"
        );
        show_figure(&mut text, &entry.figure);
    }
    for (o, orbit) in answer.facets.iter().enumerate() {
        for (f, figure) in orbit.iter().enumerate() {
            let _ = writeln!(text, "possible facet ({o},{f})");
            show_figure(&mut text, figure);
        }
    }
    let _ = writeln!(text, "{} compounds", answer.compounds.len());
    for [a, b, c] in &answer.compounds {
        let _ = writeln!(text, "entry {a} is made of entries {b} and {c}");
    }
    text
}

fn pairs(list: &[Pair]) -> String {
    let pairs: Vec<String> = list.iter().map(|(a, b)| format!("({a},{b})")).collect();
    pairs.join(" ")
}

fn summary(answer: &Answer, e: usize) -> String {
    match answer.summaries.get(e) {
        Some([points, edges, facets]) => {
            format!("; points {points}, edges {edges}, facets {facets}")
        }
        None => String::new(),
    }
}

fn show_figure(text: &mut String, figure: &Figure) {
    for (rank, elements) in figure.ranks.iter().enumerate() {
        let elements: Vec<String> = elements
            .iter()
            .map(|subs| format!("[{}]", spaced(subs)))
            .collect();
        let _ = writeln!(text, "  rank {rank}: {}", elements.join(" "));
    }
}

fn spaced(numbers: &[u32]) -> String {
    let words: Vec<String> = numbers.iter().map(u32::to_string).collect();
    words.join(" ")
}
