//! The generator: cases depend on their seed alone, and reach every result and
//! every rare event.

mod common;

use std::collections::BTreeSet;

use facetings_host::cases::generator::{case, kind_named, KINDS};
use facetings_host::cases::run::run;
use facetings_host::cases::sample::pick;
use facetings_host::cases::tally::Tally;
use facetings_host::cases::{Case, Outcome, Stream, CASES_HEAD};

use common::oracle;

#[test]
fn a_case_depends_on_its_own_seed_alone() {
    let all: Vec<Case> = (0..200).map(|number| case(5, number, None)).collect();
    for number in (0..200).rev() {
        assert_eq!(case(5, number, None), all[number]);
    }
    let other = case(6, 0, None);
    assert_ne!(other.job, all[0].job);
    let seeds: BTreeSet<u64> = all.iter().map(|case| case.seed).collect();
    assert_eq!(seeds.len(), all.len());
}

#[test]
fn naming_the_kind_that_is_drawn_changes_nothing() {
    for number in 0..100 {
        let drawn = case(5, number, None);
        assert_eq!(case(5, number, kind_named(&drawn.kind)), drawn);
    }
}

#[test]
fn every_kind_is_drawn() {
    let drawn: BTreeSet<String> = (0..3_000)
        .map(|number| case(1, number, None).kind)
        .collect();
    let drawable = KINDS.iter().filter(|kind| kind.weight > 0);
    let known: BTreeSet<String> = drawable.map(|kind| kind.name.into()).collect();
    assert_eq!(drawn, known);
}

#[test]
fn cases_and_outcomes_come_back_from_their_lines() {
    for number in 0..300 {
        let case = case(2, number, None);
        assert_eq!(case.to_string().parse(), Ok(case));
    }
    for length in 0..12 {
        let mut buffer = vec![0; length];
        for at in 0..length {
            buffer[at] = 200 + at as u8;
            let outcome = Outcome {
                number: at,
                kind: "room".into(),
                code: -17,
                buffer: buffer.clone(),
            };
            assert_eq!(outcome.to_string().parse(), Ok(outcome));
        }
    }
}

/// The first error in a stream of cases.
fn stream_error(lines: &[&str]) -> String {
    let text = std::io::Cursor::new(lines.join("\n"));
    let cases = Stream::<Case>::open(text, CASES_HEAD);
    let error = cases.and_then(|mut cases| cases.try_for_each(|case| case.map(drop)));
    error.err().unwrap_or_default()
}

#[test]
fn a_damaged_stream_is_refused_with_its_line() {
    let [first, second] = [0, 1].map(|number| case(2, number, None).to_string());
    assert_eq!(stream_error(&[CASES_HEAD, &first, &second]), "");
    let head = format!("line 1: expected '{CASES_HEAD}'");
    assert_eq!(stream_error(&["other", &first]), head);
    let short = stream_error(&[CASES_HEAD, &first, "1 2 3"]);
    assert_eq!(short, "line 3: the line has 3 fields instead of 6");
    let room = stream_error(&[CASES_HEAD, "0 0 room 0 99999999999 x"]);
    assert_eq!(room, "line 2: '99999999999' is no length of a buffer");
    let order = stream_error(&[CASES_HEAD, &second, &first]);
    assert_eq!(order, "line 3: the numbers of cases do not ascend");
}

/// Cases enough that each result and each event comes up; those of one kind are
/// taken where the kind is made for the event and costs time.
#[test]
fn every_result_and_every_event_is_reached() {
    let Some(mut oracle) = oracle() else { return };
    let mut tally = Tally::default();
    let mut add = |case: Case| {
        let outcome = run(&mut oracle, &case);
        let judged = oracle.last.as_ref().expect("a job was judged");
        tally.add(judged, outcome.code);
    };
    (0..2_000).for_each(|number| add(case(1, number, None)));
    for kind in ["orbits", "facets", "entries", "orders"] {
        (0..20).for_each(|number| add(case(3, number, kind_named(kind))));
    }
    for number in 0..=17 {
        assert!(tally.result(number) > 0, "result {number} was not reached");
    }
    let missed: Vec<&str> = tally.events().filter(|e| e.1 == 0).map(|e| e.0).collect();
    assert!(missed.is_empty(), "not reached: {missed:?}");
    assert_eq!(tally.others(), 0, "the original panicked");
}

#[test]
fn picked_cases_are_spread() {
    let Some(mut oracle) = oracle() else { return };
    let picked = pick(&mut oracle, 1, 150, 20_000, None);
    let lines: Vec<String> = picked.iter().map(|one| one.to_string()).collect();
    let tagged = |tag: &str| lines.iter().filter(|line| line.contains(tag)).count();
    assert_eq!(lines.len(), 150);
    assert!(tagged("rank-4") >= 50 && tagged("rows-not-closed") >= 20);
    assert!(tagged("unequal-shares") >= 10);
    for number in (1..=17).filter(|number| ![13, 15].contains(number)) {
        assert!(
            tagged(&format!("refusal-{number},")) > 0,
            "refusal {number}"
        );
    }
    assert!(lines.iter().all(|line| line.split(' ').count() == 6));
}
