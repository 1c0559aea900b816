//! The comparison names the first difference in words.

use faceting_register::{Answer, Entry, Figure};
use facetings_host::cases::Outcome;
use facetings_host::compare::difference::compare;
use facetings_host::report::listing::show;

fn triangle() -> Figure {
    Figure {
        ranks: vec![
            vec![vec![]],
            vec![vec![0]; 3],
            vec![vec![0, 1], vec![0, 2], vec![1, 2]],
            vec![vec![0, 1, 2]],
        ],
    }
}

/// Not the answer to any job: only its form matters here.
fn sample() -> Answer {
    Answer {
        examined: 9,
        counts: vec![4, 2],
        entries: vec![
            Entry {
                list: vec![(0, 0)],
                before: vec![(0, 0)],
                figure: Figure::default(),
            },
            Entry {
                list: vec![(0, 0), (1, 5)],
                before: vec![(0, 3)],
                figure: triangle(),
            },
        ],
        facets: vec![vec![triangle()], vec![]],
        compounds: vec![[1, 0, 0]],
        summaries: vec![[0, 0, 0], [3, 3, 3]],
    }
}

fn outcome(number: usize, code: i64, buffer: Vec<u8>) -> Outcome {
    Outcome {
        number,
        kind: "lattice".into(),
        code,
        buffer,
    }
}

/// The lines that are told of two sides.
fn differences(a: &[Outcome], b: &[Outcome]) -> Vec<String> {
    let [a, b] = [a, b].map(|side| side.iter().cloned().map(Ok));
    let lines = compare(a, b).map(|line| line.expect("both sides are read"));
    lines.flatten().collect()
}

fn answered(bytes: Vec<u8>) -> Outcome {
    outcome(12, bytes.len() as i64, bytes)
}

/// What is said when one word of the sample is another.
fn said(word: usize) -> String {
    let right = sample().bytes();
    let mut wrong = right.clone();
    wrong[4 * word] ^= 0x40;
    differences(&[answered(right)], &[answered(wrong)]).join("\n")
}

#[test]
fn equal_results_have_no_difference() {
    let same = [answered(sample().bytes()), outcome(13, -8, vec![0; 3])];
    assert_eq!(differences(&same, &same), Vec::<String>::new());
}

/// Words of the sample, and what is said when they are others.
const PLACES: &[(usize, &str)] = &[
    (0, "number of examined lists: A has 9, B has 73"),
    (1, "number of orbits: A has 2, B has 66"),
    (3, "count of orbit 1: A has 2, B has 66"),
    (4, "number of entries: A has 2, B has 66"),
    (5, "length of the list of entry 0: A has 1, B has 65"),
    (
        8,
        "length of the list before splitting of entry 0: A has 1, B has 65",
    ),
    (
        16,
        "facet of item 1 in the list of entry 1: A has 5, B has 69",
    ),
    (
        19,
        "facet of item 0 in the list before splitting of entry 1: A has 3, B has 67",
    ),
    (
        20,
        "number of ranks in the figure of entry 1: A has 4, B has 68",
    ),
    (
        30,
        "number of elements in rank 2 of the figure of entry 1: A has 3, B has 67",
    ),
    (
        36,
        "sub 1 of element 1 in rank 2 of the figure of entry 1: A has 2, B has 66",
    ),
    (
        45,
        "number of possible facets of orbit 0: A has 1, B has 65",
    ),
    (
        71,
        "number of possible facets of orbit 1: A has 0, B has 64",
    ),
    (72, "size of the compound map: A has 1, B has 65"),
    (74, "first component of compound 0: A has 0, B has 64"),
    (80, "edges in the summary of entry 1: A has 3, B has 67"),
];

#[test]
fn a_word_is_named_by_its_place() {
    for (word, place) in PLACES {
        assert_eq!(
            said(*word),
            format!("case 12 (lattice): word {word}, {place}")
        );
    }
}

#[test]
fn results_are_told_in_words() {
    let refused = outcome(12, -16, vec![0; 8]);
    let lines = differences(
        &[answered(sample().bytes())],
        std::slice::from_ref(&refused),
    );
    let words = "case 12 (lattice): A answers with 328 bytes, B refuses with 16 \
        (a list is due when the budget is used up)";
    assert_eq!(lines, [words]);
    let poisoned = outcome(12, -16, vec![0, 0, 0, 0, 0, 165, 0, 0]);
    let lines = differences(&[refused], &[poisoned]);
    assert_eq!(
        lines,
        ["case 12 (lattice): byte 5 after a refusal: A has 0, B has 165"]
    );
}

#[test]
fn bytes_behind_the_answer_are_compared() {
    let bytes = sample().bytes();
    let length = bytes.len();
    let with_tail = |tail: [u8; 2]| outcome(12, length as i64, [&bytes[..], &tail].concat());
    let lines = differences(&[with_tail([0, 0])], &[with_tail([0, 9])]);
    let words = format!(
        "case 12 (lattice): byte {} behind the answer: A has 0, B has 9",
        length + 1
    );
    assert_eq!(lines, [words]);
}

#[test]
fn answers_of_different_length_are_told_with_their_first_word() {
    let mut longer = sample();
    longer.compounds.push([1, 0, 1]);
    let (a, b) = (sample().bytes(), longer.bytes());
    let room = b.len();
    let padded = |bytes: Vec<u8>| {
        let code = bytes.len() as i64;
        let mut buffer = bytes;
        buffer.resize(room, 0);
        outcome(12, code, buffer)
    };
    let lines = differences(&[padded(a)], &[padded(b)]);
    let words = "case 12 (lattice): A answers with 328 bytes, B answers with 340 bytes; \
        first in word 72, size of the compound map: A has 1, B has 2";
    assert_eq!(lines, [words]);
}

#[test]
fn cases_of_one_side_only_are_told() {
    let case = |number| outcome(number, -1, vec![]);
    let lines = differences(&[case(1), case(2)], &[case(2), case(3)]);
    assert_eq!(
        lines,
        [
            "case 1 (lattice): only A has it",
            "case 3 (lattice): only B has it"
        ]
    );
}

#[test]
fn a_side_that_cannot_be_read_ends_the_comparison() {
    let broken = || vec![Ok(outcome(1, -1, vec![])), Err("line 3: odd".to_string())];
    let whole = || vec![Ok(outcome(1, -1, vec![])), Ok(outcome(2, -1, vec![]))];
    let told: Result<Vec<_>, _> = compare(whole().into_iter(), broken().into_iter()).collect();
    assert_eq!(told, Err("line 3: odd".into()));
}

#[test]
fn an_answer_comes_back_from_its_bytes() {
    let bytes = sample().bytes();
    assert_eq!(Answer::read(&bytes), Ok((sample(), bytes.len())));
    for length in (0..bytes.len()).step_by(3) {
        assert!(Answer::read(&bytes[..length]).is_err());
    }
    let damaged = [&bytes[..4], &[255; 8]].concat();
    let error = "word 1, the number of orbits, is 4294967295, but only 1 words follow";
    let damage = Answer::read(&damaged).map_err(|damage| damage.to_string());
    assert_eq!(damage, Err(error.into()));
}

#[test]
fn an_answer_is_shown_readably() {
    let text = show(&sample());
    for line in [
        "examined 9 lists",
        "2 hyperplane orbits, counts: 4 2",
        "entry 1: (0,0) (1,5); before splitting (0,3); points 3, edges 3, facets 3",
        "  rank 2: [0 1] [0 2] [1 2]",
        "possible facet (0,0)",
        "entry 1 is made of entries 0 and 0",
    ] {
        assert!(
            text.lines().any(|shown| shown == line),
            "{line} in:\n{text}"
        );
    }
}
