//! Plain entries beside the original, where the register is linked and the source is
//! there.

mod common;

use faceting_register::plain::{bytes, plain};
use faceting_register::{Refusal, Register, Stop};
use facetings_host::compare::plain::{compare, compare_generated, gives, Met};
use facetings_host::report::page::spans;

use common::json::Value;
use common::place::Place;
use common::ways::ways;
use common::{job, oracle, CORNER, SQUARE, WORKSPACE};

const COMMAND: &str = env!("CARGO_BIN_EXE_register");
const CUBE: &str = include_str!("../../examples/cube.txt");

/// Generated cases that every run of the tests compares.
const COUNT: usize = 2_000;

/// The linked register; where there is none, the test says that it was skipped.
fn register() -> Option<Register> {
    let absent = |words| println!("skipped: {words}");
    Register::open().map_err(absent).ok()
}

/// A job of the table: its name, its text, and the numbers that are kept.
type Known = (&'static str, &'static str, &'static [u32]);

/// The jobs that tell the readings of the request apart [18.4].
const READINGS: [Known; 6] = [
    ("rank 2 writes 1, 0", "rank 2\npoints\n0\n1\n", &[0]),
    (
        "a list that begins above is not found",
        "rank 4\npoints\n0 0 0\n0 0 0\n1 0 0\n1 1 1\nrows\n0 1 2 3\n1 2 3 0\n",
        &[0, 1],
    ),
    (
        "entry 1 is left out without a label",
        "rank 4\npoints\n1 0 0\n0 0 0\n1 0 0\n1 1 0\nrows\n0 1 2 3\n1 2 0 3\n2 0 1 3\n",
        &[0],
    ),
    (
        "split lists, not lists before splitting",
        "rank 4\npoints\n1 0 0\n0 1 0\n0 0 1\n1 0 0\nrows\n0 1 2 3\n3 2 0 1\n",
        &[0, 2],
    ),
    (
        "the walk ends at an item above",
        "rank 4\npoints\n0 2 2\n0 0 0\n2 1 2\n0 0 2\n0 2 1\nrows\n0 1 2 3 4\n0 1 2 4 3\n0 4 1 2 3\n",
        &[0, 2, 3],
    ),
    (
        "of two equal lists neither is kept",
        "rank 4\npoints\n1 1 0\n1 0 0\n1 0 1\n0 0 1\n0 1 1\n1 1 1\nrows\n0 1 2 3 4 5\n2 1 0 5 4 3\n\
         2 0 3 1 5 4\n5 2 0 4 1 3\n1 0 5 4 2 3\n",
        &[0, 5, 10, 16, 18, 21, 25, 29, 31, 33],
    ),
];

#[test]
fn each_reading_is_as_decided() {
    let (Some(mut register), Some(oracle)) = (register(), oracle()) else {
        return;
    };
    for (name, text, kept) in READINGS {
        let job = job(text);
        assert_eq!(plain(&mut register, &job).as_deref(), Ok(kept), "{name}");
        compare(&mut register, &oracle, &job, WORKSPACE, &mut Met::default())
            .unwrap_or_else(|words| panic!("{name}: {words}"));
    }
}

#[test]
fn the_parabola_keeps_all_but_its_ten_compounds() {
    let (Some(mut register), Some(oracle)) = (register(), oracle()) else {
        return;
    };
    let parabola: String = (0..6).map(|i| format!("{i} {}\n", i * i)).collect();
    let job = job(&format!("points\n{parabola}"));
    let kept = plain(&mut register, &job).expect("an answer");
    assert_eq!((kept.len(), bytes(&kept).len()), (197, 792));
    let mut met = Met::default();
    compare(&mut register, &oracle, &job, WORKSPACE, &mut met)
        .unwrap_or_else(|words| panic!("{words}"));
    assert_eq!((met.entries, met.left_out, met.labelled), (207, 10, 10));
}

#[test]
fn generated_jobs_keep_what_the_original_keeps() {
    let (Some(mut register), Some(oracle)) = (register(), oracle()) else {
        return;
    };
    let met = compare_generated(&mut register, &oracle, 41, COUNT)
        .unwrap_or_else(|words| panic!("{words}"));
    assert_eq!(met.jobs, COUNT);
    assert!(met.refused > 100 && met.jobs > met.refused + 100, "{met:?}");
    assert!(met.left_out > 100 && met.labelled > 100, "{met:?}");
}

#[test]
fn the_jobs_own_refusals_come_first_and_17_last() {
    let Some(mut register) = register() else {
        return;
    };
    let square = job(SQUARE);
    let mut is = |job: &[u8], workspace: usize, room: usize, code: i64| {
        gives(&mut register, job, workspace, room, code, &[])
            .unwrap_or_else(|words| panic!("{words}"));
    };
    is(&[], 0, 0, Refusal::Mark.code());
    is(&square, 524_287, 0, Refusal::Workspace.code());
    is(&square, 524_288, 0, Refusal::Room.code());
    is(
        &job(&format!("budget 0\n{SQUARE}")),
        524_288,
        0,
        Refusal::Budget.code(),
    );
    assert_eq!(plain(&mut register, &[]), Err(Stop::Refused(Refusal::Mark)));
}

/// What stands behind the lines of all sets.
const PROMISE: &str = "plain: each figure that is not plain has all the parts of another that \
    is listed, which is proved; a plain one may have them too\n";

/// The same where a limit may have cut a list.
const PROMISE_OF_SOME: &str = "plain: each figure that is not plain has all the parts of \
    another that is listed, which is proved; a plain one may have them too, and those of a \
    figure that the limit left out\n";

#[test]
fn the_command_prints_both_counts_the_numbers_and_the_promise() {
    if register().is_none() {
        return;
    }
    let place = Place::new("plain-text");
    place.write("cube.txt", CUBE);
    place.write("few.txt", format!("{CUBE}limit 2\n"));
    place.write("none.txt", format!("{SQUARE}max 0.5\n"));
    place.write("poor.txt", format!("{CORNER}budget 9\n"));
    place.write("walk.txt", READINGS[4].1);
    let run = |words: &[&str]| place.run(COMMAND, &[&["--plain"], words].concat());
    let cube = "cube.txt: 3 figures, 2 of them plain: 0 2\n";
    assert_eq!(run(&["cube.txt"]).fine(), format!("{cube}{PROMISE}"));
    assert_eq!(run(&["--quiet", "cube.txt"]).fine(), cube);
    let walk = "walk.txt: 4 figures, 3 of them plain: 0 2 3\n";
    let few = "few.txt: at least 2 figures (entry limit 2), 2 of them plain: 0 1\n";
    assert_eq!(
        run(&["walk.txt", "few.txt", "cube.txt"]).fine(),
        format!("{walk}{few}{cube}{PROMISE_OF_SOME}")
    );
    assert_eq!(
        run(&["none.txt"]).fine(),
        "none.txt: no figures (edges of length 0.5 or less)\n"
    );
    let poor = run(&["poor.txt"]);
    assert!(poor
        .complaint(1)
        .starts_with("register: poor.txt: refused 16: "));
    let both = run(&["poor.txt", "cube.txt"]);
    assert_eq!((both.status, both.text()), (1, format!("{cube}{PROMISE}")));
}

/// A list whose items all stand in another one, in their order.
fn stands_in(one: &[Vec<u32>], other: &[Vec<u32>]) -> bool {
    let mut rest = other.iter();
    one.iter().all(|item| rest.any(|there| there == item))
}

/// Label, page and JSON tell the same of each engine; what is left out has another
/// inside, and the set of the walk keeps one that has.
#[test]
fn page_and_json_tell_which_entries_are_plain() {
    for way in ways() {
        let place = Place::new("plain-page");
        let run = |words: &[&str]| place.run(COMMAND, &[way.option, words].concat()).fine();
        let mut kept_with_another = 0;
        for (name, text, kept) in READINGS {
            place.write("set.txt", text);
            let value = Value::read(&run(&["--json", "set.txt"]));
            assert_eq!(value.field("plain").words(), kept, "{name}");
            let lists: Vec<Vec<Vec<u32>>> = value
                .field("entries")
                .list()
                .iter()
                .map(|entry| {
                    entry
                        .field("parts")
                        .list()
                        .iter()
                        .map(Value::words)
                        .collect()
                })
                .collect();
            let (all, some) = (lists.len(), kept.len());
            let figures = if all == 1 { "figure" } else { "figures" };
            let label = format!("{all} {figures}, {some} of them plain");
            assert!(value.field("label").text().starts_with(&label), "{label}");
            let page = run(&["set.txt"]);
            assert!(page.contains(&format!("\nLabel: {label}")), "{page}");
            assert!(page.contains(&format!("\n  {PROMISE}")), "{page}");
            assert!(page.contains("\nWhich figures are plain is what a second proved call writes."));
            for (a, list) in lists.iter().enumerate() {
                let others = lists.iter().enumerate().filter(|(b, _)| *b != a);
                let another = others.map(|(_, other)| other).any(|b| stands_in(b, list));
                let plain = kept.contains(&(a as u32));
                assert!(plain || another, "{name}: entry {a}");
                kept_with_another += usize::from(plain && another);
            }
        }
        assert!(kept_with_another > 0);
        place.write("few.txt", format!("{CUBE}limit 2\n"));
        assert!(run(&["few.txt"]).contains(&format!("\n  {PROMISE_OF_SOME}")));
        place.write("none.txt", format!("{SQUARE}max 0.5\n"));
        let none = run(&["none.txt"]);
        assert!(none.contains("\nPlain: no entries\n") && !none.contains("plain: each"));
    }
}

#[test]
fn pages_give_numbers_that_follow_each_other_together() {
    let told: [(&[u32], &str); 5] = [
        (&[], ""),
        (&[7], "7"),
        (&[0, 1, 3], "0, 1, 3"),
        (&[0, 1, 2], "0 to 2"),
        (&[0, 2, 3, 4, 5, 9, 10], "0, 2 to 5, 9, 10"),
    ];
    for (numbers, words) in told {
        assert_eq!(spans(numbers), words);
    }
}
