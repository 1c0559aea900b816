//! Quotes and slips beside a second pricing of the answer's own bytes, where the register
//! is linked; and the command that prints them.

mod common;

use std::time::{Duration, Instant};

use faceting_register::bounds::WORKSPACE as LARGEST;
use faceting_register::job::rank_of;
use faceting_register::quote::{
    subtotals, Counter, Made, Tariff, MOST_EDGES, SLIP_LENGTH, TARIFF_LENGTH,
};
use faceting_register::request::USUAL_ROOM;
use faceting_register::{Answer, Engine, Entry, Job, Register};
use facetings_host::cases::generator::case;
use facetings_host::compare::pricing::{by_size, total};
use facetings_host::format::text::encode;

use common::place::Place;
use common::WORKSPACE;

const COMMAND: &str = env!("CARGO_BIN_EXE_register");

/// Generated jobs whose entries are all quoted in every run of the tests.
const COUNT: usize = 600;

/// The linked functions; where there are none, the test says that it was skipped.
fn linked() -> Option<(Register, Counter)> {
    let opened = Register::open().and_then(|register| Ok((register, Counter::open()?)));
    opened.map_err(|absent| println!("skipped: {absent}")).ok()
}

/// Numbers that look like any others, from a seed.
struct Draw(u64);

impl Draw {
    fn below(&mut self, bound: u32) -> u32 {
        self.0 ^= self.0 << 13;
        self.0 ^= self.0 >> 7;
        self.0 ^= self.0 << 17;
        (self.0 >> 32) as u32 % bound
    }
}

/// A tariff: small prices, prices at their bound, or any, and any discount.
fn tariff(seed: u64) -> Tariff {
    let mut draw = Draw(seed.wrapping_mul(0x9e37_79b9_7f4a_7c15) | 1);
    let most = [10, 1_000, 1_000_001][draw.below(3) as usize];
    let mut price = |full: bool| match full {
        true => 1_000_000,
        false => draw.below(most),
    };
    let full = seed % 7 == 0;
    let prices = (0..MOST_EDGES).map(|_| price(full)).collect();
    let joint = price(full);
    let discount = [0, 1_000, draw.below(1_001)][draw.below(3) as usize];
    Tariff {
        prices,
        joint,
        discount,
    }
}

/// The answer's bytes, where the job has one.
fn answered(register: &mut Register, job: &[u8]) -> (i64, Option<Answer>) {
    let mut buffer = vec![0; USUAL_ROOM];
    let code = register.answer(job, LARGEST, &mut buffer);
    let read = usize::try_from(code).ok().map(|length| {
        let (answer, end) = Answer::read(&buffer).expect("an answer");
        assert_eq!(end, length);
        answer
    });
    (code, read)
}

/// A buffer of so many bytes that holds anything but zeros.
fn poisoned(length: usize) -> Vec<u8> {
    (0..length).map(|at| 1 + (at % 255) as u8).collect()
}

/// Lengths of a buffer, on both sides of a slip's.
const ROOMS: [usize; 5] = [SLIP_LENGTH, 0, SLIP_LENGTH - 1, SLIP_LENGTH + 9, 1];

/// What a quote is refused with, in a buffer of one length or another: it is zero throughout.
fn refuses(counter: &mut Counter, asked: (&[u8], u64, &[u8]), seed: u64, code: i64) {
    let (job, entry, tariff) = asked;
    let room = ROOMS[seed as usize % ROOMS.len()];
    let mut answer = poisoned(room);
    assert_eq!(counter.slip(job, LARGEST, entry, tariff, &mut answer), code);
    assert!(answer.iter().all(|&byte| byte == 0), "{room} bytes");
}

/// Total and slip of an entry, in a buffer of just the length or in a longer one; for some
/// entries one byte less is tried too, and refused with 17.
fn agrees(counter: &mut Counter, job: &[u8], number: u64, entry: &Entry, tariff: &Tariff) {
    let bytes = tariff.bytes();
    let mut answer = poisoned(SLIP_LENGTH + [0, 1, 77][number as usize % 3]);
    let code = counter.slip(job, LARGEST, number, &bytes, &mut answer);
    assert_eq!(code as i128, total(entry, tariff) as i128, "entry {number}");
    let slip: Vec<u128> = subtotals(&answer).into_iter().map(u128::from).collect();
    assert_eq!(slip, by_size(&entry.figure, tariff, MOST_EDGES));
    assert!(answer[SLIP_LENGTH..].iter().all(|&byte| byte == 0));
    if number % 16 == 0 {
        let mut short = poisoned(SLIP_LENGTH - 1);
        assert_eq!(counter.slip(job, LARGEST, number, &bytes, &mut short), -17);
        assert!(short.iter().all(|&byte| byte == 0));
    }
}

/// Quotes every entry of a job and the first that is not there, and says how many.
fn quoted(register: &mut Register, counter: &mut Counter, job: &[u8], seed: u64) -> usize {
    let (code, answer) = answered(register, job);
    let tariff = tariff(seed);
    let bytes = tariff.bytes();
    let four = rank_of(job) == 4;
    let Some(answer) = answer else {
        if code != -17 {
            refuses(counter, (job, 0, &bytes), seed, code);
            refuses(counter, (job, 0, &bytes[1..]), seed + 1, code);
        }
        return 0;
    };
    refuses(counter, (job, seed, &bytes[1..]), seed, -19);
    if !four {
        refuses(counter, (job, 0, &bytes), seed, -20);
        return 0;
    }
    for (number, entry) in answer.entries.iter().enumerate() {
        agrees(counter, job, number as u64, entry, &tariff);
    }
    let many = answer.entries.len() as u64;
    for beyond in [many, many + 1, u64::from(u32::MAX) + 1, u64::MAX] {
        refuses(counter, (job, beyond, &bytes), seed ^ beyond, -21);
    }
    answer.entries.len()
}

/// Jobs of rank 4 as the generator makes them, and every tenth as it comes.
fn jobs(seed: u64, count: usize) -> impl Iterator<Item = Vec<u8>> {
    let all = (0..).map(move |number| case(seed, number, None).job);
    let kept = all
        .enumerate()
        .filter(|(i, job)| i % 10 == 0 || rank_of(job) == 4);
    kept.map(|(_, job)| job).take(count)
}

#[test]
fn every_entry_of_generated_jobs_costs_what_its_figure_does() {
    let Some((mut register, mut counter)) = linked() else {
        return;
    };
    let mut entries = 0;
    for (seed, job) in jobs(31, count()).enumerate() {
        entries += quoted(&mut register, &mut counter, &job, seed as u64);
    }
    println!("{} jobs, {entries} entries", count());
    assert!(entries > count() / 2);
}

/// So many jobs; the variable QUOTES asks for more.
fn count() -> usize {
    let asked = std::env::var("QUOTES").ok();
    asked.and_then(|text| text.parse().ok()).unwrap_or(COUNT)
}

/// The best of so many calls, taken in turn.
const TURNS: usize = 40;

/// A quote beside the answer that it belongs to: run with `--ignored --nocapture`.
#[test]
#[ignore = "takes times"]
fn a_quote_takes_less_than_its_answer() {
    let Some((mut register, mut counter)) = linked() else {
        return;
    };
    let bytes = by_edges(7, 125).bytes();
    for name in [
        "tetrahedron",
        "cube",
        "prism-6",
        "icosahedron",
        "dodecahedron",
    ] {
        let place = format!("{}/../examples/{name}.txt", env!("CARGO_MANIFEST_DIR"));
        let text = std::fs::read_to_string(place).expect("an example");
        let job = encode(&text).expect("a job");
        let mut buffer = vec![0; USUAL_ROOM];
        let (mut answer, mut quote) = (Duration::MAX, Duration::MAX);
        for _ in 0..TURNS {
            let start = Instant::now();
            assert!(register.answer(&job, LARGEST, &mut buffer) > 0);
            answer = answer.min(start.elapsed());
            let start = Instant::now();
            assert!(counter.code(&job, LARGEST, 0, &bytes) > 0);
            quote = quote.min(start.elapsed());
        }
        println!("{name}: the answer {answer:?}, a quote {quote:?}");
        assert!(quote < answer, "{name}");
    }
}

fn tetrahedron() -> Vec<u8> {
    let points = [[0, 0, 0], [1, 0, 0], [0, 1, 0], [0, 0, 1]];
    let points = points.map(|point| point.map(f64::from).to_vec()).to_vec();
    Job::usual(4, points).write()
}

/// As many pence as edges.
fn by_edges(joint: u32, discount: u32) -> Tariff {
    let prices = (1..=MOST_EDGES as u32).collect();
    Tariff {
        prices,
        joint,
        discount,
    }
}

#[test]
fn the_tetrahedron_costs_four_triangles_and_six_joints() {
    let Some((_, mut counter)) = linked() else {
        return;
    };
    let job = tetrahedron();
    for (joint, discount, pence) in [
        (0, 0, 12),
        (1, 0, 18),
        (1, 500, 9),
        (1, 1_000, 0),
        (1, 750, 5),
        (1, 250, 14),
        (1, 751, 4),
        (1_000_000, 0, 6_000_012),
    ] {
        let code = counter.code(&job, WORKSPACE, 0, &by_edges(joint, discount).bytes());
        assert_eq!(code, pence, "joint {joint}, discount {discount}");
    }
}

/// A pyramid over a square: an entry with triangles and a square, whose slip adds up.
#[test]
fn a_slip_of_two_sizes_adds_up() {
    let Some((mut register, mut counter)) = linked() else {
        return;
    };
    let points = [[0, 0, 0], [2, 0, 0], [2, 2, 0], [0, 2, 0], [1, 1, 1]];
    let points = points.map(|point| point.map(f64::from).to_vec()).to_vec();
    let turned: Vec<Vec<f64>> = points.iter().rev().cloned().collect();
    let tariff = by_edges(7, 125);
    let mut slips = Vec::new();
    for points in [points, turned] {
        let job = Job::usual(4, points).write();
        let (_, answer) = answered(&mut register, &job);
        let mut own = Vec::new();
        for (number, entry) in answer.expect("an answer").entries.iter().enumerate() {
            agrees(&mut counter, &job, number as u64, entry, &tariff);
            let quote = counter
                .quote(&job, number as u64, &tariff)
                .expect("a quote");
            let Made { polygons, joints } = counter.made(&job, number as u64).expect("a count");
            let sizes = (1..).zip(&polygons);
            let priced: Vec<u64> = sizes.map(|(size, many)| size * many).collect();
            assert_eq!(quote.subtotals, priced);
            let before = priced.iter().sum::<u64>() + 7 * joints;
            assert_eq!(quote.total, (before * 875 + 500) / 1_000);
            own.push((quote.total, quote.subtotals));
        }
        own.sort();
        slips.push(own);
    }
    // The points in another order: the same totals and slips.
    assert_eq!(slips[0], slips[1]);
    assert!(slips[0].iter().any(|(_, slip)| slip[2] > 0 && slip[3] > 0));
}

#[test]
fn refusals_come_in_their_order() {
    let Some((_, mut counter)) = linked() else {
        return;
    };
    let job = tetrahedron();
    let good = by_edges(1, 0).bytes();
    assert_eq!(good.len(), TARIFF_LENGTH);
    let longer = [&good[..], &[0]].concat();
    let altered = |at: usize, number: u32| {
        let mut bytes = good.clone();
        bytes[4 * at..4 * at + 4].copy_from_slice(&number.to_le_bytes());
        bytes
    };
    // Behind all others comes 17; a longer buffer changes nothing but that.
    for (entry, tariff, wanted) in [(0, &good, -17), (1, &good, -21), (0, &longer, -19)] {
        let code = counter.slip(&job, WORKSPACE, entry, tariff, &mut [9; SLIP_LENGTH - 1]);
        assert_eq!(code, wanted);
    }
    assert_eq!(counter.slip(&job, WORKSPACE, 0, &good, &mut []), -17);
    assert_eq!(counter.slip(&job, WORKSPACE, 0, &good, &mut [9; 5_000]), 18);
    let mut code =
        |job: &[u8], entry: u64, tariff: &[u8]| counter.code(job, WORKSPACE, entry, tariff);
    for tariff in [&good[..767], &longer, &[]] {
        assert_eq!(code(&job, 0, tariff), -19);
    }
    for at in 0..=MOST_EDGES {
        assert_eq!(code(&job, 0, &altered(at, 1_000_001)), -19, "number {at}");
        assert!(code(&job, 0, &altered(at, 1_000_000)) >= 0, "number {at}");
    }
    assert_eq!(code(&job, 0, &altered(MOST_EDGES + 1, 1_001)), -19);
    assert_eq!(code(&job, 0, &altered(MOST_EDGES + 1, 1_000)), 0);
    assert_eq!(code(&job, 1, &good), -21);
    assert_eq!(code(&job, 1, &longer), -19);
    let points = [[0.0, 0.0], [1.0, 0.0], [1.0, 1.0], [0.0, 1.0]];
    let mut square = Job::usual(3, points.map(Vec::from).to_vec());
    assert_eq!(code(&square.write(), 99, &good), -20);
    assert_eq!(code(&square.write(), 99, &longer), -19);
    square.budget = 0;
    assert_eq!(code(&square.write(), 99, &longer), -16);
    assert_eq!(counter.code(&job, WORKSPACE - 1, 99, &longer), -12);
    assert_eq!(counter.code(&[], 0, 99, &longer), -1);
}

/// A file of the examples.
fn example(name: &str) -> String {
    format!("{}/../examples/{name}", env!("CARGO_MANIFEST_DIR"))
}

#[test]
fn the_command_prints_a_quote_for_each_entry() {
    if linked().is_none() {
        return;
    }
    let place = Place::new("quotes");
    let (tariff, corner) = (example("counter.tariff"), example("tetrahedron.txt"));
    let printed = place.run(COMMAND, &["--price", &tariff, &corner]).fine();
    // Four triangles at 120 and six joints at 15 are 570, and 541.5 without the discount.
    let wanted = [
        "tetrahedron.txt: entry 0: 542 pence",
        "  4 polygons of 3 edges at 120: 480",
        "  6 joints at 15: 90",
        "  discount: 50 thousandths of 570",
        "tetrahedron.txt: 1 entry",
        "",
    ]
    .join("\n");
    assert_eq!(printed, wanted);
    // A price of nothing is told of too, where the size occurs.
    place.write("free.tariff", "1-190 0\njoint 0\n");
    let cube = example("cube.txt");
    let printed = place
        .run(COMMAND, &["--price", "free.tariff", &cube])
        .fine();
    assert!(printed.starts_with("cube.txt: entry 0: 0 pence\n  "));
    assert!(printed.contains("edges at 0: 0\n"));
    assert_eq!(printed.matches("pence\n").count(), 3);
    let square = example("square.txt");
    let told = place.run(COMMAND, &["--price", &tariff, &square]);
    assert!(told.complaint(1).contains("refused 20"));
    place.write("bad.tariff", "1-190 5\n");
    let told = place.run(COMMAND, &["--price", "bad.tariff", &cube]);
    assert!(told
        .complaint(2)
        .contains("bad.tariff: the joint has no price"));
}
