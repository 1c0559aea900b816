//! The register beside the original, where it is linked; and, with stand-ins for
//! it, that the trials notice what it must not do.

mod common;

use std::slice::{from_raw_parts, from_raw_parts_mut};

use faceting_register::job::accept;
use faceting_register::register::Exported;
use faceting_register::request::USUAL_ROOM;
use faceting_register::{Engine, Entry, Refusal, Stop};
use facetings_host::cases::generator::{case, kind_named, KINDS};
use facetings_host::cases::known_jobs::KNOWN_JOBS;
use facetings_host::cases::{Case, Room};
use facetings_host::compare::trials::Trials;
use facetings_host::engines::guard::Guard;
use facetings_host::engines::oracle::Oracle;

use common::{oracle, WORKSPACE};

/// Generated cases that every run of the tests compares.
const COUNT: usize = 3_000;

/// The linked register; where there is none, the test says that it was skipped.
fn register() -> Option<Guard> {
    let absent = |words| println!("skipped: {words}");
    Guard::open().map_err(absent).ok()
}

fn known_case(number: usize) -> Case {
    Case {
        number,
        seed: number as u64,
        kind: KNOWN_JOBS[number].name.into(),
        workspace: WORKSPACE,
        room: Room::Bytes(USUAL_ROOM),
        job: KNOWN_JOBS[number].job().expect("the text of a known job"),
    }
}

#[test]
fn known_jobs_have_the_results_of_document_01() {
    let Some(mut oracle) = oracle() else { return };
    for (number, known) in KNOWN_JOBS.iter().enumerate() {
        let case = known_case(number);
        let code = oracle.answer(&case.job, WORKSPACE, &mut vec![0; USUAL_ROOM]);
        let refusal = Refusal::from_code(code).map_or(0, Refusal::number);
        assert_eq!(refusal, known.refusal, "{}", known.name);
    }
}

#[test]
fn the_register_answers_each_known_job_as_the_original() {
    let (Some(oracle), Some(mut register)) = (oracle(), register()) else {
        return;
    };
    let mut trials = Trials::new(&oracle, &mut register);
    for (number, known) in KNOWN_JOBS.iter().enumerate() {
        let lines = trials.case(&known_case(number));
        assert!(lines.is_empty(), "{}: {lines:?}", known.name);
    }
    assert!(trials.call_count() > 5 * KNOWN_JOBS.len());
}

#[test]
fn the_register_answers_generated_cases_as_the_original() {
    let (Some(oracle), Some(mut register)) = (oracle(), register()) else {
        return;
    };
    let mut trials = Trials::new(&oracle, &mut register);
    for number in 0..COUNT {
        let lines = trials.case(&case(21, number, None));
        assert!(lines.is_empty(), "{lines:?}");
    }
    for (number, kind) in (0..500).zip(KINDS.iter().cycle()) {
        let brink = kind_named("brink").filter(|_| number >= KINDS.len());
        let lines = trials.case(&case(22, number, brink.or(Some(kind))));
        assert!(lines.is_empty(), "{lines:?}");
    }
    for number in 0..=17 {
        assert!(trials.tally.result(number) > 0, "result {number}");
    }
    let [open, closed] = &trials.figures;
    assert!(open.moved > 0 && closed.all > 0 && closed.moved == 0);
    assert!(trials.lists.split > 0 && trials.lists.all > trials.lists.split);
}

/// A call as the register's contract has it, with slices again.
struct Call<'a> {
    job: &'a [u8],
    workspace: &'a mut [u8],
    answer: &'a mut [u8],
}

impl Call<'_> {
    /// The original's result, and a workspace that the next call finds dirty.
    fn answer(&mut self) -> i64 {
        let mut oracle = Oracle::open().expect("tests with stand-ins have the original");
        self.workspace.fill(0x3c);
        oracle.answer(self.job, self.workspace.len(), self.answer)
    }
}

macro_rules! stand_in {
    ($name:ident, $call:ident, $body:expr) => {
        unsafe extern "C" fn $name(
            job: *const u8,
            job_length: usize,
            workspace: *mut u8,
            workspace_length: usize,
            answer: *mut u8,
            answer_length: usize,
        ) -> i64 {
            // The engine passes the parts of three slices.
            #[allow(unused_mut)]
            let mut $call = unsafe {
                Call {
                    job: from_raw_parts(job, job_length),
                    workspace: from_raw_parts_mut(workspace, workspace_length),
                    answer: from_raw_parts_mut(answer, answer_length),
                }
            };
            $body
        }
    };
}

stand_in!(right, call, call.answer());
stand_in!(nothing_written, call, {
    let mut other = vec![0; call.answer.len()];
    Call {
        answer: &mut other,
        ..call
    }
    .answer()
});
stand_in!(poison_behind, call, {
    let last = call.answer.last().copied();
    let code = call.answer();
    if let (Some(last), Some(byte)) = (call.answer.last_mut(), last) {
        *last = byte;
    }
    code
});
stand_in!(not_cleared_when_short, call, {
    let before = call.answer.to_vec();
    let code = call.answer();
    if code == Refusal::Room.code() {
        call.answer.copy_from_slice(&before);
    }
    code
});
stand_in!(length_off_by_four, call, {
    let code = call.answer();
    code + if code > 0 { 4 } else { 0 }
});
stand_in!(one_byte_of_room_too_many, call, {
    let mut longer = vec![0; call.answer.len() + 1];
    let code = Oracle::open().map_or(0, |mut oracle| {
        oracle.answer(call.job, call.workspace.len(), &mut longer)
    });
    call.answer.copy_from_slice(&longer[..call.answer.len()]);
    code
});
stand_in!(workspace_one_byte_less, call, {
    let mut oracle = Oracle::open().expect("the original");
    oracle.answer(call.job, call.workspace.len() + 1, call.answer)
});
stand_in!(neighbours_swapped, call, {
    match accept(call.job, call.workspace.len()) {
        Err(Refusal::Identity) => Refusal::Permutation.code(),
        _ => call.answer(),
    }
});
stand_in!(leans_on_its_workspace, call, {
    let clean = call.workspace.first().is_none_or(|&byte| byte == 0);
    match call.answer() {
        code if clean => code,
        _ => Refusal::Budget.code(),
    }
});
stand_in!(writes_behind_its_workspace, call, {
    let end = call.workspace.as_mut_ptr_range().end;
    // Still inside the memory that the fence is in.
    unsafe { *end ^= 1 };
    call.answer()
});
stand_in!(writes_before_its_answer, call, {
    let start = call.answer.as_mut_ptr();
    // As above.
    unsafe { *start.sub(1) ^= 1 };
    call.answer()
});
stand_in!(writes_to_its_job, call, {
    let start = call.job.as_ptr().cast_mut();
    if !call.job.is_empty() {
        // The memory is the test's own, and can be written.
        unsafe { *start.add(call.job.len() - 1) ^= 1 };
    }
    call.answer()
});

/// The original's answer with every entry altered, in a buffer that is long enough.
fn altered(call: Call, alter: impl Fn(&mut Entry)) -> i64 {
    let oracle = Oracle::open().expect("tests with stand-ins have the original");
    call.answer.fill(0);
    let mut answer = match oracle.judge(call.job, call.workspace.len()).result {
        Ok(answer) => answer,
        Err(Stop::Refused(refusal)) => return refusal.code(),
        Err(Stop::Broken(words)) => panic!("{words}"),
    };
    answer.entries.iter_mut().for_each(alter);
    let bytes = answer.bytes();
    match call.answer.get_mut(..bytes.len()) {
        Some(front) => front.copy_from_slice(&bytes),
        None => return Refusal::Room.code(),
    }
    bytes.len() as i64
}

stand_in!(right_but_slower, call, altered(call, |_| {}));
stand_in!(split_list_twice, call, {
    altered(call, |entry| entry.before = entry.list.clone())
});
stand_in!(lists_exchanged, call, {
    altered(call, |entry| {
        std::mem::swap(&mut entry.before, &mut entry.list)
    })
});

/// A job with an entry whose facet is split, as a case.
fn compound_facet() -> Case {
    let text = include_str!("../../examples/corner-compound.txt");
    Case {
        number: 0,
        seed: 0,
        kind: "compound facet".into(),
        workspace: WORKSPACE,
        room: Room::Bytes(USUAL_ROOM),
        job: common::job(text),
    }
}

/// Where nothing but the lists before splitting differs, it is said.
#[test]
fn lists_before_splitting_are_compared_by_themselves() {
    let Some(oracle) = oracle() else { return };
    let aside = "; the same with the lists before splitting left aside";
    let tried: [(Exported, Option<bool>); 3] = [
        (right_but_slower, None),
        (split_list_twice, Some(true)),
        (lists_exchanged, Some(false)),
    ];
    for (function, alone) in tried {
        let mut register = Guard::over(function);
        let mut trials = Trials::new(&oracle, &mut register);
        let lines = trials.case(&compound_facet());
        let told = lines.first().map(|line| line.ends_with(aside));
        assert_eq!(told, alone, "{lines:?}");
        if alone.is_none() {
            assert_eq!((trials.lists.all, trials.lists.split), (3, 1));
        }
    }
}

/// The differences that the trials tell of a stand-in.
fn differences(oracle: &Oracle, function: Exported) -> usize {
    let mut register = Guard::over(function);
    let mut trials = Trials::new(oracle, &mut register);
    let kinds = ["room", "rows", "pair", "limits", "workspace"];
    let quick = (0..60).map(|number| case(4, number, kind_named(kinds[number % kinds.len()])));
    quick.map(|case| trials.case(&case).len()).sum()
}

#[test]
fn a_right_stand_in_has_no_difference() {
    let Some(oracle) = oracle() else { return };
    assert_eq!(differences(&oracle, right), 0);
}

#[test]
fn new_memory_for_each_call_changes_nothing() {
    let Some(oracle) = oracle() else { return };
    let mut register = Guard::over(right).with_fresh_memory();
    let mut trials = Trials::new(&oracle, &mut register).with_fresh_memory();
    for number in 0..20 {
        let lines = trials.case(&case(4, number, kind_named("limits")));
        assert!(lines.is_empty(), "{lines:?}");
    }
}

#[test]
fn wrong_stand_ins_are_noticed() {
    let Some(oracle) = oracle() else { return };
    let faults: [(&str, Exported); 11] = [
        ("nothing written", nothing_written),
        ("a byte left behind the answer", poison_behind),
        ("a buffer not cleared on 17", not_cleared_when_short),
        ("a length off by four", length_off_by_four),
        ("one byte of room too many", one_byte_of_room_too_many),
        ("a workspace one byte too short", workspace_one_byte_less),
        ("refusals 10 and 11 exchanged", neighbours_swapped),
        ("what the workspace held is used", leans_on_its_workspace),
        ("a write behind the workspace", writes_behind_its_workspace),
        ("a write before the answer", writes_before_its_answer),
        ("a write to the job", writes_to_its_job),
    ];
    for (fault, function) in faults {
        assert!(differences(&oracle, function) > 0, "{fault} goes unnoticed");
    }
}

/// The trials count what they reach, kind by kind of call.
#[test]
fn trials_reach_both_sides_of_every_length() {
    let Some(oracle) = oracle() else { return };
    let mut register = Guard::over(right);
    let mut trials = Trials::new(&oracle, &mut register);
    (0..40).for_each(|number| {
        assert!(trials
            .case(&case(4, number, kind_named("limits")))
            .is_empty())
    });
    let answered = |name: &str| {
        trials
            .calls
            .get(name)
            .map(|calls| (calls.all, calls.answered))
    };
    let (full, short) = (
        answered("buffer exactly full"),
        answered("buffer one byte short"),
    );
    assert!(full.is_some_and(|(all, answered)| all > 20 && answered == all));
    assert!(short.is_some_and(|(all, answered)| all > 20 && answered == 0));
    let shorter = answered("workspace one byte short");
    assert!(shorter.is_some_and(|(all, answered)| all > 20 && answered == 0));
    assert!(answered("damaged copy").is_some_and(|(all, _)| all == 40));
}
