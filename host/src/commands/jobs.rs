//! Commands on one job or one answer: answer, orbits, show, encode, decode.

use faceting_register::bounds::WORKSPACE;
use faceting_register::{Answer, Refusal};
use facetings_host::engines::oracle::fill;
use facetings_host::format::{frames, text};
use facetings_host::report::listing::show;
use facetings_host::report::orbits::lines;

use super::{open_original, print, read_file, read_text, write_to, Command};
use crate::arguments::Arguments;
use crate::{Failure, DIFFERENT};

/// `answer`.
pub const ANSWER: Command = Command {
    name: "answer",
    about: "Answers one job file with the Rust.",
    usage: "JOB [-o FILE] [--workspace N] [--room N]",
    details: || {
        "\
The answer's bytes go to FILE or to standard output. A refusal is told in words
with its number on standard error, and the exit status is 1.

  -o FILE         where the answer goes
  --workspace N   length of the workspace  (default: 4194304)
  --room N        length of the answer buffer  (default: as long as it takes)
"
        .into()
    },
    options: &["-o", "--workspace", "--room"],
    run: answer,
};

/// `orbits`.
pub const ORBITS: Command = Command {
    name: "orbits",
    about: "Prints the orbits that the Rust finds for jobs.",
    usage: "JOB.. [--jobs FILE]",
    details: || {
        "\
For each job a line with its number and the number of hyperplane orbits of its
outermost call; then a line for each orbit: its count, a colon, and the vertices of
its first set; then, orbit by orbit, the rows of the inner call, or 14, which ends
the list. A job that refusals 1 to 13 stop is told by its refusal number instead.
The program orbit_list prints the same of a file of jobs.

  --jobs FILE     a file of jobs, each behind its length (see encode --help)
"
        .into()
    },
    options: &["--jobs"],
    run: orbits,
};

/// `show`.
pub const SHOW: Command = Command {
    name: "show",
    about: "Shows an answer readably.",
    usage: "ANSWER",
    details: || {
        "\
Prints orbits, entries with lists, figures and summaries, possible facets and
compounds. Zeros behind the answer are passed over; anything else is an error.
"
        .into()
    },
    options: &[],
    run: show_answer,
};

/// `encode`.
pub const ENCODE: Command = Command {
    name: "encode",
    about: "Makes job bytes from the text form.",
    usage: "TEXT [-o JOB]",
    details: || text::RULES.into(),
    options: &["-o"],
    run: encode,
};

/// `decode`.
pub const DECODE: Command = Command {
    name: "decode",
    about: "Makes the text form from job bytes.",
    usage: "JOB [-o TEXT]",
    details: || {
        "\
Encoding the text gives the same bytes. Bytes that are not laid out as their
fields say are written with the keyword 'bytes'. For the form see encode --help.
"
        .into()
    },
    options: &["-o"],
    run: decode,
};

fn answer(arguments: Arguments) -> Result<(), Failure> {
    let [file] = arguments.plain(["JOB"])?;
    let workspace = arguments.number("--workspace")?.unwrap_or(WORKSPACE);
    let room: Option<usize> = arguments.number("--room")?;
    let judged = open_original()?.judge(&read_file(file)?, workspace);
    let length = judged
        .result
        .as_ref()
        .map_or(0, |answer| 4 * answer.words().len());
    let mut buffer = vec![0; room.unwrap_or(length).min(length)];
    let code = fill(&judged.result, &mut buffer)?;
    match Refusal::from_code(code) {
        None => write_to(arguments.text("-o"), &buffer),
        Some(refusal) => Err(Failure {
            status: DIFFERENT,
            words: refusal.to_string(),
        }),
    }
}

fn orbits(arguments: Arguments) -> Result<(), Failure> {
    let oracle = open_original()?;
    let files: Vec<Vec<u8>> = arguments.all().map(read_file).collect::<Result<_, _>>()?;
    let stream = arguments.text("--jobs").map(read_file).transpose()?;
    let framed = frames::jobs(stream.as_deref().unwrap_or_default())?;
    let jobs = files.iter().map(Vec::as_slice).chain(framed);
    for (number, job) in jobs.enumerate() {
        print(&lines(number, &oracle.judge(job, WORKSPACE))?)?;
    }
    Ok(())
}

fn show_answer(arguments: Arguments) -> Result<(), Failure> {
    let [file] = arguments.plain(["ANSWER"])?;
    let bytes = read_file(file)?;
    let (answer, length) = Answer::read(&bytes).map_err(|reason| format!("{file}: {reason}"))?;
    if let Some(extra) = bytes[length..].iter().position(|&byte| byte != 0) {
        return Err(format!(
            "{file}: byte {} behind the answer is not zero",
            length + extra
        )
        .into());
    }
    print(&show(&answer))
}

fn encode(arguments: Arguments) -> Result<(), Failure> {
    let [file] = arguments.plain(["TEXT"])?;
    let bytes = text::encode(&read_text(file)?).map_err(|reason| format!("{file}: {reason}"))?;
    write_to(arguments.text("-o"), &bytes)
}

fn decode(arguments: Arguments) -> Result<(), Failure> {
    let [file] = arguments.plain(["JOB"])?;
    let text = text::decode(&read_file(file)?);
    write_to(arguments.text("-o"), text.as_bytes())
}
