//! Porter's mistakes, one by one, in a scratch copy that is built unproved.

use std::fs;
use std::path::{Path, PathBuf};
use std::process::{Command as Process, Output, Stdio};
use std::time::{Duration, Instant};

use facetings_host::compare::mutants::{read, Mistake};

use super::{print, read_text, Command};
use crate::arguments::Arguments;
use crate::{Failure, DIFFERENT};

/// `mutants`.
pub const MUTANTS: Command = Command {
    name: "mutants",
    about: "Tells which porter's mistakes the comparison notices.",
    usage: "[--list FILE] [--repository DIR] [--only WORD] [--seed S] [--count N] --scratch DIR",
    details: || {
        "\
Copies the crates' code to a new folder, builds the register unproved from it with
host/mutants/unproved, and sees that compare-register finds no difference on N cases
(default: 3000). Then puts in each mistake of the list (default: host/mutants/list.txt;
those whose name holds WORD), builds again, and compares up to the first case that
differs. A mistake whose register crashes or does not end is noticed too. Exit status 1
if a mistake goes unnoticed for which the list has no reason, or if one cannot be built.
"
        .into()
    },
    options: &[
        "--list",
        "--repository",
        "--only",
        "--seed",
        "--count",
        "--scratch",
    ],
    run,
};

/// A comparison that takes so long does not end.
const LONGEST: Duration = Duration::from_secs(300);

struct Place {
    repository: PathBuf,
    copy: PathBuf,
    library: PathBuf,
    seed: u64,
    count: usize,
}

/// What became of a mistake.
enum Fate {
    Noticed(String),
    Unnoticed,
    NotBuilt(String),
}

fn run(arguments: Arguments) -> Result<(), Failure> {
    arguments.plain([])?;
    let scratch = PathBuf::from(arguments.needed("--scratch")?);
    let repository = PathBuf::from(arguments.text("--repository").unwrap_or("."));
    let list = arguments.text("--list").unwrap_or("host/mutants/list.txt");
    let mistakes = read(&read_text(list)?).map_err(|reason| format!("{list}: {reason}"))?;
    let only = arguments.text("--only").unwrap_or("");
    let place = Place {
        repository,
        copy: scratch.join("repository"),
        library: scratch.join("register.so"),
        seed: arguments.number("--seed")?.unwrap_or(1),
        count: arguments.number("--count")?.unwrap_or(3_000),
    };
    copy_code(&place)?;
    match place.fate(&[])? {
        Fate::Unnoticed => print(&format!(
            "as it stands: no difference in {} cases\n",
            place.count
        ))?,
        Fate::Noticed(words) | Fate::NotBuilt(words) => {
            return Err(wrong(format!("the code as it stands: {words}")))
        }
    }
    let chosen = mistakes
        .iter()
        .filter(|mistake| mistake.name.contains(only));
    let mut amiss = 0;
    for mistake in chosen {
        amiss += usize::from(!tell(&place, mistake)?);
    }
    match amiss {
        0 => Ok(()),
        _ => Err(wrong(format!("{amiss} mistakes are not as the list says"))),
    }
}

fn wrong(words: String) -> Failure {
    Failure {
        status: DIFFERENT,
        words,
    }
}

/// Tries a mistake and prints its line; whether it is as the list says.
fn tell(place: &Place, mistake: &Mistake) -> Result<bool, Failure> {
    let files = mistake.applied(&place.repository);
    let fate = match files {
        Ok(files) => place.fate(&files)?,
        Err(words) => Fate::NotBuilt(words),
    };
    let name = &mistake.name;
    let (line, right) = match (fate, &mistake.unnoticed) {
        (Fate::Noticed(words), None) => (format!("noticed    {name}: {words}"), true),
        (Fate::Noticed(words), Some(_)) => (format!("NOTICED    {name}: {words}"), false),
        (Fate::Unnoticed, Some(why)) => (format!("unnoticed  {name}: {why}"), true),
        (Fate::Unnoticed, None) => (format!("UNNOTICED  {name}"), false),
        (Fate::NotBuilt(words), _) => (format!("NOT BUILT  {name}: {words}"), false),
    };
    print(&format!("{line}\n"))?;
    Ok(right)
}

/// The crates' code and their list.
fn copy_code(place: &Place) -> Result<(), Failure> {
    let crates = place.repository.join("crates");
    let entries =
        fs::read_dir(&crates).map_err(|error| format!("cannot read {crates:?}: {error}"))?;
    for entry in entries.flatten() {
        let from = entry.path().join("src");
        if from.join("lib.rt").is_file() {
            let to = place
                .copy
                .join("crates")
                .join(entry.file_name())
                .join("src");
            copy_folder(&from, &to).map_err(|error| format!("cannot copy {from:?}: {error}"))?;
        }
    }
    let list = "crates.txt";
    fs::copy(place.repository.join(list), place.copy.join(list))
        .map_err(|error| format!("cannot copy {list}: {error}"))?;
    Ok(())
}

fn copy_folder(from: &Path, to: &Path) -> std::io::Result<()> {
    fs::create_dir_all(to)?;
    for entry in fs::read_dir(from)? {
        let entry = entry?;
        let target = to.join(entry.file_name());
        match entry.file_type()?.is_dir() {
            true => copy_folder(&entry.path(), &target)?,
            false => fs::copy(entry.path(), target).map(drop)?,
        }
    }
    Ok(())
}

impl Place {
    /// What becomes of the copy with these files altered; they are put back.
    fn fate(&self, files: &[(PathBuf, String)]) -> Result<Fate, Failure> {
        for (file, text) in files {
            let place = self.in_copy(file);
            fs::write(&place, text).map_err(|error| format!("cannot write {place:?}: {error}"))?;
        }
        let fate = self.build_and_compare();
        for (file, _) in files {
            let place = self.in_copy(file);
            fs::copy(file, &place).map_err(|error| format!("cannot write {place:?}: {error}"))?;
        }
        fate
    }

    fn in_copy(&self, file: &Path) -> PathBuf {
        let inside = file.strip_prefix(&self.repository).unwrap_or(file);
        self.copy.join(inside)
    }

    fn build_and_compare(&self) -> Result<Fate, Failure> {
        let script = self.repository.join("host/mutants/unproved");
        let mut build = Process::new(script);
        let built = finish(build.arg(&self.copy).arg(&self.library))?;
        if !built.as_ref().is_some_and(|output| output.status.success()) {
            let words = built.map_or(String::new(), |output| last_line(&output.stderr));
            return Ok(Fate::NotBuilt(words));
        }
        self.compare()
    }

    /// In a process of its own, since a wrong register may do anything.
    fn compare(&self) -> Result<Fate, Failure> {
        let own = std::env::current_exe().map_err(|error| error.to_string())?;
        let mut compare = Process::new(own);
        compare.args(["compare-register", "--stop", "1", "--seed"]);
        compare.arg(self.seed.to_string()).arg("--count");
        compare
            .arg(self.count.to_string())
            .arg("--library")
            .arg(&self.library);
        let Some(output) = finish(&mut compare)? else {
            return Ok(Fate::Noticed("does not end".into()));
        };
        let first = String::from_utf8_lossy(&output.stdout);
        let first = first.lines().next().unwrap_or("").to_string();
        match output.status.code() {
            Some(0) => Ok(Fate::Unnoticed),
            Some(1) => Ok(Fate::Noticed(first)),
            Some(_) => Err(last_line(&output.stderr).into()),
            None => Ok(Fate::Noticed(format!("crashes ({})", output.status))),
        }
    }
}

fn last_line(bytes: &[u8]) -> String {
    let text = String::from_utf8_lossy(bytes);
    text.lines().next_back().unwrap_or("").to_string()
}

/// The output of a process, or nothing if it had to be ended.
fn finish(process: &mut Process) -> Result<Option<Output>, Failure> {
    let started = process
        .stdin(Stdio::null())
        .stdout(Stdio::piped())
        .stderr(Stdio::piped())
        .spawn();
    let mut child = started.map_err(|error| format!("cannot start {process:?}: {error}"))?;
    let start = Instant::now();
    while start.elapsed() < LONGEST {
        let ended = child.try_wait().map_err(|error| error.to_string())?;
        if ended.is_some() {
            let output = child.wait_with_output();
            return Ok(Some(output.map_err(|error| error.to_string())?));
        }
        std::thread::sleep(Duration::from_millis(20));
    }
    let ended = child.kill().and_then(|()| child.wait());
    ended.map_err(|error| error.to_string())?;
    Ok(None)
}
