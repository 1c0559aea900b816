//! A folder of its own for each test, and programs that are run in it.

use std::io::Write;
use std::path::{Path, PathBuf};
use std::process::{Command, Output, Stdio};

/// Removed with all that is in it when the test ends.
pub struct Place(pub PathBuf);

impl Place {
    pub fn new(name: &str) -> Place {
        let folder = Path::new(env!("CARGO_TARGET_TMPDIR")).join(name);
        let _ = std::fs::remove_dir_all(&folder);
        std::fs::create_dir_all(&folder).expect("the folder for tests can be made");
        Place(folder)
    }

    pub fn path(&self, name: &str) -> PathBuf {
        self.0.join(name)
    }

    pub fn write(&self, name: &str, bytes: impl AsRef<[u8]>) {
        let path = self.path(name);
        let folder = path.parent().expect("files stand in the folder");
        std::fs::create_dir_all(folder).expect("folders can be made there");
        std::fs::write(path, bytes).expect("files can be written there");
    }

    pub fn read(&self, name: &str) -> Vec<u8> {
        let path = self.path(name);
        std::fs::read(&path).unwrap_or_else(|error| panic!("{}: {error}", path.display()))
    }

    /// The names of everything in the folder, sorted.
    pub fn names(&self) -> Vec<String> {
        names(&self.0)
    }

    pub fn run(&self, program: impl AsRef<Path>, words: &[&str]) -> Done {
        self.run_on(program, words, b"")
    }

    /// The program with these words, this on its standard input, in the folder.
    pub fn run_on(&self, program: impl AsRef<Path>, words: &[&str], input: &[u8]) -> Done {
        let program = program.as_ref();
        let mut child = Command::new(program)
            .args(words)
            .current_dir(&self.0)
            .stdin(Stdio::piped())
            .stdout(Stdio::piped())
            .stderr(Stdio::piped())
            .spawn()
            .unwrap_or_else(|error| panic!("{}: {error}", program.display()));
        // A program that does not read leaves a closed pipe.
        let _ = child.stdin.take().map(|mut pipe| pipe.write_all(input));
        let output = child.wait_with_output().expect("the program ends");
        Done::from(output)
    }
}

impl Drop for Place {
    fn drop(&mut self) {
        let _ = std::fs::remove_dir_all(&self.0);
    }
}

/// The names of everything in a folder, sorted.
pub fn names(folder: &Path) -> Vec<String> {
    let entries = std::fs::read_dir(folder).expect("the folder is there");
    let name = |entry: std::io::Result<std::fs::DirEntry>| {
        let name = entry.expect("the folder can be read").file_name();
        name.to_string_lossy().into_owned()
    };
    let mut names: Vec<String> = entries.map(name).collect();
    names.sort();
    names
}

/// How a program ended and what it wrote.
#[derive(Debug)]
pub struct Done {
    pub status: i32,
    pub bytes: Vec<u8>,
    pub error: String,
}

impl From<Output> for Done {
    fn from(output: Output) -> Done {
        Done {
            status: output.status.code().unwrap_or(-1),
            bytes: output.stdout,
            error: String::from_utf8_lossy(&output.stderr).into_owned(),
        }
    }
}

impl Done {
    pub fn text(&self) -> String {
        String::from_utf8_lossy(&self.bytes).into_owned()
    }

    /// What it wrote, if it ended well and had nothing to complain about.
    pub fn fine(&self) -> String {
        assert_eq!((self.status, self.error.as_str()), (0, ""));
        self.text()
    }

    /// The one line of complaint, with that status and nothing else written.
    pub fn complaint(&self, status: i32) -> &str {
        assert_eq!(
            (self.status, self.text().as_str()),
            (status, ""),
            "{self:?}"
        );
        let line = self.error.strip_suffix('\n').expect("the line is ended");
        assert!(!line.contains('\n'), "more than a line: {line}");
        line
    }
}
