//! What the register's command reads and where it writes: folders, their order and
//! names, results that replace no device, link or vertex set, and old pages.

mod common;

use std::fs;
use std::os::unix::fs::{symlink, FileTypeExt, PermissionsExt};
use std::os::unix::process::CommandExt;
use std::process::{Command, Stdio};

use common::place::{names, Done, Place};
use common::ways::ways;
use common::{job, CORNER, SQUARE};

const COMMAND: &str = env!("CARGO_BIN_EXE_register");
const PARABOLA: &str = "points\n0 0\n1 1\n2 4\n3 9\n4 16\n5 25\n";

/// A test by itself for each engine that there is, in a folder of its own.
fn on_each(name: &str, test: impl Fn(&Place, &dyn Fn(&[&str]) -> Done)) {
    for way in ways() {
        let place = Place::new(&format!("places-{name}"));
        test(&place, &|words| {
            place.run(COMMAND, &[way.option, words].concat())
        });
    }
}

/// The names of the sets, in the order of their lines.
fn told(done: &Done) -> Vec<String> {
    let name = |line: &str| {
        let (_, behind) = line.strip_prefix('[')?.split_once("] ")?;
        behind.split(": ").next().map(str::to_string)
    };
    done.text().lines().filter_map(name).collect()
}

#[test]
fn a_device_a_pipe_and_a_link_are_written_to_and_stay() {
    on_each("devices", |place, run| {
        place.write("square.txt", SQUARE);
        let page = run(&["square.txt"]).fine();
        run(&["square.txt", "-o", "/dev/null"]).fine();
        let null = fs::metadata("/dev/null").expect("the device is there");
        assert!(null.file_type().is_char_device());
        let full = run(&["square.txt", "-o", "/dev/full"]);
        assert!(full
            .complaint(2)
            .starts_with("register: cannot write /dev/full: "));
        let full = fs::metadata("/dev/full").expect("the device is there");
        assert!(full.file_type().is_char_device());

        place.write("kept", "older");
        for (to, name) in [("kept", "link"), ("made", "dangling")] {
            symlink(to, place.path(name)).expect("links can be made");
            run(&["square.txt", "-o", name]).fine();
            assert!(place.path(name).is_symlink());
            assert_eq!(place.read(to), page.as_bytes());
        }
    });
}

#[test]
fn a_pipe_gets_the_page() {
    on_each("pipe", |place, run| {
        place.write("square.txt", SQUARE);
        let made = Command::new("mkfifo").arg(place.path("pipe")).status();
        assert!(made.expect("mkfifo is there").success());
        let reader = Command::new("cat")
            .arg(place.path("pipe"))
            .stdout(Stdio::piped())
            .spawn();
        run(&["square.txt", "-o", "pipe"]).fine();
        let read = reader.and_then(|reader| reader.wait_with_output());
        let page = run(&["square.txt"]).bytes;
        assert_eq!(read.expect("cat ends").stdout, page);
        let pipe = fs::metadata(place.path("pipe")).expect("the pipe is there");
        assert!(pipe.file_type().is_fifo());
    });
}

#[test]
fn no_result_is_written_over_a_vertex_set() {
    on_each("spared", |place, run| {
        place.write("square.txt", SQUARE);
        place.write("other.job", job(SQUARE));
        place.write("broken.txt", "# Not in order.\n  points # here\n1 x\n");
        place.write("raw.txt", "bytes 46 43 54\n");
        place.write("wide.txt", "p\0o\0i\0n\0t\0s\0\n\0");
        place.write("below/d.page", PARABOLA);
        place.write("sets/d.txt", PARABOLA);
        symlink("square.txt", place.path("link")).expect("links can be made");
        let spared = [
            "square.txt",
            "./below/../square.txt",
            "link",
            "other.job",
            "broken.txt",
            "raw.txt",
            "wide.txt",
        ];
        let before: Vec<Vec<u8>> = spared.iter().map(|name| place.read(name)).collect();
        for name in spared {
            let done = run(&["square.txt", "-o", name]);
            let words = format!("register: {name} is a vertex set itself");
            assert_eq!(done.complaint(2), words);
        }
        let done = run(&["sets", "-o", "below"]);
        assert!(done.complaint(2).ends_with("d.page is a vertex set itself"));
        let after: Vec<Vec<u8>> = spared.iter().map(|name| place.read(name)).collect();
        assert_eq!(before, after);
        assert_eq!(place.read("below/d.page"), PARABOLA.as_bytes());
        // Beside the sets there is room, and a page gives way to a newer one.
        for form in [&[][..], &["--raw"], &["--json"]] {
            for _ in 0..2 {
                let done = run(&[form, &["sets", "-o", "sets"]].concat());
                assert_eq!(done.status, 0, "{done:?}");
            }
        }
        let all = ["d.answer", "d.json", "d.page", "d.txt"];
        assert_eq!(names(&place.path("sets")), all);
        assert_eq!(told(&run(&["sets"])), ["d.txt"]);
    });
}

#[test]
fn a_set_that_gets_no_page_now_loses_the_old_one() {
    on_each("lost", |place, run| {
        place.write("sets/a.txt", SQUARE);
        place.write("sets/b.txt", SQUARE);
        place.write("sets/c.txt", SQUARE);
        run(&["sets", "-o", "out"]).fine();
        place.write("out/other", "stays");
        assert_eq!(
            names(&place.path("out")),
            ["a.page", "b.page", "c.page", "other"]
        );
        place.write("sets/b.txt", format!("{SQUARE}budget 0\n"));
        place.write("sets/c.txt", "points\n0 0\n1");
        assert_eq!(run(&["sets", "-o", "out"]).status, 2);
        assert_eq!(names(&place.path("out")), ["a.page", "other"]);
    });
}

#[test]
fn folders_are_searched_downwards_in_the_order_people_expect() {
    on_each("downwards", |place, run| {
        for name in ["set10.txt", "set2.txt", "b/set1.txt", "b/a/x.txt", "c.txt"] {
            place.write(&format!("sets/{name}"), SQUARE);
        }
        place.write("sets/D.TXT", SQUARE);
        place.write("sets/b/notes.md", "passed over");
        place.write("sets/.git/x.txt", "passed over");
        symlink("..", place.path("sets/b/up")).expect("links can be made");
        let done = run(&["sets", "-o", "out"]);
        let order = [
            "D.TXT",
            "b/a/x.txt",
            "b/set1.txt",
            "c.txt",
            "set2.txt",
            "set10.txt",
        ];
        assert_eq!(told(&done), order);
        for name in ["b/a/x.page", "b/set1.page", "set10.page"] {
            assert!(place.path("out").join(name).is_file(), "{name}");
        }
        assert!(place.read("out/b/a/x.page").starts_with(b"b/a/x.txt\n"));
    });
}

#[test]
fn same_names_are_told_apart_by_the_way_to_them() {
    on_each("same", |place, run| {
        for name in ["one/a.txt", "two/a.txt", "two/b.txt", "two/b.job"] {
            let text = format!("{SQUARE}# {name}\n");
            place.write(
                name,
                if name.ends_with("job") {
                    job(SQUARE)
                } else {
                    text.into()
                },
            );
        }
        let done = run(&["one", "./two", "-o", "out"]);
        let order = ["one/a.txt", "two/a.txt", "b.job", "b.txt"];
        assert_eq!(told(&done), order, "{done:?}");
        assert_eq!(
            names(&place.path("out")),
            ["b.job.page", "b.txt.page", "one", "two"]
        );
        assert!(place.path("out/two/a.page").is_file());
        let outside = ["../places-same/one/a.txt", "../places-same/two/a.txt"];
        let done = run(&[&outside[..], &["-o", "up"]].concat());
        assert_eq!(
            names(&place.path("up/places-same")),
            ["one", "two"],
            "{done:?}"
        );
    });
}

#[test]
fn one_set_is_one_set() {
    on_each("one", |place, run| {
        place.write("sets/a.txt", SQUARE);
        let text = run(&["sets"]).fine();
        let last = text.lines().last();
        let words = "1 set: 1 answered, 0 refused, 0 bad; 7 figures, 7 of them plain";
        assert_eq!(last, Some(words));
    });
}

#[test]
fn quiet_tells_only_of_sets_without_an_answer() {
    on_each("quiet", |place, run| {
        place.write("sets/a.txt", SQUARE);
        assert_eq!(run(&["--quiet", "sets"]).fine(), "");
        assert_eq!(
            run(&["--quiet", "sets/a.txt"]).bytes,
            run(&["sets/a.txt"]).bytes
        );
        place.write("sets/b.txt", format!("{CORNER}budget 26\n"));
        let done = run(&["sets", "--quiet", "-o", "out"]);
        let line = done.complaint(1);
        assert!(line.starts_with("register: b.txt: refused 16: "), "{line}");
        let json = run(&["sets", "--quiet", "--json"]);
        assert_eq!(
            (json.text().lines().count(), json.error.lines().count()),
            (2, 1)
        );
    });
}

/// Somebody who may read the folder only where everybody may: root may read all.
const NOBODY: u32 = 65_534;

#[test]
fn a_folder_without_permission_is_told_by_its_cause() {
    let place = Place::new("places-closed");
    place.write("sets/a.txt", SQUARE);
    place.write("sets/closed/b.txt", SQUARE);
    let closed = place.path("sets/closed");
    let mode = |bits| fs::set_permissions(&closed, fs::Permissions::from_mode(bits));
    mode(0).expect("the mode can be set");
    for way in ways() {
        let run = |words: &[&str]| {
            let mut command = Command::new(COMMAND);
            command.args(way.option).args(words).current_dir(&place.0);
            if fs::read_dir(&closed).is_ok() {
                command.uid(NOBODY);
            }
            Done::from(command.output().expect("the command can be started"))
        };
        let line = "cannot be read: Permission denied";
        let alone = run(&["sets/closed"]);
        let words = format!("register: closed: {line}");
        assert!(alone.complaint(2).starts_with(&words), "{alone:?}");
        let both = run(&["sets"]);
        let text = both.text();
        assert!(text.contains(&format!("\n[2/2] closed: {line}")), "{text}");
        assert!(text.starts_with("[1/2] a.txt: 7 figures"), "{text}");
        assert_eq!(both.status, 2);
    }
    mode(0o755).expect("the mode can be set");
}
