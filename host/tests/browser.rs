//! The pages of --html in a browser: a script clicks through a page as people do, and
//! says what it found. Where no chromium is on the path, a line says that it was not run.

mod common;

use std::io::Write;
use std::path::PathBuf;

use common::place::Place;
use common::ways::ways;

const COMMAND: &str = env!("CARGO_BIN_EXE_register");
const ICOSAHEDRON: &str = include_str!("../../examples/icosahedron.txt");
const GRID: &str = include_str!("../../examples/grid-3x3.txt");
const STYLE: &str = include_str!("../src/workshop/page.css");

/// Goes through the page; each line that it leaves is a thing that holds or not.
const CLICKS: &str = include_str!("common/clicks.js");

/// The browser; without one, a line past the capture of what tests print.
fn chromium() -> Option<PathBuf> {
    let path = std::env::var_os("PATH").unwrap_or_default();
    let mut files = std::env::split_paths(&path).map(|folder| folder.join("chromium"));
    let found = files.find(|file| file.is_file());
    if found.is_none() {
        let line = "not run: chromium is not on the path, so no page was clicked through\n";
        let _ = std::io::stderr().write_all(line.as_bytes());
    }
    found
}

/// The lines that the script leaves in a page, in a window of that width; a line past
/// the capture where the browser does not start here.
fn clicked(place: &Place, file: &str, width: usize) -> Option<Vec<String>> {
    let browser = chromium()?;
    let address = format!("file://{}", place.path(file).display());
    let window = format!("--window-size={width},800");
    let profile = format!("--user-data-dir={}", place.path("profile").display());
    let words = [
        "--headless",
        "--no-sandbox",
        "--disable-gpu",
        "--virtual-time-budget=5000",
        &window,
        &profile,
        "--dump-dom",
        &address,
    ];
    let page = place.run(browser, &words).text();
    if !page.contains("</html>") {
        let line = "not run: chromium does not start here, so no page was clicked through\n";
        let _ = std::io::stderr().write_all(line.as_bytes());
        return None;
    }
    let (_, told) = page
        .split_once("<pre id=\"told\">")
        .expect("the script comes to its end");
    let told = told.split("</pre>").next().unwrap_or("");
    Some(told.lines().map(String::from).collect())
}

#[test]
fn a_page_is_clicked_through() {
    let Some(way) = ways().pop() else { return };
    let place = Place::new("browser-clicks");
    place.write("icosahedron.txt", ICOSAHEDRON);
    let words = ["--html", "icosahedron.txt", "-o", "out"];
    place.run(COMMAND, &[way.option, &words].concat()).fine();
    let page = String::from_utf8(place.read("out/icosahedron.html")).expect("text");
    let clicks = format!("<script>{CLICKS}</script></body>");
    place.write("clicked.html", page.replace("</body>", &clicks));
    for width in [1000, 390] {
        let Some(told) = clicked(&place, "clicked.html", width) else {
            return;
        };
        assert!(told.len() > 25, "{told:?}");
        let fails: Vec<&String> = told
            .iter()
            .filter(|line| !line.starts_with("holds"))
            .collect();
        assert!(fails.is_empty(), "{width}: {fails:?}");
    }
}

#[test]
fn pages_need_nothing_from_elsewhere_and_the_index_leads_to_them() {
    let Some(way) = ways().pop() else { return };
    let place = Place::new("browser-pages");
    place.write("sets/ico & co.txt", ICOSAHEDRON);
    place.write("sets/below/grid.txt", GRID);
    place.write("sets/bad.txt", "points\n0 0\n1");
    let words = ["--html", "sets", "-o", "out"];
    let done = place.run(COMMAND, &[way.option, &words].concat());
    assert_eq!(done.status, 2);
    let read = |name: &str| String::from_utf8(place.read(name)).expect("text");
    let index = read("out/index.html");
    for words in [
        "<a href=\"ico%20%26%20co.html\">ico &amp; co.txt</a>",
        "<a href=\"below/grid.html\">",
        "<h1>3 vertex sets</h1>",
        "line 3: the point has 1 coordinates",
    ] {
        assert!(index.contains(words), "{words}");
    }
    let grid = read("out/below/grid.html");
    assert!(grid.contains("<a href=\"../index.html\">All sets</a>"));
    assert!(grid.contains("<em>what to do:</em>"));
    for page in [index, grid, read("out/ico & co.html")] {
        for word in ["http://", "https://", "src=", "@import", "url("] {
            assert!(!page.contains(word), "{word}");
        }
    }
    assert!(STYLE.contains("prefers-color-scheme: dark"));
    place.write("sets/below/grid.txt", "points\n0 0\n");
    place.run(COMMAND, &[way.option, &words].concat());
    assert!(!place.path("out/below/grid.html").exists());
    place.write("index.txt", GRID);
    let done = place.run(
        COMMAND,
        &[way.option, &["--html", "index.txt", "-o", "out"]].concat(),
    );
    assert!(done.complaint(2).contains("'index' would be written over"));
}
