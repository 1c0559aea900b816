//! The worked examples of docs/FORMAT.md: the bytes and the lists in its tables.

use faceting_register::answer::Pair;
use facetings_host::format::hex;

const PAGE: &str = include_str!("../../../docs/FORMAT.md");

/// A section of the page, without its head.
fn section(head: &str) -> &'static str {
    let (_, section) = PAGE
        .split_once(&format!("## {head}\n"))
        .expect("the section");
    section.split("\n## ").next().unwrap_or("")
}

/// The job and the answer, each from its table. A row has a place, bytes and words;
/// the places must follow from the bytes before them.
pub fn worked_example() -> (Vec<u8>, Vec<u8>) {
    let mut tables = Vec::new();
    for line in section("A square, byte by byte").lines() {
        let cells: Vec<&str> = line.split('|').map(str::trim).collect();
        match cells[..] {
            ["", "at", "bytes", "what", ""] => tables.push(Vec::new()),
            ["", at, bytes, _, ""] if at.parse::<usize>().is_ok() => {
                let table: &mut Vec<u8> = tables.last_mut().expect("a table has a head");
                assert_eq!(at, table.len().to_string(), "the place of: {line}");
                let bytes = hex::read(&bytes.replace(' ', ""));
                table.extend(bytes.unwrap_or_else(|error| panic!("{error}: {line}")));
            }
            _ => {}
        }
    }
    let [job, answer]: [Vec<u8>; 2] = tables.try_into().expect("there are two such tables");
    (job, answer)
}

/// The numbers of the refusals in the table of that section, in order.
pub fn refusal_numbers() -> Vec<u8> {
    let number = |line: &str| line.split('|').nth(1)?.trim().parse().ok();
    section("Refusals").lines().filter_map(number).collect()
}

/// Of each entry of the job with a compound facet the two lists.
pub fn entry_lists() -> Vec<[Vec<Pair>; 2]> {
    let pair = |text: &str| {
        let (orbit, facet) = text.split_once(',')?;
        Some((orbit.parse().ok()?, facet.parse().ok()?))
    };
    let pairs = |cell: &str| -> Vec<Pair> {
        let texts = cell.split(['(', ')']).filter(|text| text.contains(','));
        texts
            .map(|text| pair(text).expect("a pair of numbers"))
            .collect()
    };
    let mut lists = Vec::new();
    for line in section("A compound facet").lines() {
        let cells: Vec<&str> = line.split('|').map(str::trim).collect();
        if let ["", number, split, before, ""] = cells[..] {
            if number == lists.len().to_string() {
                lists.push([pairs(split), pairs(before)]);
            }
        }
    }
    lists
}
