//! What a refusal says to the person who wrote the job: the rule that holds, and
//! what to change so that the job keeps it.

use faceting_register::Refusal;

use crate::format::culprit::Culprit;

/// The rule and the change of each refusal, in the order of `Refusal::all`.
const ALL: [(&str, &str); 20] = [
    (
        "a job has at least 11 bytes and begins with the letters FCT",
        "give the set in the text form, or make the bytes with 'facetings-host encode'",
    ),
    (
        "the version is 1 to 3",
        "leave the keyword 'version' out",
    ),
    (
        "the rank is 2, 3 or 4",
        "write 'rank 3' for figures in a plane, 'rank 4' for solids",
    ),
    (
        "points have at least rank - 1 and at most 4 coordinates",
        "give the points another number of coordinates, or change the rank",
    ),
    (
        "a set has 2 to 20 points",
        "leave points out, or take the set apart",
    ),
    (
        "there are 1 to 120 rows",
        "take a smaller part of the symmetry ('symmetry turns'), or fewer rows",
    ),
    (
        "only the flag bits 0, 1 and 2 are in use",
        "set a bit for each of min, max and limit that is there, and no other",
    ),
    (
        "the job is just as long as its fields say",
        "compare the counts in front with what follows them (docs/FORMAT.md)",
    ),
    (
        "numbers are finite: points and offset within 65,536 of zero, basis numbers within 1, min and max from 0 to 131,072",
        "move the set to the origin, or scale it down",
    ),
    (
        "the first row leaves every point in its place",
        "begin the rows with 0 1 2 .., or write 'generators' in place of 'rows'",
    ),
    (
        "every row names each point once",
        "correct the row that names a point twice, or a point that is not there",
    ),
    (
        "the workspace has at least 524,288 bytes at rank 3 and 4,194,304 at rank 4",
        "lend a longer workspace",
    ),
    (
        "no call finds more than 256 orbits of hyperplanes",
        "take more of the symmetry ('symmetry full'), fewer points, or closer limits 'min' and 'max'",
    ),
    (
        "the points of a plane or line, fitted one by one, give just that plane or line",
        "move points that lie almost on it, or almost together, clearly on or clearly off (the tolerance tells them apart, 0.0000001 unless the set names one)",
    ),
    (
        "no call has more than 1,024 possible facets or entries",
        "take more of the symmetry ('symmetry full'), fewer points, or closer limits 'min' and 'max'; 'limit 1000' lists only some of the figures, and the label then says 'at least'",
    ),
    (
        "no more lists are examined than the budget allows",
        "raise the budget ('budget 100000000'), or take more of the symmetry ('symmetry full'); 'limit 100' lists only some of the figures, and the label then says 'at least'",
    ),
    (
        "the answer buffer holds the whole answer",
        "allow a longer answer (--room); 'limit 100' lists only some of the figures, and the label then says 'at least'",
    ),
    (
        "a package has 1 to 120 full rows, each a permutation of its 2 to 20 points and the first of them the identity, a count from 1 to 65,535, and a different global number below the number of its points for each point of the set",
        "compare the package with the set: as many global numbers as points, and full rows of the full set (docs/FORMAT.md)",
    ),
    (
        "the tolerance is from 0.000000001 to 0.001",
        "write 'tolerance 0.001' for points that are good to three places, or leave the keyword out",
    ),
    (
        "the rule of crowded lines is 1 or 2",
        "write 'rule 2' to leave lines with more than two points without an edge, or leave the keyword out",
    ),
];

fn row(refusal: Refusal) -> (&'static str, &'static str) {
    let mut rows = Refusal::all().zip(ALL);
    let own = rows.find(|(other, _)| *other == refusal);
    own.map_or(("", ""), |(_, row)| row)
}

/// The rule that the job breaks, as it should be.
pub fn rule(refusal: Refusal) -> &'static str {
    row(refusal).0
}

/// What its writer can do about it.
pub fn change(refusal: Refusal, culprit: Option<&Culprit>) -> &str {
    let own = culprit.and_then(|culprit| culprit.change.as_deref());
    own.unwrap_or(row(refusal).1)
}

/// Number, what was met and where, rule and change in one line.
pub fn line(refusal: Refusal, culprit: Option<&Culprit>) -> String {
    let place = culprit.map_or(String::new(), |culprit| format!("; {}", culprit.place));
    format!(
        "{refusal}{place}; the rule: {}; what to change: {}",
        rule(refusal),
        change(refusal, culprit)
    )
}
