//! The symmetries that were found, in words and as generators that can be copied
//! into a vertex set.

use std::fmt::Write;

use faceting_register::bounds::MOST_ROWS;

use super::{Group, Kind, Symmetry};

/// The symmetries of the set of that name: lines of the text form, with comments.
pub fn report(name: &str, symmetry: &Symmetry) -> String {
    let (full, turns) = (symmetry.group(Kind::Full), symmetry.group(Kind::Turns));
    let mut text = format!("# {name}: {}.\n", symmetry.words());
    let fits = |order: u64| (2..=MOST_ROWS as u64).contains(&order);
    if fits(full.order) {
        put(&mut text, "All of them ('symmetry full')", &full);
    }
    if turns.order < full.order && fits(turns.order) {
        put(&mut text, "The turns alone ('symmetry turns')", &turns);
    }
    if turns.order > MOST_ROWS as u64 {
        let (fixed, group) = symmetry.fitting_turns();
        let words = format!("More than {MOST_ROWS}; {}", kept(fixed, &group));
        put(&mut text, &words, &group);
    }
    text
}

fn put(text: &mut String, words: &str, group: &Group) {
    let _ = writeln!(text, "# {words}:\ngenerators");
    for row in group.few_generators() {
        let images: Vec<String> = row.iter().map(u8::to_string).collect();
        let _ = writeln!(text, "{}", images.join(" "));
    }
}

/// A group of turns by the points that it keeps.
fn kept(fixed: usize, group: &Group) -> String {
    let turns = match group.order {
        1 => "the one turn that keeps".into(),
        order => format!("the {order} turns that keep"),
    };
    match fixed {
        1 => format!("{turns} point 0 in its place"),
        _ => format!("{turns} points 0 to {} in their places", fixed - 1),
    }
}

/// So many symmetries, more than one, and so many turns among them.
pub fn counted(full: u64, turns: u64) -> String {
    match turns {
        1 => format!("{full} symmetries, 1 of them a turn"),
        _ if turns == full => format!("{full} symmetries, all of them turns"),
        _ => format!("{full} symmetries, {turns} of them turns"),
    }
}

impl Symmetry {
    /// How many there are, and how many of them are turns.
    pub fn words(&self) -> String {
        let (full, turns) = (self.group(Kind::Full).order, self.group(Kind::Turns).order);
        match full {
            1 => "the points have no symmetry but staying where they are".into(),
            _ => format!("the points have {}", counted(full, turns)),
        }
    }

    /// Why these symmetries cannot be the rows of a job, and what can be.
    pub fn too_many(&self) -> String {
        let turns = self.group(Kind::Turns).order;
        let words = self.words();
        if turns <= MOST_ROWS as u64 {
            return format!(
                "{words}, and a job has at most {MOST_ROWS} rows: write 'symmetry turns'"
            );
        }
        let (fixed, group) = self.fitting_turns();
        let part = kept(fixed, &group);
        format!("{words}, and a job has at most {MOST_ROWS} rows: './register --symmetry' prints generators of {part}")
    }
}
