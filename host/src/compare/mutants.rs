//! Porter's mistakes as edits of the crates' code, put in one by one to see that
//! the comparison notices them.
//!
//! A list is text: '#' begins a comment line, and a blank line ends a mistake.
//!
//!   mistake: NAME
//!   unnoticed: WHY         only where no case can or does notice it
//!   file: PLACE            below the repository
//!   old: TEXT              a line of the file, as it stands behind the blank; several
//!   new: TEXT              lines one below the other; then what stands there instead

use std::fs;
use std::path::{Path, PathBuf};

/// A text of one file that stands there once, and what is put for it.
#[derive(Debug, Default, PartialEq)]
pub struct Edit {
    /// The file, below the repository.
    pub file: String,
    /// What stands there.
    pub old: String,
    /// What is put for it.
    pub new: String,
}

/// A porter's mistake.
#[derive(Debug, Default, PartialEq)]
pub struct Mistake {
    /// What the porter did.
    pub name: String,
    /// Why no case notices it, where none does.
    pub unnoticed: Option<String>,
    /// The edits that make it.
    pub edits: Vec<Edit>,
}

/// The mistakes of a list, or the line that cannot be read.
pub fn read(text: &str) -> Result<Vec<Mistake>, String> {
    let mut mistakes = Vec::new();
    for (number, line) in (1..).zip(text.lines()) {
        if !line.starts_with('#') && !line.trim().is_empty() {
            read_line(&mut mistakes, line).map_err(|reason| format!("line {number}: {reason}"))?;
        }
    }
    let whole = |edit: &Edit| !edit.old.is_empty() && edit.old != edit.new;
    let wrong = mistakes
        .iter()
        .find(|mistake| mistake.edits.is_empty() || !mistake.edits.iter().all(whole));
    match wrong {
        Some(mistake) => Err(format!(
            "'{}' has an edit that alters nothing",
            mistake.name
        )),
        None => Ok(mistakes),
    }
}

fn read_line(mistakes: &mut Vec<Mistake>, line: &str) -> Result<(), String> {
    let (key, value) = line.split_once(": ").unwrap_or((line, ""));
    if key == "mistake" {
        mistakes.push(Mistake {
            name: value.into(),
            ..Mistake::default()
        });
        return Ok(());
    }
    let mistake = mistakes.last_mut().ok_or("a mistake has a name first")?;
    if key == "unnoticed" {
        mistake.unnoticed = Some(value.into());
        return Ok(());
    }
    if key == "file" {
        mistake.edits.push(Edit {
            file: value.into(),
            ..Edit::default()
        });
        return Ok(());
    }
    let edit = mistake.edits.last_mut().ok_or("an edit has a file first")?;
    let text = match key {
        "old" if edit.new.is_empty() => &mut edit.old,
        "new" => &mut edit.new,
        _ => return Err(format!("'{key}' is no word here")),
    };
    if !text.is_empty() {
        text.push('\n');
    }
    text.push_str(value);
    Ok(())
}

impl Mistake {
    /// The altered files below that folder, or why there are none.
    pub fn applied(&self, repository: &Path) -> Result<Vec<(PathBuf, String)>, String> {
        let mut files: Vec<(PathBuf, String)> = Vec::new();
        for edit in &self.edits {
            let place = repository.join(&edit.file);
            let known = files.iter().position(|file| file.0 == place);
            let index = match known {
                Some(index) => index,
                None => {
                    let text = fs::read_to_string(&place)
                        .map_err(|error| format!("cannot read {}: {error}", edit.file))?;
                    files.push((place, text));
                    files.len() - 1
                }
            };
            let text = &mut files[index].1;
            match text.matches(&edit.old).count() {
                1 => *text = text.replace(&edit.old, &edit.new),
                times => {
                    return Err(format!(
                        "'{}' stands {times} times in {}, not once",
                        edit.old, edit.file
                    ))
                }
            }
        }
        Ok(files)
    }
}

#[cfg(test)]
mod tests {
    use super::*;

    const LIST: &str = "\
# two mistakes
mistake: one
file: a
old:     x
new:     y

mistake: two
unnoticed: for a reason
file: a
old: x
old: z
new: w
file: b
old: p
new: q
";

    #[test]
    fn a_list_is_read() {
        let list = read(LIST).expect("the list is well formed");
        let edit = |file: &str, old: &str, new: &str| Edit {
            file: file.into(),
            old: old.into(),
            new: new.into(),
        };
        assert_eq!(list[0].edits, [edit("a", "    x", "    y")]);
        assert_eq!(list[1].unnoticed.as_deref(), Some("for a reason"));
        assert_eq!(list[1].edits, [edit("a", "x\nz", "w"), edit("b", "p", "q")]);
        assert_eq!(
            read("file: a"),
            Err("line 1: a mistake has a name first".into())
        );
        let same = read("mistake: none\nfile: a\nold: x\nnew: x");
        assert_eq!(same, Err("'none' has an edit that alters nothing".into()));
    }
}
