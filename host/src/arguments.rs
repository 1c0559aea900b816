//! Words of the command line: plain ones, and options that take a value.

use std::str::FromStr;

use crate::Failure;

/// The words behind a command.
pub struct Arguments {
    plain: Vec<String>,
    options: Vec<(String, String)>,
}

impl Arguments {
    /// Every option of a command takes a value; an unknown one is an error.
    pub fn read(words: &[String], known: &[&str]) -> Result<Self, Failure> {
        let mut read = Self {
            plain: Vec::new(),
            options: Vec::new(),
        };
        let mut words = words.iter();
        while let Some(word) = words.next() {
            if !word.starts_with('-') || word == "-" {
                read.plain.push(word.clone());
                continue;
            }
            if !known.contains(&word.as_str()) {
                return Err(format!("'{word}' is no option here; see --help").into());
            }
            if read.options.iter().any(|(name, _)| name == word) {
                return Err(format!("'{word}' was given before").into());
            }
            let value = words.next().ok_or(format!("'{word}' needs a value"))?;
            read.options.push((word.clone(), value.clone()));
        }
        Ok(read)
    }

    /// The plain words, which must be as many as there are names for them.
    pub fn plain<const N: usize>(&self, names: [&str; N]) -> Result<[&str; N], Failure> {
        if self.plain.len() != N {
            let names = match N {
                0 => "no plain argument".into(),
                _ => names.join(" and "),
            };
            return Err(format!(
                "expected {names}, got {} words; see --help",
                self.plain.len()
            )
            .into());
        }
        Ok(std::array::from_fn(|i| self.plain[i].as_str()))
    }

    /// The plain words, however many.
    pub fn all(&self) -> impl Iterator<Item = &str> {
        self.plain.iter().map(String::as_str)
    }

    /// The value of an option that was given.
    pub fn text(&self, option: &str) -> Option<&str> {
        let found = self.options.iter().find(|(name, _)| name == option);
        found.map(|(_, value)| value.as_str())
    }

    /// The value of an option that must be given.
    pub fn needed(&self, option: &str) -> Result<&str, Failure> {
        let missing = || format!("'{option}' is missing; see --help").into();
        self.text(option).ok_or_else(missing)
    }

    /// The value of an option that takes a number.
    pub fn number<T: FromStr>(&self, option: &str) -> Result<Option<T>, Failure> {
        let parse = |text: &str| {
            let bad = |_| format!("'{option}' takes a whole number, not '{text}'").into();
            text.parse().map_err(bad)
        };
        self.text(option).map(parse).transpose()
    }

    /// The number of an option that must be given.
    pub fn needed_number<T: FromStr>(&self, option: &str) -> Result<T, Failure> {
        self.needed(option)?;
        let missing = || format!("'{option}' is missing").into();
        self.number(option)?.ok_or_else(missing)
    }
}
