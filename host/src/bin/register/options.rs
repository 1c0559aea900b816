//! The words of the command line.

use std::ffi::OsString;
use std::path::PathBuf;

use faceting_register::request::LONGEST;
use facetings_host::workshop::sheet::Size;

/// What is written of an answer.
#[derive(Clone, Copy, PartialEq, Eq)]
pub enum Form {
    Page,
    Json,
    Raw,
    Off,
    Svg,
    Html,
    Csv,
    Sheet,
}

impl Form {
    /// The option that asks for it.
    pub fn option(self) -> &'static str {
        match self {
            Form::Page => "no option",
            Form::Json => "--json",
            Form::Raw => "--raw",
            Form::Off => "--off",
            Form::Svg => "--svg",
            Form::Html => "--html",
            Form::Csv => "--csv",
            Form::Sheet => "--sheet",
        }
    }

    /// Whether a set gets several files, so that they need a folder.
    pub fn needs_folder(self) -> bool {
        match self {
            Form::Page | Form::Json | Form::Raw | Form::Csv => false,
            Form::Off | Form::Svg | Form::Html | Form::Sheet => true,
        }
    }
}

/// What is told of the command itself, in place of an answer.
#[derive(Clone, Copy)]
pub enum Told {
    Help,
    Version,
}

/// What the words of the command line ask for.
pub struct Options {
    /// What is written of an answer.
    pub form: Form,
    /// Where it goes; standard output else.
    pub place: Option<PathBuf>,
    /// The longest answer that is asked for, in bytes.
    pub room: usize,
    /// Whether the original answers.
    pub original: bool,
    /// Whether lines about progress are left out.
    pub quiet: bool,
    /// Whether symmetries are printed in place of answers.
    pub symmetry: bool,
    /// The tariff to quote from: in place of answers, or for what shows prices.
    pub price: Option<PathBuf>,
    /// Whether the numbers of plain entries are printed in place of answers.
    pub plain: bool,
    /// The package that a set is answered with.
    pub noble: Option<PathBuf>,
    /// Whether a note of weight counts in the exit status.
    pub strict: bool,
    /// How large parts are cut.
    pub size: Size,
    /// How many sets are worked on at a time.
    pub jobs: usize,
    /// Whether sets whose results are there already are passed over.
    pub resume: bool,
    /// The older catalogue that the new one is compared with.
    pub against: Option<PathBuf>,
    /// What is told of the command itself.
    pub told: Option<Told>,
    /// The files and folders that are named.
    pub inputs: Vec<PathBuf>,
}

impl Options {
    /// The options, or what is wrong with them.
    pub fn read(words: impl IntoIterator<Item = OsString>) -> Result<Options, String> {
        let mut read = Options {
            form: Form::Page,
            place: None,
            room: LONGEST,
            original: false,
            quiet: false,
            symmetry: false,
            price: None,
            plain: false,
            noble: None,
            strict: false,
            size: Size {
                scale: 1.0,
                flaps: 0.0,
            },
            jobs: cores(),
            resume: false,
            against: None,
            told: None,
            inputs: Vec::new(),
        };
        let mut words = words.into_iter();
        let mut plain = false;
        while let Some(word) = words.next() {
            let option = word.to_str().filter(|text| is_option(text) && !plain);
            match option {
                Some("--") => plain = true,
                Some(option) => read.option(option, &mut words)?,
                None => read.inputs.push(word.into()),
            }
        }
        read.checked()
    }

    fn option(
        &mut self,
        option: &str,
        words: &mut impl Iterator<Item = OsString>,
    ) -> Result<(), String> {
        let mut value = || words.next().ok_or(format!("'{option}' needs a value"));
        match option {
            "--json" => self.set_form(Form::Json)?,
            "--raw" => self.set_form(Form::Raw)?,
            "--off" => self.set_form(Form::Off)?,
            "--svg" => self.set_form(Form::Svg)?,
            "--html" => self.set_form(Form::Html)?,
            "--csv" => self.set_form(Form::Csv)?,
            "--sheet" => {
                self.set_form(Form::Sheet)?;
                self.size.scale = millimetres(option, &value()?)?;
            }
            "--flaps" => self.size.flaps = millimetres(option, &value()?)?,
            "--against" => self.against = Some(value()?.into()),
            "--original" => self.original = true,
            "--quiet" => self.quiet = true,
            "--symmetry" => self.symmetry = true,
            "--price" if self.price.is_some() => return Err("'--price' was given before".into()),
            "--price" => self.price = Some(value()?.into()),
            "--plain" => self.plain = true,
            "--noble" if self.noble.is_some() => return Err("'--noble' was given before".into()),
            "--noble" => self.noble = Some(value()?.into()),
            "--strict" => self.strict = true,
            "--help" | "-h" => self.told = self.told.or(Some(Told::Help)),
            "--version" => self.told = self.told.or(Some(Told::Version)),
            "-o" if self.place.is_some() => return Err("'-o' was given before".into()),
            "-o" => self.place = Some(value()?.into()),
            "--room" => self.room = whole(option, &value()?)?,
            "--jobs" => self.jobs = whole(option, &value()?)?.max(1),
            "--resume" => self.resume = true,
            _ => return Err(format!("'{option}' is no option; see --help")),
        }
        Ok(())
    }

    fn set_form(&mut self, form: Form) -> Result<(), String> {
        if self.form != Form::Page && self.form != form {
            let (earlier, later) = (self.form.option(), form.option());
            return Err(format!("'{earlier}' and '{later}' exclude each other"));
        }
        self.form = form;
        Ok(())
    }

    /// Whether quotes are asked for in place of answers.
    pub fn quotes_alone(&self) -> bool {
        self.price.is_some() && self.form == Form::Page
    }

    fn checked(self) -> Result<Options, String> {
        if self.symmetry && (self.form != Form::Page || self.place.is_some()) {
            return Err("'--symmetry' goes with no other form and not with '-o'".into());
        }
        if self.size.flaps > 0.0 && self.form != Form::Sheet {
            return Err("'--flaps' goes with '--sheet'".into());
        }
        if self.against.is_some() && self.form != Form::Csv {
            return Err("'--against' goes with '--csv'".into());
        }
        let resumes = matches!(self.form, Form::Page | Form::Json) && self.place.is_some();
        if self.resume && (!resumes || self.strict) {
            return Err(
                "'--resume' goes with pages or '--json' in a folder, without '--strict'".into(),
            );
        }
        if self.form.needs_folder() && self.place.is_none() && self.told.is_none() {
            let option = self.form.option();
            return Err(format!("'{option}' writes files: name a folder with -o"));
        }
        let quoted = self.quotes_alone() && self.place.is_none();
        let shown = self.price.is_some() && matches!(self.form, Form::Csv | Form::Svg);
        if self.price.is_some() && (self.symmetry || self.original || !(quoted || shown)) {
            return Err(
                "'--price' goes with '--csv', with '--svg' or by itself, and not with '--original'"
                    .into(),
            );
        }
        if self.plain
            && (self.price.is_some()
                || self.symmetry
                || self.original
                || self.form != Form::Page
                || self.place.is_some())
        {
            return Err(
                "'--plain' goes with none of '--json', '--raw', '-o', '--price', '--symmetry' and '--original'".into(),
            );
        }
        let alone = matches!(self.form, Form::Page | Form::Json | Form::Raw) && !self.resume;
        let other = self.price.is_some() || self.symmetry || self.plain;
        if self.noble.is_some() && (!alone || other) {
            return Err(
                "'--noble' goes with the page, '--json' or '--raw', and with none of '--price', '--plain', '--symmetry' and '--resume'".into(),
            );
        }
        if self.inputs.is_empty() && self.told.is_none() {
            return Err("no vertex set is named; see --help".into());
        }
        Ok(self)
    }
}

/// More than any sheet has.
const MOST_MILLIMETRES: f64 = 1e6;

/// A single hyphen names standard input.
fn is_option(word: &str) -> bool {
    word.starts_with('-') && word != "-"
}

fn whole(option: &str, value: &OsString) -> Result<usize, String> {
    let read = value.to_str().and_then(|text| text.parse().ok());
    read.ok_or_else(|| {
        let value = value.to_string_lossy();
        format!("'{option}' takes a whole number, not '{value}'")
    })
}

fn millimetres(option: &str, value: &OsString) -> Result<f64, String> {
    let read = value.to_str().and_then(|text| text.parse().ok());
    let sound = |&length: &f64| length > 0.0 && length <= MOST_MILLIMETRES;
    read.filter(sound).ok_or_else(|| {
        let value = value.to_string_lossy();
        format!("'{option}' takes millimetres above 0, not '{value}'")
    })
}

/// As many calls side by side as the machine has cores.
fn cores() -> usize {
    std::thread::available_parallelism().map_or(1, usize::from)
}
