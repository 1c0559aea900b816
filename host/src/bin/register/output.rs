//! Where results go: standard output; a file that is there whole or not at all; or
//! what is no plain file, such as a device, which is written to and stays what it is.

use std::fs::{self, File};
use std::io::{self, Write};
use std::path::{Path, PathBuf};

/// To standard output. A reader that has seen enough and closes its end is no
/// failure.
pub fn print(bytes: &[u8]) -> Result<(), String> {
    let mut out = io::stdout().lock();
    match out.write_all(bytes).and_then(|()| out.flush()) {
        Err(error) if error.kind() != io::ErrorKind::BrokenPipe => {
            Err(format!("cannot write standard output: {error}"))
        }
        _ => Ok(()),
    }
}

/// To standard error, as far as somebody listens.
pub fn tell(line: &str) {
    let _ = io::stderr().write_all(line.as_bytes());
}

/// To the place that was named.
pub fn save(place: &Path, bytes: &[u8]) -> Result<(), String> {
    let written = match is_replaced(place) {
        true => replace(place, bytes),
        false => write_to(place, bytes),
    };
    written.map_err(|error| format!("cannot write {}: {error}", place.display()))
}

/// Plain files and new names are; links, devices and pipes are not.
fn is_replaced(place: &Path) -> bool {
    match fs::symlink_metadata(place) {
        Ok(found) => found.is_file(),
        Err(error) => error.kind() == io::ErrorKind::NotFound,
    }
}

/// Written beside it under another name and then renamed, so that neither half a
/// result nor a lost older one stays behind.
fn replace(place: &Path, bytes: &[u8]) -> io::Result<()> {
    let beside = beside(place);
    let written = fs::write(&beside, bytes).and_then(|()| fs::rename(&beside, place));
    written.inspect_err(|_| {
        let _ = fs::remove_file(&beside);
    })
}

fn write_to(place: &Path, bytes: &[u8]) -> io::Result<()> {
    let mut file = File::create(place)?;
    file.write_all(bytes)?;
    file.flush()
}

fn beside(place: &Path) -> PathBuf {
    let mut name = place.as_os_str().to_owned();
    name.push(format!(".{}.part", std::process::id()));
    name.into()
}

/// What an earlier run left at a place where nothing belongs now.
pub fn remove(place: &Path) -> Result<(), String> {
    if !fs::symlink_metadata(place).is_ok_and(|found| found.is_file()) {
        return Ok(());
    }
    let removed = fs::remove_file(place);
    removed.map_err(|error| format!("cannot remove {}: {error}", place.display()))
}
