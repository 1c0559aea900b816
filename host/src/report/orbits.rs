//! The orbits of jobs as the proved program `orbit_list` prints them.

use faceting_register::Stop;

use crate::engines::judgement::{Inner, Judgement, Orbit};

/// The lines of one job, or why the original did not come to them all: a refusal
/// in an inner call stops it before the orbits that come later.
pub fn lines(number: usize, judged: &Judgement) -> Result<String, String> {
    let orbits = &judged.events.orbits;
    match &judged.result {
        Err(Stop::Broken(words)) => return Err(format!("job {number}: {words}")),
        Err(Stop::Refused(refusal)) if refusal.number() <= 13 => {
            return Ok(format!("job {number}: refused {}\n", refusal.number()));
        }
        _ if judged.rank() == 2 => return Ok(format!("job {number}: rank 2\n")),
        _ => {}
    }
    let found: String = orbits.iter().map(orbit_line).collect();
    let inner = inner_lines(orbits).ok_or(format!("job {number}: an inner call was refused"))?;
    Ok(format!(
        "job {number}: {} orbits\n{found}{inner}",
        orbits.len()
    ))
}

fn orbit_line(orbit: &Orbit) -> String {
    format!("{}:{}\n", orbit.count, spaced(&orbit.vertices))
}

/// A line for each orbit, up to the first whose refit was refused; none if an
/// orbit in front of it was not come to.
fn inner_lines(orbits: &[Orbit]) -> Option<String> {
    let mut lines = String::new();
    for (number, orbit) in orbits.iter().enumerate() {
        match orbit.inner.as_ref()? {
            Inner::Refused => return Some(lines + &format!("inner {number}: refused 14\n")),
            Inner::Rows(rows) => {
                let rows: Vec<String> = rows.iter().map(|row| spaced(row)).collect();
                lines += &format!("inner {number}:{}\n", rows.join(","));
            }
        }
    }
    Some(lines)
}

fn spaced(numbers: &[usize]) -> String {
    numbers.iter().map(|number| format!(" {number}")).collect()
}
