//! One catalogue of several: runs on different machines, put together.

use std::collections::HashMap;

use super::csv::{Line, JOB, SET};

/// All lines, those of a set that several catalogues have once; a set that they have
/// for different jobs is told.
pub fn merge(catalogues: Vec<Vec<Line>>) -> Result<Vec<Line>, String> {
    let mut merged: Vec<Line> = Vec::new();
    let mut jobs: HashMap<String, (usize, String)> = HashMap::new();
    for (i, catalogue) in catalogues.into_iter().enumerate() {
        for line in catalogue {
            let (set, job) = (line[SET].clone(), line[JOB].clone());
            let (first, known) = jobs.entry(set).or_insert((i, job.clone()));
            if *known != job {
                return Err(format!(
                    "{} is catalogued for two different jobs",
                    line[SET]
                ));
            }
            if *first == i {
                merged.push(line);
            }
        }
    }
    Ok(merged)
}

#[cfg(test)]
mod tests {
    use super::*;

    fn line(set: &str, number: &str, job: &str) -> Line {
        let mut line: Line = vec![String::new(); 11];
        (line[SET], line[1], line[JOB]) = (set.into(), number.into(), job.into());
        line
    }

    #[test]
    fn a_set_counts_once_and_has_one_job() {
        let one = vec![
            line("a", "1", "j"),
            line("a", "1", "j"),
            line("b", "2", "k"),
        ];
        let other = vec![line("b", "2", "k"), line("c", "3", "l")];
        let all = vec![
            line("a", "1", "j"),
            line("a", "1", "j"),
            line("b", "2", "k"),
            line("c", "3", "l"),
        ];
        assert_eq!(merge(vec![one.clone(), other]), Ok(all));
        let changed = vec![line("b", "2", "new")];
        assert_eq!(
            merge(vec![one, changed]),
            Err("b is catalogued for two different jobs".into())
        );
    }
}
