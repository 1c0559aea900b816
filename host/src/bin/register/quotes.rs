//! What the entries of sets cost, beside their answers: for a catalogue or a sheet of
//! pictures at a tariff.

use std::path::Path;

use faceting_register::quote::{Counter, Tariff};
use facetings_host::format::vertex_set::VertexSet;

use crate::outcome::Outcome;
use crate::price;

/// What quotes at one tariff.
pub struct Quotes {
    counter: Counter,
    tariff: Tariff,
}

impl Quotes {
    /// From the tariff in a file, or what is wrong with it.
    pub fn open(file: &Path) -> Result<Quotes, String> {
        let tariff = price::read(file)?;
        let counter = Counter::open().map_err(|absent| absent.to_string())?;
        Ok(Quotes { counter, tariff })
    }

    /// Puts the prices beside the entries of an answered set. A set of a rank without
    /// prices has none.
    pub fn add(&mut self, set: &VertexSet, found: &mut Outcome) {
        let (Ok(job), Some(report)) = (&set.job, found.report_mut()) else {
            return;
        };
        let entries = 0..report.answer.entries.len() as u64;
        let mut quote = |entry| self.counter.quote(job, entry, &self.tariff);
        let price = |entry| quote(entry).map(|quote| quote.total).ok();
        report.prices = entries.map(price).collect();
    }
}
