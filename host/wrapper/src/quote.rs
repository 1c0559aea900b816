//! Quotes: a tariff, and what an entry of rank 4 costs at it, size by size, by the proved
//! function.

use std::fmt;

use crate::bounds::WORKSPACE;
use crate::refusal::Refusal;
use crate::register::NotLinked;

/// Edge counts from 1 to this one have a price: 20 points have as many pairs.
pub const MOST_EDGES: usize = 190;

/// The highest price of a polygon or a joint, in pence.
pub const DEAREST: u32 = 1_000_000;

/// The whole discount, in thousandths.
pub const WHOLE_DISCOUNT: u32 = 1_000;

/// The bytes of a tariff.
pub const TARIFF_LENGTH: usize = 4 * (MOST_EDGES + 2);

/// The bytes of a slip: a u64 for each edge count that has a price.
pub const SLIP_LENGTH: usize = 8 * MOST_EDGES;

/// What polygons and joints cost, and how much is taken off.
#[derive(Clone, Debug, PartialEq, Eq)]
pub struct Tariff {
    /// In pence, of a polygon with one edge, with two, and so on to `MOST_EDGES`.
    pub prices: Vec<u32>,
    /// In pence, for each edge.
    pub joint: u32,
    /// In thousandths.
    pub discount: u32,
}

impl Tariff {
    /// A penny for each polygon and for each joint: its slips count polygons.
    pub fn counting() -> Tariff {
        Tariff {
            prices: vec![1; MOST_EDGES],
            joint: 1,
            discount: 0,
        }
    }

    /// The tariff's bytes, as the function takes them.
    pub fn bytes(&self) -> Vec<u8> {
        let numbers = self.prices.iter().chain([&self.joint, &self.discount]);
        numbers.flat_map(|number| number.to_le_bytes()).collect()
    }
}

/// What an entry costs.
#[derive(Clone, Debug, PartialEq, Eq)]
pub struct Quote {
    /// In pence, less the discount.
    pub total: u64,
    /// In pence, of all polygons with one edge, with two, and so on to `MOST_EDGES`;
    /// without joints and before the discount.
    pub subtotals: Vec<u64>,
}

/// What an entry is made of.
#[derive(Clone, Debug, PartialEq, Eq)]
pub struct Made {
    /// How many polygons have one edge, two, and so on to `MOST_EDGES`.
    pub polygons: Vec<u64>,
    /// How many joints there are: as many as edges.
    pub joints: u64,
}

/// The numbers of a slip.
pub fn subtotals(slip: &[u8]) -> Vec<u64> {
    let numbers = slip.chunks_exact(8).take(MOST_EDGES);
    let number = |bytes: &[u8]| {
        bytes
            .iter()
            .rev()
            .fold(0, |n, &byte| n << 8 | u64::from(byte))
    };
    numbers.map(number).collect()
}

/// Why there is no quote.
#[derive(Clone, Copy, Debug, PartialEq, Eq)]
pub enum NoQuote {
    /// The job itself is refused.
    Job(Refusal),
    /// The tariff is of another length, or has a number above its bound.
    Tariff,
    /// The job is not of rank 4.
    Rank,
    /// There is no entry of that number.
    Entry,
    /// The function did what it must not: a value that is no total and no refusal.
    Broken(i64),
}

impl NoQuote {
    /// What a negative value stands for.
    fn from_code(code: i64) -> NoQuote {
        match code {
            -19 => NoQuote::Tariff,
            -20 => NoQuote::Rank,
            -21 => NoQuote::Entry,
            _ => Refusal::from_code(code).map_or(NoQuote::Broken(code), NoQuote::Job),
        }
    }
}

impl fmt::Display for NoQuote {
    fn fmt(&self, f: &mut fmt::Formatter<'_>) -> fmt::Result {
        match self {
            NoQuote::Job(refusal) => write!(f, "{refusal}"),
            NoQuote::Tariff => {
                f.write_str("refused 19: the tariff is not of 768 bytes, or has a number too large")
            }
            NoQuote::Rank => f.write_str("refused 20: only entries of rank 4 have a price"),
            NoQuote::Entry => f.write_str("refused 21: there is no entry of that number"),
            NoQuote::Broken(code) => write!(f, "{code} is no total and no refusal number"),
        }
    }
}

impl std::error::Error for NoQuote {}

/// The exported function as C sees it: each slice is its pointer and its length.
pub type Exported = unsafe extern "C" fn(
    job: *const u8,
    job_length: usize,
    workspace: *mut u8,
    workspace_length: usize,
    entry: u64,
    tariff: *const u8,
    tariff_length: usize,
    answer: *mut u8,
    answer_length: usize,
) -> i64;

#[cfg(has_register)]
mod linked {
    extern "C" {
        pub fn register_price(
            job: *const u8,
            job_length: usize,
            workspace: *mut u8,
            workspace_length: usize,
            entry: u64,
            tariff: *const u8,
            tariff_length: usize,
            answer: *mut u8,
            answer_length: usize,
        ) -> i64;
    }
}

/// The function itself, for those who lend it memory of their own kind.
#[cfg(has_register)]
pub fn exported() -> Result<Exported, NotLinked> {
    Ok(linked::register_price)
}

/// The function itself, for those who lend it memory of their own kind.
#[cfg(not(has_register))]
pub fn exported() -> Result<Exported, NotLinked> {
    Err(NotLinked)
}

/// What quotes, with a workspace that is kept from call to call.
pub struct Counter {
    function: Exported,
    workspace: Vec<u8>,
}

impl Counter {
    /// The counter, where the library is linked.
    pub fn open() -> Result<Counter, NotLinked> {
        exported().map(|function| Counter {
            function,
            workspace: vec![0; WORKSPACE],
        })
    }

    /// What the function returns, with so many bytes of workspace; the slip goes into the
    /// buffer.
    pub fn slip(
        &mut self,
        job: &[u8],
        workspace: usize,
        entry: u64,
        tariff: &[u8],
        answer: &mut [u8],
    ) -> i64 {
        if self.workspace.len() < workspace {
            self.workspace.resize(workspace, 0);
        }
        let lent = &mut self.workspace[..workspace];
        // The linked function reads job and tariff and writes workspace and buffer, each over
        // its own length; they do not overlap, and it keeps none of them.
        unsafe {
            (self.function)(
                job.as_ptr(),
                job.len(),
                lent.as_mut_ptr(),
                lent.len(),
                entry,
                tariff.as_ptr(),
                tariff.len(),
                answer.as_mut_ptr(),
                answer.len(),
            )
        }
    }

    /// What the function returns, with so many bytes of workspace.
    pub fn code(&mut self, job: &[u8], workspace: usize, entry: u64, tariff: &[u8]) -> i64 {
        self.slip(job, workspace, entry, tariff, &mut [0; SLIP_LENGTH])
    }

    /// What an entry of a job costs.
    pub fn quote(&mut self, job: &[u8], entry: u64, tariff: &Tariff) -> Result<Quote, NoQuote> {
        let mut slip = [0; SLIP_LENGTH];
        let code = self.slip(job, WORKSPACE, entry, &tariff.bytes(), &mut slip);
        let total = u64::try_from(code).map_err(|_| NoQuote::from_code(code))?;
        let subtotals = subtotals(&slip);
        Ok(Quote { total, subtotals })
    }

    /// What an entry of a job is made of, by its quote at a penny for each piece.
    pub fn made(&mut self, job: &[u8], entry: u64) -> Result<Made, NoQuote> {
        let quote = self.quote(job, entry, &Tariff::counting())?;
        let polygons = quote.subtotals;
        let joints = quote.total - polygons.iter().sum::<u64>();
        Ok(Made { polygons, joints })
    }
}
