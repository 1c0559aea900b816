//! Answer bytes: every number a u32, little-endian. Writing, reading, and naming
//! the place of a word in words.

use std::collections::HashSet;
use std::fmt;

/// A figure: per rank its elements, per element the numbers it holds.
#[derive(Clone, Debug, Default, PartialEq, Eq, Hash)]
pub struct Figure {
    /// Rank 0 first; the last has one element that names all facets.
    pub ranks: Vec<Vec<Vec<u32>>>,
}

/// A facet: an orbit and the number of a possible facet of that orbit.
pub type Pair = (u32, u32);

/// An entry's lists and its figure.
#[derive(Clone, Debug, PartialEq, Eq)]
pub struct Entry {
    /// Its facets, compound ones split into their parts.
    pub list: Vec<Pair>,
    /// Its facets before splitting: the choice that it belongs to.
    pub before: Vec<Pair>,
    /// What they build.
    pub figure: Figure,
}

impl Entry {
    /// The facets that were split, each with its parts. A choice has no two facets of
    /// one orbit, so the parts are the items of the split list with the facet's orbit.
    pub fn compound_facets(&self) -> Vec<(Pair, Vec<Pair>)> {
        let parts = |&whole: &Pair| {
            let own = self.list.iter().filter(|part| part.0 == whole.0);
            (whole, own.copied().collect::<Vec<Pair>>())
        };
        let split = |(whole, parts): &(Pair, Vec<Pair>)| parts[..] != [*whole];
        self.before.iter().map(parts).filter(split).collect()
    }
}

/// Everything that an answer says.
#[derive(Clone, Debug, PartialEq, Eq)]
pub struct Answer {
    /// Lists examined, over all calls.
    pub examined: u32,
    /// Per orbit the number of its hyperplanes.
    pub counts: Vec<u32>,
    /// The listed figures, ascending by their lists.
    pub entries: Vec<Entry>,
    /// Per orbit its possible facets.
    pub facets: Vec<Vec<Figure>>,
    /// Compound entry, first component, second component.
    pub compounds: Vec<[u32; 3]>,
    /// Per entry the points that are an end of an edge, the edges and the facets.
    pub summaries: Vec<[u32; 3]>,
}

impl Figure {
    /// Points that are an end of at least one edge, elements in rank 2 and in the second last
    /// rank.
    pub fn summary(&self) -> [u32; 3] {
        let elements = |rank: usize| self.ranks.get(rank).map_or(&[][..], Vec::as_slice);
        let mut used = vec![false; elements(1).len()];
        for &end in elements(2).iter().flatten() {
            if let Some(point) = used.get_mut(end as usize) {
                *point = true;
            }
        }
        let points = used.iter().filter(|&&point| point).count();
        let facets = elements(self.ranks.len().wrapping_sub(2)).len();
        [points, elements(2).len(), facets].map(|many| many as u32)
    }

    fn write(&self, words: &mut Vec<u32>) {
        words.push(self.ranks.len() as u32);
        for rank in &self.ranks {
            words.push(rank.len() as u32);
            for subs in rank {
                words.push(subs.len() as u32);
                words.extend(subs);
            }
        }
    }
}

impl Answer {
    /// The answer as its bytes have it, word by word.
    pub fn words(&self) -> Vec<u32> {
        let mut words = vec![self.examined, self.counts.len() as u32];
        words.extend(&self.counts);
        words.push(self.entries.len() as u32);
        for entry in &self.entries {
            for list in [&entry.list, &entry.before] {
                words.push(list.len() as u32);
                words.extend(list.iter().flat_map(|&(a, b)| [a, b]));
            }
            entry.figure.write(&mut words);
        }
        for orbit in &self.facets {
            words.push(orbit.len() as u32);
            orbit.iter().for_each(|figure| figure.write(&mut words));
        }
        words.push(self.compounds.len() as u32);
        words.extend(self.compounds.iter().chain(&self.summaries).flatten());
        words
    }

    /// The answer's bytes.
    pub fn bytes(&self) -> Vec<u8> {
        self.words()
            .into_iter()
            .flat_map(u32::to_le_bytes)
            .collect()
    }

    /// The answer that begins the bytes, and how many of them it takes.
    pub fn read(bytes: &[u8]) -> Result<(Answer, usize), Damage> {
        let mut reader = Reader::new(bytes, None);
        let answer = reader.answer()?;
        Ok((answer, 4 * reader.at))
    }

    /// Whether two entries have the same list.
    pub fn has_equal_entries(&self) -> bool {
        self.entries
            .windows(2)
            .any(|pair| pair[0].list == pair[1].list)
    }

    /// Whether two different lists hold the same facets.
    pub fn has_reordered_entries(&self) -> bool {
        let sorted = |entry: &Entry| {
            let mut list = entry.list.clone();
            list.sort_unstable();
            list
        };
        let lists: HashSet<_> = self.entries.iter().map(|entry| &entry.list).collect();
        let sets: HashSet<_> = self.entries.iter().map(sorted).collect();
        sets.len() < lists.len()
    }
}

/// Why bytes are no answer.
#[derive(Clone, Debug, PartialEq, Eq)]
pub enum Damage {
    /// The words end before the one that is named.
    Ends(String),
    /// A count asks for more words than follow it.
    Count {
        /// The place of the count.
        word: usize,
        /// What it counts.
        place: String,
        /// The count.
        count: usize,
        /// The words that follow.
        left: usize,
    },
}

impl fmt::Display for Damage {
    fn fmt(&self, f: &mut fmt::Formatter<'_>) -> fmt::Result {
        match self {
            Damage::Ends(place) => write!(f, "the words end before the {place}"),
            Damage::Count {
                word,
                place,
                count,
                left,
            } => write!(
                f,
                "word {word}, the {place}, is {count}, but only {left} words follow"
            ),
        }
    }
}

impl std::error::Error for Damage {}

/// What the word at that index is, in words, as far as the bytes tell.
pub fn place_of_word(bytes: &[u8], index: usize) -> String {
    let mut reader = Reader::new(bytes, Some(index));
    let ended = reader.answer();
    match (reader.found, ended) {
        (Some(place), _) => place,
        (None, Ok(_)) => "behind the answer".into(),
        (None, Err(reason)) => format!("behind what can be read ({reason})"),
    }
}

/// Walks an answer word by word. The name of a place is worked out only for the
/// sought word, or when the words end there.
struct Reader<'a> {
    bytes: &'a [u8],
    at: usize,
    sought: Option<usize>,
    found: Option<String>,
}

impl<'a> Reader<'a> {
    fn new(bytes: &'a [u8], sought: Option<usize>) -> Self {
        Self {
            bytes,
            at: 0,
            sought,
            found: None,
        }
    }

    fn word(&mut self, place: impl Fn() -> String) -> Result<u32, Damage> {
        let chunk = self
            .bytes
            .get(4 * self.at..)
            .and_then(|rest| rest.first_chunk());
        let word = chunk.ok_or_else(|| Damage::Ends(place()))?;
        if self.sought == Some(self.at) {
            self.found = Some(place());
        }
        self.at += 1;
        Ok(u32::from_le_bytes(*word))
    }

    /// A count of things that take at least a word each: it cannot pass what is
    /// left, so damaged bytes never ask for much memory.
    fn count(&mut self, place: impl Fn() -> String) -> Result<usize, Damage> {
        let at = self.at;
        let count = self.word(&place)? as usize;
        let left = self.bytes.len() / 4 - self.at;
        if count > left {
            return Err(Damage::Count {
                word: at,
                place: place(),
                count,
                left,
            });
        }
        Ok(count)
    }

    fn answer(&mut self) -> Result<Answer, Damage> {
        let examined = self.word(|| "number of examined lists".into())?;
        let orbits = self.count(|| "number of orbits".into())?;
        let counts = many(orbits, |o| self.word(|| format!("count of orbit {o}")))?;
        let entry_count = self.count(|| "number of entries".into())?;
        let entries = many(entry_count, |e| self.entry(e))?;
        let facets = many(orbits, |o| self.orbit(o))?;
        let size = self.count(|| "size of the compound map".into())?;
        let compounds = many(size, |k| self.compound(k))?;
        let summaries = many(entry_count, |e| self.summary(e))?;
        Ok(Answer {
            examined,
            counts,
            entries,
            facets,
            compounds,
            summaries,
        })
    }

    fn entry(&mut self, e: usize) -> Result<Entry, Damage> {
        let list = self.list(|| format!("list of entry {e}"))?;
        let before = self.list(|| format!("list before splitting of entry {e}"))?;
        let figure = self.figure(|| format!("the figure of entry {e}"))?;
        Ok(Entry {
            list,
            before,
            figure,
        })
    }

    fn list(&mut self, which: impl Fn() -> String) -> Result<Vec<Pair>, Damage> {
        let length = self.count(|| format!("length of the {}", which()))?;
        many(length, |i| {
            let orbit = self.word(|| format!("orbit of item {i} in the {}", which()))?;
            let facet = self.word(|| format!("facet of item {i} in the {}", which()))?;
            Ok((orbit, facet))
        })
    }

    fn orbit(&mut self, o: usize) -> Result<Vec<Figure>, Damage> {
        let number = self.count(|| format!("number of possible facets of orbit {o}"))?;
        many(number, |f| {
            self.figure(|| format!("the figure of possible facet {f} of orbit {o}"))
        })
    }

    fn figure(&mut self, whose: impl Fn() -> String) -> Result<Figure, Damage> {
        let ranks = self.count(|| format!("number of ranks in {}", whose()))?;
        let ranks = many(ranks, |r| {
            let elements =
                self.count(|| format!("number of elements in rank {r} of {}", whose()))?;
            many(elements, |e| {
                let element = || format!("element {e} in rank {r} of {}", whose());
                let subs = self.count(|| format!("number of subs of {}", element()))?;
                many(subs, |s| self.word(|| format!("sub {s} of {}", element())))
            })
        })?;
        Ok(Figure { ranks })
    }

    fn compound(&mut self, k: usize) -> Result<[u32; 3], Damage> {
        let part = |what: &'static str| move || format!("{what} of compound {k}");
        Ok([
            self.word(part("entry"))?,
            self.word(part("first component"))?,
            self.word(part("second component"))?,
        ])
    }

    fn summary(&mut self, e: usize) -> Result<[u32; 3], Damage> {
        let part = |what: &'static str| move || format!("{what} in the summary of entry {e}");
        Ok([
            self.word(part("points"))?,
            self.word(part("edges"))?,
            self.word(part("facets"))?,
        ])
    }
}

fn many<T>(count: usize, one: impl FnMut(usize) -> Result<T, Damage>) -> Result<Vec<T>, Damage> {
    (0..count).map(one).collect()
}

#[cfg(test)]
mod tests {
    use super::*;

    #[test]
    fn compound_facets_have_the_parts_of_their_orbit() {
        let entry = |list: &[Pair], before: &[Pair]| Entry {
            list: list.to_vec(),
            before: before.to_vec(),
            figure: Figure::default(),
        };
        let split = entry(&[(0, 0), (2, 4), (2, 1), (1, 3)], &[(0, 0), (2, 7), (1, 3)]);
        assert_eq!(split.compound_facets(), [((2, 7), vec![(2, 4), (2, 1)])]);
        let same = entry(&[(0, 0), (2, 4)], &[(0, 0), (2, 4)]);
        assert_eq!(same.compound_facets(), []);
    }
}
