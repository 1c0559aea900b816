//! A slice of any length with marked bytes on both sides, so that a write past
//! its ends is seen. The memory is kept from one use to the next, as it was left.
//! Or a piece of memory for each use that has nothing beside the slice, so that a
//! memory checker sees what is read there too.

/// Bytes marked on each side of the slice.
const FENCE: usize = 64;

/// The slice begins up to so many bytes further on, so that it is aligned to
/// nothing in particular.
const SHIFTS: usize = 8;

/// Memory to lend a slice of, with marks around it.
pub struct Fence {
    memory: Vec<u8>,
    start: usize,
    length: usize,
    bare: bool,
}

/// A byte of the fence: no two neighbours are the same.
fn mark(place: usize) -> u8 {
    0xc0 | (place % 61) as u8
}

impl Default for Fence {
    fn default() -> Self {
        Self {
            memory: vec![0; 2 * FENCE + SHIFTS],
            start: FENCE,
            length: 0,
            bare: false,
        }
    }
}

impl Fence {
    /// Without fences, and anew for each use.
    pub fn bare() -> Self {
        Self {
            bare: true,
            ..Self::default()
        }
    }

    /// A slice of that length with fresh fences. What it holds is what earlier uses
    /// left there; memory that was never used holds zeros.
    pub fn take(&mut self, length: usize, shift: usize) -> &mut [u8] {
        self.length = length;
        if self.bare {
            self.start = 0;
            self.memory = vec![0; length];
            return self.slice();
        }
        self.start = FENCE + shift % SHIFTS;
        let needed = self.start + length + FENCE;
        if self.memory.len() < needed {
            self.memory.resize(needed, 0);
        }
        for place in self.fences() {
            self.memory[place] = mark(place);
        }
        self.slice()
    }

    /// The slice that was taken last.
    pub fn slice(&mut self) -> &mut [u8] {
        &mut self.memory[self.start..self.start + self.length]
    }

    /// Everything behind the fences too, so that longer slices find it.
    pub fn fill(&mut self, byte: u8) {
        self.memory.fill(byte);
    }

    /// Whether nothing was written around the latest slice.
    pub fn intact(&self) -> bool {
        self.fences().all(|place| self.memory[place] == mark(place))
    }

    fn fences(&self) -> impl Iterator<Item = usize> {
        let width = if self.bare { 0 } else { FENCE };
        let end = self.start + self.length;
        (self.start - width..self.start).chain(end..end + width)
    }
}

#[cfg(test)]
mod tests {
    use super::*;

    #[test]
    fn a_write_beside_the_slice_is_seen() {
        for shift in 0..SHIFTS {
            let mut fence = Fence::default();
            fence.take(10, shift).fill(7);
            assert!(fence.intact());
            for place in fence.fences().collect::<Vec<_>>() {
                fence.take(10, shift);
                fence.memory[place] ^= 1;
                assert!(!fence.intact(), "{place}");
            }
        }
    }

    #[test]
    fn memory_stays_as_it_was_left() {
        let mut fence = Fence::default();
        fence.take(300, 0).fill(7);
        assert_eq!(fence.take(100, 0), [7; 100]);
        fence.fill(9);
        assert_eq!(fence.take(300, 3), [9; 300]);
        assert_eq!(fence.take(0, 1), []);
        assert!(fence.intact());
    }
}
