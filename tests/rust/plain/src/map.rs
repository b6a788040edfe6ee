//! The map: "one bit per cell, set when used".

use crate::state::CELLS;

const WORDS: usize = CELLS as usize / 64;

/// Bit `c % 64` of word `c / 64` stands for cell c.
#[derive(Clone, Copy, Debug, PartialEq, Eq)]
pub struct Map(pub [u64; WORDS]);

/// The word a run starts in, and its bits in that word and in the next one.
/// A run has at most eight cells, so it meets at most two words.
fn bits(cell: u32, cells: u32) -> (usize, u64, u64) {
    let ones = ((1u128 << cells) - 1) << (cell % 64);
    ((cell / 64) as usize, ones as u64, (ones >> 64) as u64)
}

impl Map {
    pub const EMPTY: Map = Map([0; WORDS]);

    /// Marks a run within the arena as used.
    pub fn take(&mut self, cell: u32, cells: u32) {
        let (word, low, high) = bits(cell, cells);
        self.0[word] |= low;
        if high != 0 {
            self.0[word + 1] |= high;
        }
    }

    /// Marks a run within the arena as free.
    pub fn free(&mut self, cell: u32, cells: u32) {
        let (word, low, high) = bits(cell, cells);
        self.0[word] &= !low;
        if high != 0 {
            self.0[word + 1] &= !high;
        }
    }

    /// Says whether a cell of a run within the arena is used.
    pub fn meets(&self, cell: u32, cells: u32) -> bool {
        let (word, low, high) = bits(cell, cells);
        self.0[word] & low != 0 || high != 0 && self.0[word + 1] & high != 0
    }

    /// "Fill is the number of used cells, by counting the map's ones."
    pub fn used(&self) -> u32 {
        self.0.iter().map(|word| word.count_ones()).sum()
    }

    /// "the lowest run of free cells long enough": its first cell.
    ///
    /// A word's free bits, followed by the next word's, are and-ed with
    /// themselves shifted until a bit stays only where a long enough run starts.
    pub fn lowest_free_run(&self, cells: u32) -> Option<u32> {
        for (i, &word) in self.0.iter().enumerate() {
            if word == u64::MAX {
                continue;
            }
            // Past the last cell nothing is free.
            let next = self.0.get(i + 1).map_or(0, |&next| !next);
            let mut starts = u128::from(!word) | u128::from(next) << 64;
            let mut length = 1;
            while length < cells {
                let shift = length.min(cells - length);
                starts &= starts >> shift;
                length += shift;
            }
            let starts = starts as u64;
            if starts != 0 {
                return Some(64 * i as u32 + starts.trailing_zeros());
            }
        }
        None
    }
}

#[cfg(test)]
mod tests {
    use super::Map;

    /// The search one cell at a time, to compare with.
    fn slow(map: &Map, cells: u32) -> Option<u32> {
        (0..=1024 - cells).find(|&start| !map.meets(start, cells))
    }

    #[test]
    fn runs_are_found_across_words_and_up_to_the_last_cell() {
        for cells in 1..=8 {
            for start in 0..=1024 - cells {
                let mut map = Map([u64::MAX; 16]);
                assert_eq!(map.lowest_free_run(cells), None);
                map.free(start, cells);
                assert_eq!(map.used(), 1024 - cells);
                assert_eq!(map.lowest_free_run(cells), Some(start));
                assert_eq!(map.lowest_free_run(cells + 1), None);
                map.take(start, cells);
                assert_eq!(map, Map([u64::MAX; 16]));
            }
        }
    }

    #[test]
    fn the_lowest_run_is_that_of_a_search_cell_by_cell() {
        let mut random = crate::generate::Random::new(1);
        for _ in 0..2_000 {
            let mut map = Map::EMPTY;
            for word in &mut map.0 {
                // Nearly full words, so that long runs are rare.
                *word = random.next() | random.next() | random.next();
            }
            for cells in [1, 2, 4, 8] {
                assert_eq!(map.lowest_free_run(cells), slow(&map, cells));
            }
        }
    }

    #[test]
    fn a_run_meets_only_its_own_cells() {
        let mut map = Map::EMPTY;
        map.take(62, 4);
        let used: Vec<u32> = (0..1024).filter(|&cell| map.meets(cell, 1)).collect();
        assert_eq!(used, [62, 63, 64, 65]);
        assert!(map.meets(58, 8) && !map.meets(54, 8) && map.meets(65, 1) && !map.meets(66, 8));
    }
}
