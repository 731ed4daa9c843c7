//! What became of each code in reads that raise and in reads that do not (M-108).

use std::ops::RangeInclusive;

/// Watched below the accents: both sides of each end of ASCII's small letters, and
/// 160, which is no printing mark, with 161, which is one.
pub const WATCHED_LOW: [u8; 6] = [b'a' - 1, b'a', b'z', b'z' + 1, 160, 161];
/// The accents, capital and small, with the code before them and that behind.
pub const WATCHED_HIGH: RangeInclusive<u8> = 191..=255;

const CODE_COUNT: usize = 256;
const READS: [&str; 2] = ["plain read", "raising read"];
const TAKEN: [&str; 2] = ["data", "terminator"];

#[derive(Clone, Debug, PartialEq, Eq)]
pub struct Raising {
    /// By whether the read raises, whether the key ended it, and the code typed.
    taken: [[[u64; CODE_COUNT]; TAKEN.len()]; READS.len()],
}

impl Default for Raising {
    fn default() -> Self {
        Raising { taken: [[[0; CODE_COUNT]; TAKEN.len()]; READS.len()] }
    }
}

impl Raising {
    pub fn taken(&mut self, raises: bool, ends: bool, typed: u8) {
        self.taken[usize::from(raises)][usize::from(ends)][usize::from(typed)] += 1;
    }

    pub fn add(&mut self, other: &Raising) {
        let mine = self.taken.as_flattened_mut().as_flattened_mut();
        let more = other.taken.as_flattened().as_flattened();
        mine.iter_mut().zip(more).for_each(|(mine, more)| *mine += more);
    }

    /// Each watched code with its counts.
    pub fn table(&self) -> Vec<(String, u64)> {
        let mut table = Vec::new();
        for (read, taken) in READS.iter().zip(&self.taken) {
            for (became, counts) in TAKEN.iter().zip(taken) {
                let row =
                    |code| (format!("{code} in a {read}: {became}"), counts[usize::from(code)]);
                table.extend(WATCHED_LOW.into_iter().chain(WATCHED_HIGH).map(row));
            }
        }
        table
    }
}

#[cfg(test)]
mod tests {
    use super::*;

    #[test]
    fn only_watched_codes_have_rows() {
        let mut raising = Raising::default();
        raising.taken(true, false, 233);
        raising.taken(false, true, 255);
        raising.taken(true, true, b'm');
        let mut twice = raising.clone();
        twice.add(&raising);
        let met: Vec<(String, u64)> = twice.table().into_iter().filter(|row| row.1 > 0).collect();
        let expected = ["255 in a plain read: terminator", "233 in a raising read: data"];
        assert_eq!(met, expected.map(|name| (name.into(), 2)));
    }
}
