// The samples that a fit holds, each as short as it is: its numbers, and of its list the entries that are used.
use std::collections::TryReserveError;

/// A sample as chess_samples_feed writes it.
pub const SAMPLE: usize = 300;
/// counts, mobility, sign, piece count
pub const NUMBERS: usize = 26;
const USED: usize = 4 * NUMBERS;
const HALF_POINTS: usize = USED + 1;
const LIST: usize = HALF_POINTS + 1;
const ENTRIES: usize = 192;

/// A block's room in words of four bytes: one mebibyte, so that nothing that is held has to move when more comes.
const BLOCK: usize = 1 << 18;

/// A sample as the doors take it.
pub struct Sample<'a> {
    pub numbers: &'a [i32; NUMBERS],
    pub used: u8,
    pub half_points: u8,
    pub list: &'a [u8; ENTRIES],
}

#[derive(Default)]
pub struct Held {
    blocks: Vec<Vec<i32>>,
    count: u64,
}

/// How many words the bytes take that follow a sample's numbers.
fn words_after(used: usize) -> usize {
    (LIST - USED + 3 * used).div_ceil(4)
}

impl Held {
    pub fn count(&self) -> u64 {
        self.count
    }

    /// A sample more, in the order of the lines. What follows the used entries is zeros, as the header says, and is not kept.
    pub fn push(&mut self, sample: &[u8; SAMPLE]) -> Result<(), TryReserveError> {
        let used = sample[USED] as usize;
        assert!(used <= ENTRIES / 3 && sample[LIST + 3 * used..].iter().all(|&byte| byte == 0), "a sample is not what its door promises");
        let words = NUMBERS + words_after(used);
        if self.blocks.last().map_or(true, |block| block.capacity() - block.len() < words) {
            let mut block = Vec::new();
            block.try_reserve_exact(BLOCK)?;
            self.blocks.try_reserve(1)?;
            self.blocks.push(block);
        }
        let block = self.blocks.last_mut().expect("a block was put there");
        let word = |bytes: &[u8]| [bytes[0], bytes[1], bytes[2], bytes[3]];
        block.extend(sample[..USED].chunks_exact(4).map(|bytes| i32::from_le_bytes(word(bytes))));
        block.extend(sample[USED..].chunks_exact(4).take(words_after(used)).map(|bytes| i32::from_ne_bytes(word(bytes))));
        self.count += 1;
        Ok(())
    }

    /// Every sample, in the order of the lines.
    pub fn each(&self, mut visit: impl FnMut(Sample)) {
        let (mut list, mut before) = ([0u8; ENTRIES], 0);
        for block in &self.blocks {
            let mut rest = block.as_slice();
            while let Some((numbers, after)) = rest.split_first_chunk::<NUMBERS>() {
                // SAFETY: every word is four bytes, and bytes have no alignment.
                let bytes = unsafe { std::slice::from_raw_parts(after.as_ptr().cast::<u8>(), 4 * after.len()) };
                let entries = 3 * bytes[0] as usize;
                list[..entries].copy_from_slice(&bytes[2..2 + entries]);
                if entries < before {
                    list[entries..before].fill(0);
                }
                before = entries;
                visit(Sample { numbers, used: bytes[0], half_points: bytes[1], list: &list });
                rest = &after[words_after(bytes[0] as usize)..];
            }
        }
    }
}

#[cfg(test)]
mod tests {
    use super::*;

    fn sample(place: usize) -> [u8; SAMPLE] {
        let mut sample = [0; SAMPLE];
        let used = place * 7 % 65;
        for (at, byte) in sample[..USED].iter_mut().enumerate() {
            *byte = (at * 31 + place) as u8;
        }
        (sample[USED], sample[HALF_POINTS]) = (used as u8, (place % 3) as u8);
        for at in 0..3 * used {
            sample[LIST + at] = (at + place) as u8 | 1;
        }
        sample
    }

    #[test]
    fn every_sample_comes_back_whole_and_in_order() {
        let mut held = Held::default();
        for place in 0..20_000 {
            held.push(&sample(place)).unwrap();
        }
        let mut place = 0;
        held.each(|one| {
            let mut bytes: Vec<u8> = one.numbers.iter().flat_map(|number| number.to_le_bytes()).collect();
            bytes.extend([one.used, one.half_points]);
            bytes.extend(one.list);
            bytes.extend([0, 0]);
            assert!(bytes == sample(place), "sample {place}");
            place += 1;
        });
        assert_eq!((place, held.count()), (20_000, 20_000));
        assert!(held.blocks.len() > 1);
    }
}
