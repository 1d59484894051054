// A collection, read once: every byte goes to the proved doors and into the SHA-256, and what they say of the lines is kept.
use crate::chess_scores::doors::{chess_samples_feed, chess_samples_finish};
use crate::chess_scores::Code;
use crate::held::{Held, SAMPLE};
use crate::sha256::Sha256;
use std::ffi::OsStr;
use std::fs::File;
use std::io::{self, Read};

/// What a collection is: how many lines, loaded and refused, and the sum of its bytes.
#[derive(Clone, Debug, Default, PartialEq, Eq)]
pub struct Counted {
    pub lines: u64,
    pub loaded: u64,
    pub refused: u64,
    pub sha256: String,
}

/// A row of the ledger, `line refused number`.
#[derive(Clone, Copy, Debug, PartialEq, Eq)]
pub struct Refused {
    pub line: u64,
    pub number: u8,
}

pub struct Collection {
    pub counted: Counted,
    pub refused: Vec<Refused>,
    pub held: Held,
}

/// The doors' memory of what was read so far, and room for what they write.
struct Feeder {
    state: [u64; 4],
    line: [u8; 256],
    samples: Vec<u8>,
    rows: Vec<u8>,
}

/// Bytes that are read at a time.
const PIECE: usize = 1 << 14;
/// What the rows take at most: for each LF of a piece, and at the end.
const ROW: usize = 32;
const LAST_ROWS: usize = 116;

/// `-` is standard input. With `keep` the samples are held; without it the collection is only counted.
pub fn read(name: &OsStr, keep: bool) -> Result<Collection, String> {
    let said = |error: io::Error| format!("{}: {}", name.to_string_lossy(), crate::reason(&error));
    let mut input: Box<dyn Read> = if name == "-" { Box::new(io::stdin().lock()) } else { Box::new(File::open(name).map_err(said)?) };
    let mut feeder = Feeder { state: [0; 4], line: [0; 256], samples: Vec::new(), rows: Vec::new() };
    let mut all = Collection { counted: Counted::default(), refused: Vec::new(), held: Held::default() };
    let (mut sum, mut piece) = (Sha256::new(), vec![0; PIECE]);
    loop {
        let count = match input.read(&mut piece) {
            Err(error) if error.kind() == io::ErrorKind::Interrupted => continue,
            count => count.map_err(said)?,
        };
        sum.add(&piece[..count]);
        if count == 0 {
            feeder.finish()?;
        } else {
            feeder.feed(&piece[..count])?;
        }
        all.take(&feeder, keep)?;
        if count == 0 {
            break;
        }
    }
    all.counted.sha256 = sum.sum();
    if keep && all.held.count() != all.counted.loaded {
        return Err(format!("{} samples of {} loaded lines: the doors disagree", all.held.count(), all.counted.loaded));
    }
    Ok(all)
}

impl Feeder {
    fn room(&mut self, lines: usize, rows: usize) {
        self.samples.resize(lines * SAMPLE, 0);
        self.rows.resize(rows, 0);
    }

    fn wrote(&mut self, code: Code, samples: usize, rows: usize) -> Result<(), String> {
        if code.number != 0 {
            return Err(format!("the doors took no more: number {}", code.number));
        }
        self.samples.truncate(samples);
        self.rows.truncate(rows);
        Ok(())
    }

    fn feed(&mut self, piece: &[u8]) -> Result<(), String> {
        let ends = piece.iter().filter(|&&byte| byte == b'\n').count();
        self.room(ends, ends * ROW);
        let (mut sampled, mut wrote) = (0, 0);
        // SAFETY: the pointers are those of arrays and slices that live through the call, with their lengths, and none overlap.
        let code = unsafe {
            chess_samples_feed(self.state.as_mut_ptr(), self.line.as_mut_ptr(), 256, piece.as_ptr(), piece.len(), self.samples.as_mut_ptr(), self.samples.len(),
                self.rows.as_mut_ptr(), self.rows.len(), &mut sampled, &mut wrote)
        };
        self.wrote(code, sampled, wrote)
    }

    fn finish(&mut self) -> Result<(), String> {
        self.room(1, LAST_ROWS);
        let (mut sampled, mut wrote) = (0, 0);
        // SAFETY: as in `feed`.
        let code = unsafe {
            chess_samples_finish(self.state.as_ptr(), self.line.as_ptr(), 256, self.samples.as_mut_ptr(), self.samples.len(), self.rows.as_mut_ptr(),
                self.rows.len(), &mut sampled, &mut wrote)
        };
        self.wrote(code, sampled, wrote)
    }
}

impl Collection {
    fn take(&mut self, feeder: &Feeder, keep: bool) -> Result<(), String> {
        for sample in feeder.samples.chunks_exact(SAMPLE).filter(|_| keep) {
            let sample = sample.try_into().expect("a chunk has the length of a sample");
            self.held.push(sample).map_err(|_| format!("no memory for more than {} positions", self.held.count()))?;
        }
        for row in feeder.rows.split(|&byte| byte == b'\n').filter(|row| !row.is_empty()) {
            self.row(&String::from_utf8_lossy(row))?;
        }
        Ok(())
    }

    fn row(&mut self, row: &str) -> Result<(), String> {
        let number = |word: &str| word.parse::<u64>().map_err(|_| format!("a row that no ledger has: {row}"));
        match row.split(' ').collect::<Vec<_>>()[..] {
            [line, "refused", refusal] => self.refused.push(Refused { line: number(line)?, number: number(refusal)? as u8 }),
            ["lines", lines, "loaded", loaded, "refused", refused] => {
                (self.counted.lines, self.counted.loaded, self.counted.refused) = (number(lines)?, number(loaded)?, number(refused)?)
            }
            _ => return Err(format!("a row that no ledger has: {row}")),
        }
        Ok(())
    }
}
