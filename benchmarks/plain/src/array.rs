//! A plane array: a record a word, in which bit j of each number belongs to column j.

const TALLY_CAP: u64 = 2_000_000_000_000;

#[derive(Clone, Copy)]
pub enum Storage {
    Sa0,
    Sa1,
    NoRise,
    NoFall,
}

/// A held bit beside the bit that it is compared with.
#[derive(Clone, Copy)]
pub struct Pair {
    pub held: bool,
    pub comparand: bool,
}

/// The defect was planted before.
pub struct Repeated;

#[derive(Clone, Copy, Default)]
pub struct Word {
    pub held: u64,
    pub mark: bool,
    pub stuck: bool,
    pub sa0: u64,
    pub sa1: u64,
    pub norise: u64,
    pub nofall: u64,
    pub wrong00: u64,
    pub wrong01: u64,
    pub wrong11: u64,
    pub wrong10: u64,
}

impl Word {
    fn write(&mut self, pattern: u64, mask: u64) {
        let risen = pattern & (self.held | !self.norise);
        let next = (risen | (self.held & self.nofall) | self.sa1) & !self.sa0;
        self.held = (self.held & mask) | (next & !mask);
        self.mark = !self.stuck;
    }

    /// Whether the word is marked and matches in each column of `asked`.
    fn matches(&self, pattern: u64, asked: u64) -> bool {
        self.mark && (self.held ^ pattern ^ self.reversed(pattern)) & asked == 0
    }

    /// The columns whose answer is reversed.
    fn reversed(&self, pattern: u64) -> u64 {
        (!self.held & ((!pattern & self.wrong00) | (pattern & self.wrong01)))
            | (self.held & ((pattern & self.wrong11) | (!pattern & self.wrong10)))
    }
}

/// An array over the caller's records.
pub struct Array<'a> {
    words: &'a mut [Word],
    width: u32,
    ones: u64,
    tally: u64,
}

impl<'a> Array<'a> {
    /// A new array over the first `words` records, without defects.
    pub fn new(records: &'a mut [Word], words: usize, width: u32) -> Array<'a> {
        let words = &mut records[..words];
        words.fill(Word::default());
        Array {
            words,
            width,
            ones: u64::MAX >> (64 - width),
            tally: 0,
        }
    }

    pub fn words(&self) -> usize {
        self.words.len()
    }

    pub fn width(&self) -> u32 {
        self.width
    }

    pub fn tally(&self) -> u64 {
        self.tally
    }

    /// As many equal bits as a word has.
    pub fn equal_bits(&self, bit: bool) -> u64 {
        if bit {
            self.ones
        } else {
            0
        }
    }

    fn count(&mut self) {
        self.tally = (self.tally + 1).min(TALLY_CAP);
    }

    pub fn write(&mut self, word: usize, pattern: u64, mask: u64) {
        if let Some(word) = self.words.get_mut(word) {
            word.write(pattern, mask);
        }
        self.count();
    }

    pub fn read(&mut self, word: usize) -> u64 {
        self.count();
        self.words.get(word).map_or(0, |word| word.held & self.ones)
    }

    pub fn compare(&mut self, pattern: u64, mask: u64) -> bool {
        self.count();
        let asked = self.ones & !mask;
        self.words.iter().any(|word| word.matches(pattern, asked))
    }

    pub fn erase(&mut self, word: usize) {
        if let Some(word) = self.words.get_mut(word) {
            word.mark = false;
        }
        self.count();
    }

    pub fn plant_storage(&mut self, word: usize, column: u32, storage: Storage) -> Result<(), Repeated> {
        let word = &mut self.words[word];
        let single = 1 << column;
        if (word.sa0 | word.sa1 | word.norise | word.nofall) & single != 0 {
            return Err(Repeated);
        }
        match storage {
            Storage::Sa0 => {
                word.sa0 |= single;
                word.held &= !single;
            }
            Storage::Sa1 => {
                word.sa1 |= single;
                word.held |= single;
            }
            Storage::NoRise => word.norise |= single,
            Storage::NoFall => word.nofall |= single,
        }
        Ok(())
    }

    pub fn plant_pair(&mut self, word: usize, column: u32, pair: Pair) -> Result<(), Repeated> {
        let word = &mut self.words[word];
        let single = 1 << column;
        let plane = match (pair.held, pair.comparand) {
            (false, false) => &mut word.wrong00,
            (false, true) => &mut word.wrong01,
            (true, true) => &mut word.wrong11,
            (true, false) => &mut word.wrong10,
        };
        if *plane & single != 0 {
            return Err(Repeated);
        }
        *plane |= single;
        Ok(())
    }

    pub fn plant_stuck_mark(&mut self, word: usize) -> Result<(), Repeated> {
        let word = &mut self.words[word];
        if word.stuck {
            return Err(Repeated);
        }
        word.stuck = true;
        word.mark = false;
        Ok(())
    }
}
