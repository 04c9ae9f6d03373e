//! Reading the text of an array.

use crate::array::{Array, Pair, Storage, Word};

#[derive(Debug)]
#[allow(dead_code)]
pub struct Fault {
    number: u8,
    layer: u8,
    place: usize,
}

fn fault<T>(number: u8, layer: u8, place: usize) -> Result<T, Fault> {
    Err(Fault { number, layer, place })
}

#[derive(Clone, Copy, PartialEq)]
enum Token<'a> {
    Open,
    Close,
    LineFeed,
    Word(&'a [u8]),
    End,
}

struct Reader<'a> {
    text: &'a [u8],
    at: usize,
}

impl<'a> Reader<'a> {
    /// The next token and its place.
    fn next(&mut self) -> Result<(Token<'a>, usize), Fault> {
        while self.text.get(self.at) == Some(&b' ') {
            self.at += 1;
        }
        let from = self.at;
        let Some(byte) = self.text.get(from) else {
            return Ok((Token::End, from));
        };
        self.at += 1;
        let token = match byte {
            b'(' => Token::Open,
            b')' => Token::Close,
            b'\n' => Token::LineFeed,
            b'a'..=b'z' | b'0'..=b'9' => {
                while let Some(b'a'..=b'z' | b'0'..=b'9') = self.text.get(self.at) {
                    self.at += 1;
                }
                if self.at - from > 16 {
                    return fault(13, 1, from);
                }
                Token::Word(&self.text[from..self.at])
            }
            _ => return fault(12, 1, from),
        };
        Ok((token, from))
    }

    fn want(&mut self, wanted: Token) -> Result<(), Fault> {
        let (token, place) = self.next()?;
        if token == wanted {
            Ok(())
        } else {
            fault(21, 2, place)
        }
    }

    fn word(&mut self) -> Result<(&'a [u8], usize), Fault> {
        match self.next()? {
            (Token::Word(word), place) => Ok((word, place)),
            (_, place) => fault(21, 2, place),
        }
    }

    fn bit(&mut self) -> Result<bool, Fault> {
        match self.word()? {
            (b"0", _) => Ok(false),
            (b"1", _) => Ok(true),
            (_, place) => fault(21, 2, place),
        }
    }

    /// A number of 1 to 4 digits within limits, outside of which it is refused with `number`.
    fn number(&mut self, limits: std::ops::Range<u32>, number: u8) -> Result<u32, Fault> {
        let (word, place) = self.word()?;
        if word.len() > 4 || !word.iter().all(u8::is_ascii_digit) {
            return fault(21, 2, place);
        }
        let value = word.iter().fold(0, |value, digit| value * 10 + u32::from(digit - b'0'));
        if limits.contains(&value) {
            Ok(value)
        } else {
            fault(number, 3, place)
        }
    }

    /// What follows the word `note` of a remark of this depth.
    fn remark(&mut self, depth: u32) -> Result<(), Fault> {
        loop {
            match self.next()? {
                (Token::Close, _) => return Ok(()),
                (Token::Word(_), _) => {}
                (Token::Open, place) if depth == 8 => return fault(22, 2, place),
                (Token::Open, _) => {
                    self.want(Token::Word(b"note"))?;
                    self.remark(depth + 1)?;
                }
                (_, place) => return fault(21, 2, place),
            }
        }
    }

    /// A line from after its bracket, which stands at `bracket`.
    fn line(&mut self, array: &mut Array, bracket: usize) -> Result<(), Fault> {
        enum Defect {
            None,
            Storage(usize, u32, Storage),
            Wrong(usize, u32, Pair),
            Mark(usize),
        }
        let words = array.words() as u32;
        let defect = match self.word()? {
            (b"note", _) => {
                self.remark(1)?;
                Defect::None
            }
            (b"mark", _) => Defect::Mark(self.number(0..words, 42)? as usize),
            (b"cell", _) => {
                let word = self.number(0..words, 42)? as usize;
                let column = self.number(0..array.width(), 42)?;
                match self.word()? {
                    (b"sa0", _) => Defect::Storage(word, column, Storage::Sa0),
                    (b"sa1", _) => Defect::Storage(word, column, Storage::Sa1),
                    (b"norise", _) => Defect::Storage(word, column, Storage::NoRise),
                    (b"nofall", _) => Defect::Storage(word, column, Storage::NoFall),
                    (b"wrong", _) => {
                        let (held, comparand) = (self.bit()?, self.bit()?);
                        Defect::Wrong(word, column, Pair { held, comparand })
                    }
                    (_, place) => return fault(21, 2, place),
                }
            }
            (_, place) => return fault(21, 2, place),
        };
        if !matches!(defect, Defect::None) {
            self.want(Token::Close)?;
        }
        self.want(Token::LineFeed)?;
        let planted = match defect {
            Defect::None => Ok(()),
            Defect::Storage(word, column, storage) => array.plant_storage(word, column, storage),
            Defect::Wrong(word, column, pair) => array.plant_pair(word, column, pair),
            Defect::Mark(word) => array.plant_stuck_mark(word),
        };
        planted.or_else(|_| fault(43, 3, bracket))
    }
}

/// Reads a text into an array over the records.
pub fn read_array<'a>(text: &[u8], records: &'a mut [Word]) -> Result<Array<'a>, Fault> {
    if text.len() > 4096 {
        return fault(11, 1, 4096);
    }
    let mut reader = Reader { text, at: 0 };
    reader.want(Token::Open)?;
    reader.want(Token::Word(b"array"))?;
    let words = reader.number(1..257, 41)?;
    let width = reader.number(1..65, 41)?;
    reader.want(Token::LineFeed)?;
    let mut array = Array::new(records, words as usize, width);
    loop {
        match reader.next()? {
            (Token::Close, _) => break,
            (Token::Open, bracket) => reader.line(&mut array, bracket)?,
            (_, place) => return fault(21, 2, place),
        }
    }
    reader.want(Token::LineFeed)?;
    reader.want(Token::End)?;
    Ok(array)
}
