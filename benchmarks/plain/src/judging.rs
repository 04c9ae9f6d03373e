//! A whole judgement: a run of MLT-1, then the chart.

use crate::array::Array;
use crate::march::{self, Test};

pub struct Judgement {
    pub operations: u64,
    pub misses: u32,
    pub charting: u64,
    pub blemished: u32,
}

/// The columns on which a compare of equal bits hits, every other column blocked.
fn hits_by_column(array: &mut Array, bit: bool) -> u64 {
    let pattern = array.equal_bits(bit);
    let ones = array.equal_bits(true);
    (0..array.width())
        .filter(|column| array.compare(pattern, ones & !(1 << column)))
        .fold(0, |hits, column| hits | 1 << column)
}

/// The bytes of one word.
fn chart_word(array: &mut Array, word: usize, row: &mut [u8]) {
    let ones = array.equal_bits(true);
    array.write(word, ones, 0);
    array.write(word, 0, 0);
    let zeros_read = array.read(word);
    let seen = array.compare(0, ones);
    let zero0 = hits_by_column(array, false);
    let zero1 = hits_by_column(array, true);
    array.write(word, ones, 0);
    let ones_read = array.read(word);
    let one1 = hits_by_column(array, true);
    let one0 = hits_by_column(array, false);
    array.erase(word);
    for (column, byte) in row.iter_mut().enumerate() {
        let is = |bits: u64| bits >> column & 1 == 1;
        let (zero, one) = (!is(zeros_read), is(ones_read));
        *byte = u8::from(seen && zero && !is(zero0))
            | u8::from(zero && is(zero1)) << 1
            | u8::from(seen && one && !is(one1)) << 2
            | u8::from(one && is(one0)) << 3
            | u8::from(!one) << 4
            | u8::from(!zero) << 5
            | u8::from(!seen) << 6;
    }
}

fn draw(array: &mut Array, chart: &mut [u8]) -> u32 {
    for word in 0..array.words() {
        array.erase(word);
    }
    let mut blemished = 0;
    for (word, row) in chart.chunks_exact_mut(array.width() as usize).take(array.words()).enumerate() {
        chart_word(array, word, row);
        blemished += row.iter().filter(|&&byte| byte > 0).count() as u32;
    }
    blemished
}

pub fn judge(test: &Test, array: &mut Array, chart: &mut [u8]) -> Judgement {
    let before = array.tally();
    let misses = march::run(test, array);
    let between = array.tally();
    let blemished = draw(array, chart);
    Judgement {
        operations: between - before,
        misses,
        charting: array.tally() - between,
        blemished,
    }
}
