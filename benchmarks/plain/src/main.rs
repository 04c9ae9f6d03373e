//! The works of the speed comparison as a plain program. Usage: plain [WORK REPEATS]. It does the work that often and
//! prints a checksum of all results; without arguments it does each work once.

mod array;
mod campaign;
mod judging;
mod march;
mod text;

use array::{Array, Pair, Repeated, Storage, Word};
use std::hint::black_box;

/// Takes a value into a checksum.
fn fold(sum: u64, value: u64) -> u64 {
    (sum ^ value).wrapping_mul(0x100_0000_01b3)
}

const START: u64 = 0xcbf2_9ce4_8422_2325;

/// A handful of defects, one of each sort.
fn plant_some(array: &mut Array) -> Result<(), Repeated> {
    array.plant_pair(0, 0, Pair { held: false, comparand: true })?;
    array.plant_storage(17, 5, Storage::Sa0)?;
    array.plant_storage(100, 63, Storage::Sa1)?;
    array.plant_storage(128, 31, Storage::NoRise)?;
    array.plant_storage(200, 10, Storage::NoFall)?;
    array.plant_pair(255, 63, Pair { held: true, comparand: false })?;
    array.plant_stuck_mark(77)
}

/// Judges an array of 256 words of 64 bits. The compiler is not to know the size.
fn judgements(repeats: u32) -> u64 {
    let (words, width) = black_box((256, 64));
    let test = march::mlt1();
    let mut records = vec![Word::default(); 256];
    let mut chart = vec![0; 256 * 64];
    let mut sum = START;
    for _ in 0..repeats {
        let mut array = Array::new(&mut records, words, width);
        if plant_some(&mut array).is_err() {
            return 0;
        }
        let judgement = judging::judge(&test, &mut array, &mut chart);
        sum = fold(sum, judgement.operations);
        sum = fold(sum, judgement.misses.into());
        sum = fold(sum, judgement.charting);
        sum = fold(sum, judgement.blemished.into());
        sum = chart.iter().fold(sum, |sum, &byte| fold(sum, byte.into()));
    }
    sum
}

/// A campaign of MLT-1 on arrays of 16 words of 16 bits.
fn campaigns(repeats: u32) -> u64 {
    let (words, width) = black_box((16, 16));
    let test = march::mlt1();
    let mut records = vec![Word::default(); 16];
    let mut sum = START;
    for _ in 0..repeats {
        for row in campaign::campaign(black_box(&test), words, width, &mut records) {
            sum = fold(sum, row.detected.into());
            sum = fold(sum, row.total.into());
            sum = fold(sum, row.tenths.into());
        }
    }
    sum
}

const SAID: [&str; 8] = [
    "sa0", "sa1", "norise", "nofall", "wrong 0 0", "wrong 0 1", "wrong 1 1", "wrong 1 0",
];

/// The largest text: 4,096 bytes with as many lines as fit, one for each word from 0 on, and then spaces.
fn largest_text() -> Vec<u8> {
    let mut text = b"(array 256 64\n".to_vec();
    for number in 0..256 {
        let line = format!("(cell {} {} {})\n", number, number * 7 % 64, SAID[number % 8]);
        if text.len() + line.len() + 2 > 4096 {
            break;
        }
        text.extend_from_slice(line.as_bytes());
    }
    text.extend_from_slice(b")\n");
    text.resize(4096, b' ');
    text
}

fn fold_word(sum: u64, word: &Word) -> u64 {
    let planes = [
        word.held,
        word.stuck.into(),
        word.sa0,
        word.sa1,
        word.norise,
        word.nofall,
        word.wrong00,
        word.wrong01,
        word.wrong11,
        word.wrong10,
    ];
    planes.into_iter().fold(sum, fold)
}

/// Reads the largest text. Each reading takes one record into the checksum, the last one all of them.
fn readings(repeats: u32) -> u64 {
    let text = largest_text();
    let mut records = vec![Word::default(); 256];
    let mut sum = START;
    for number in 0..repeats as usize {
        if text::read_array(black_box(&text), &mut records).is_err() {
            return 0;
        }
        sum = fold_word(sum, &records[number % 256]);
    }
    records.iter().fold(sum, fold_word)
}

fn main() {
    let arguments: Vec<String> = std::env::args().skip(1).collect();
    let works: [(&str, fn(u32) -> u64); 3] =
        [("judgement", judgements), ("campaign", campaigns), ("reading", readings)];
    for (name, work) in works {
        match arguments.as_slice() {
            [] => println!("{name} {}", work(1)),
            [wanted, repeats] if wanted == name => match repeats.parse() {
                Ok(repeats) => println!("{name} {}", work(repeats)),
                Err(_) => eprintln!("no number: {repeats}"),
            },
            _ => {}
        }
    }
}
