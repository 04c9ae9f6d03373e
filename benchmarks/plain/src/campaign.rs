//! A campaign: a test is done with one fault at each place in turn in a new array.

use crate::array::{Array, Pair, Repeated, Storage, Word};
use crate::march::{self, Test};

pub struct Row {
    pub detected: u32,
    pub total: u32,
    pub tenths: u32,
}

enum Fault {
    /// The pairs 00, 01, 11 and 10 that a cell answers wrongly.
    Comparison([bool; 4]),
    Storage(Storage),
    StuckMark,
}

const PAIRS: [Pair; 4] = [
    Pair { held: false, comparand: false },
    Pair { held: false, comparand: true },
    Pair { held: true, comparand: true },
    Pair { held: true, comparand: false },
];

const FAULTS: [Fault; 15] = [
    Fault::Comparison([false, true, false, true]),
    Fault::Comparison([true, false, true, false]),
    Fault::Comparison([true, true, false, false]),
    Fault::Comparison([false, false, true, true]),
    Fault::Comparison([true, false, false, true]),
    Fault::Comparison([false, true, true, false]),
    Fault::Comparison([false, false, true, false]),
    Fault::Comparison([true, false, false, false]),
    Fault::Comparison([false, false, false, true]),
    Fault::Comparison([false, true, false, false]),
    Fault::Storage(Storage::Sa0),
    Fault::Storage(Storage::Sa1),
    Fault::Storage(Storage::NoRise),
    Fault::Storage(Storage::NoFall),
    Fault::StuckMark,
];

impl Fault {
    fn places_in_word(&self, width: u32) -> u32 {
        match self {
            Fault::StuckMark => 1,
            _ => width,
        }
    }

    fn plant(&self, array: &mut Array, word: usize, column: u32) -> Result<(), Repeated> {
        match self {
            Fault::Comparison(wrong) => {
                for (pair, _) in PAIRS.iter().zip(wrong).filter(|(_, wanted)| **wanted) {
                    array.plant_pair(word, column, *pair)?;
                }
                Ok(())
            }
            Fault::Storage(storage) => array.plant_storage(word, column, *storage),
            Fault::StuckMark => array.plant_stuck_mark(word),
        }
    }
}

fn is_detected(test: &Test, records: &mut [Word], size: (usize, u32), fault: &Fault, place: (usize, u32)) -> bool {
    let mut array = Array::new(records, size.0, size.1);
    fault.plant(&mut array, place.0, place.1).is_ok() && march::detects(test, &mut array)
}

pub fn campaign(test: &Test, words: usize, width: u32, records: &mut [Word]) -> [Row; 15] {
    FAULTS.each_ref().map(|fault| {
        let places = fault.places_in_word(width);
        let mut detected = 0;
        for word in 0..words {
            for column in 0..places {
                detected += u32::from(is_detected(test, records, (words, width), fault, (word, column)));
            }
        }
        let total = words as u32 * places;
        Row {
            detected,
            total,
            tenths: detected * 1000 / total,
        }
    })
}
