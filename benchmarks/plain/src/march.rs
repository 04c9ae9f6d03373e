//! Tests as tables of elements, and doing them.

use crate::array::Array;
use std::ops::ControlFlow;

#[derive(Clone, Copy)]
pub enum Operation {
    Write(bool),
    Read(bool),
    Compare { bit: bool, hit: bool },
    #[allow(dead_code)]
    Erase,
}

#[derive(Clone, Copy)]
pub enum Order {
    Up,
    Down,
    Columns,
}

pub struct Element {
    order: Order,
    operations: Vec<Operation>,
}

pub type Test = Vec<Element>;

pub fn mlt1() -> Test {
    use Operation::{Compare, Read, Write};
    let element = |order, operations: &[Operation]| Element {
        order,
        operations: operations.to_vec(),
    };
    let compare = |bit, hit| Compare { bit, hit };
    vec![
        element(Order::Up, &[Write(true)]),
        element(Order::Up, &[Write(false), compare(false, true), Write(true)]),
        element(Order::Up, &[Read(true), Write(false)]),
        element(Order::Columns, &[compare(true, false)]),
        element(Order::Down, &[Write(true), compare(true, true), Write(false)]),
        element(Order::Down, &[Read(false), Write(true)]),
        element(Order::Columns, &[compare(false, false)]),
    ]
}

/// Does an operation at a word, and says whether it missed.
fn misses(array: &mut Array, operation: Operation, word: usize, mask: u64) -> bool {
    match operation {
        Operation::Write(bit) => {
            array.write(word, array.equal_bits(bit), mask);
            false
        }
        Operation::Read(bit) => array.read(word) != array.equal_bits(bit),
        Operation::Compare { bit, hit } => array.compare(array.equal_bits(bit), mask) != hit,
        Operation::Erase => {
            array.erase(word);
            false
        }
    }
}

/// Does a test, and calls `missed` at each miss until it says to stop.
fn perform(
    test: &Test,
    array: &mut Array,
    mut missed: impl FnMut() -> ControlFlow<()>,
) -> ControlFlow<()> {
    let (words, width) = (array.words(), array.width());
    for Element { order, operations } in test {
        let visits = match order {
            Order::Up | Order::Down => words,
            Order::Columns => width as usize,
        };
        for visit in 0..visits {
            let (word, mask) = match order {
                Order::Up => (visit, 0),
                Order::Down => (words - 1 - visit, 0),
                Order::Columns => (0, array.equal_bits(true) & !(1 << visit)),
            };
            for &operation in operations {
                if misses(array, operation, word, mask) {
                    missed()?;
                }
            }
        }
    }
    ControlFlow::Continue(())
}

/// How many answers of a whole run were not the expected ones.
pub fn run(test: &Test, array: &mut Array) -> u32 {
    let mut count = 0;
    let _ = perform(test, array, || {
        count += 1;
        ControlFlow::Continue(())
    });
    count
}

/// Does a test up to its first miss, and says whether there was one.
pub fn detects(test: &Test, array: &mut Array) -> bool {
    perform(test, array, || ControlFlow::Break(())).is_break()
}
