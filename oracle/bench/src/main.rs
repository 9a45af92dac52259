//! Microseconds of the processor per call: the proved library and the crate's real source on the same inputs, in one
//! process, side by side in each row. Prints the tables of docs/PERFORMANCE.md.
mod asked;
mod clock;
mod inputs;
mod question_tables;
mod questions;
mod refusals;
mod rows;
mod screens;
mod sides;
mod stack;
mod tables;
mod worst;

use inputs::Shape;
use rows::{Row, batches, host_focus, refused, starts};

/// Rounds of a row. The median and the least of them are printed.
pub const ROUNDS: usize = 201;
/// Calls of a round.
pub const CALLS: usize = 64;

/// The states: four children a node, and a chain.
const SHAPES: [Shape; 5] = [
    Shape { nodes: 16, fan: 4 },
    Shape { nodes: 48, fan: 4 },
    Shape { nodes: 128, fan: 4 },
    Shape { nodes: 256, fan: 4 },
    Shape { nodes: 256, fan: 1 },
];

fn main() {
    clock::keep_memory();
    let words: Vec<String> = std::env::args().skip(1).collect();
    match words.iter().map(String::as_str).collect::<Vec<_>>()[..] {
        [] => calls(),
        ["questions"] => {
            question_tables::print(None);
            question_tables::print_last();
        }
        ["questions", "last"] => question_tables::print_last(),
        ["questions", part @ ("48" | "256" | "worst")] => question_tables::print(Some(part)),
        ["stack"] => stack::print(),
        _ => panic!("`questions` (with `48`, `256`, `worst` or `last`), `stack`, or nothing for the calls"),
    }
}

/// The tables of the calls.
fn calls() {
    let mut rows: Vec<Row> = [16, 64].into_iter().flat_map(|nodes| starts(Shape { nodes, fan: 4 })).collect();
    rows.extend(SHAPES.into_iter().flat_map(batches));
    rows.extend(SHAPES.into_iter().map(host_focus));
    tables::calls(&rows);
    tables::growth(&rows);
    tables::refusals(&refused());
    tables::worst(&worst::worst());
    println!("\nStack of a call: {} bytes.", cartgravel::STACK);
}
