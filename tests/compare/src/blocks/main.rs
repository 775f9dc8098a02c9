//! Compares the proved block kernel, by its C interface, with the independent program of tests/second.

mod any_numbers;
mod both;
mod free;
mod kernel;
mod kinds;
mod memories;
mod proved;
mod round;
#[cfg(test)]
mod stand_ins;
mod tally;
mod tells;

use compare::rounds::{self, Rounds};

fn main() {
    rounds::main(&Rounds {
        calls: round::CALLS,
        round: |seed, flip, tally| round::round(&proved::KERNEL, seed, flip, tally),
    })
}
