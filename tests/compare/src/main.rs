//! Compares the proved kernel, by its C interface, with the independent program of tests/second.

mod both;
mod context_ways;
mod flags;
mod memories;
mod outs;
mod pair_ways;
mod paired;
mod pairs;
mod proved;
mod records;
mod round;
mod scripts;
#[cfg(test)]
mod stand_ins;
mod tally;
mod ways;

use compare::rounds::{self, Rounds};

fn main() {
    rounds::main(&Rounds { calls: round::CALLS, round: round::round })
}
