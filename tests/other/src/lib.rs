//! The test side of the mapper: another mapper, a reader of its netlists, a
//! brute force over covers, generators, and the boundary to the mapper under
//! test. Everything here is written from the documents alone.

// Where no mutants are built in, `plain_or!` leaves expressions that could be shorter.
#![cfg_attr(
    not(feature = "mutants"),
    allow(
        clippy::assign_op_pattern,
        clippy::identity_op,
        clippy::map_identity,
        clippy::nonminimal_bool,
        clippy::redundant_locals
    )
)]

/// The plain expression; with the feature `mutants`, the other one while that
/// mutant is switched on.
#[cfg(not(feature = "mutants"))]
macro_rules! plain_or {
    ($mutant:literal, $plain:expr, $other:expr) => {
        $plain
    };
}

#[cfg(feature = "mutants")]
macro_rules! plain_or {
    ($mutant:literal, $plain:expr, $other:expr) => {
        if crate::mutants::is_on($mutant) {
            $other
        } else {
            $plain
        }
    };
}

/// Refusal 16: "An AND, used or not, has more than 18 cuts", the limit of N4.
pub const CUT_LIMIT: usize = 18;

/// Refusal 10: "fewer than 124(M+1) + O 16-bit words": 16 for each variable, and
/// 6 for each of its cuts.
pub const WORDS_EACH: usize = 16 + 6 * CUT_LIMIT;

/// One more than the highest number of a refusal of mapping.
pub const NUMBERS: usize = 31;

pub mod blif;
pub mod brute;
pub mod check;
pub mod check_checks;
pub mod check_gen;
pub mod checks;
#[cfg(feature = "boundary")]
pub mod fuzz;
pub mod gaps;
pub mod gen;
pub mod genlib;
pub mod genlib_checks;
pub mod genlib_gen;
pub mod judge;
pub mod memory;
#[cfg(feature = "mutants")]
pub mod mutants;
#[cfg(feature = "boundary")]
pub mod ours;
pub mod pages;
pub mod pairs;
pub mod pairs_checks;
pub mod reference;
pub mod shuffled;
pub mod shuffled_checks;
#[cfg(feature = "ours")]
pub mod stack;
pub mod tally;
pub mod tally_checks;
pub mod tally_gen;
pub mod two;
pub mod two_checks;
pub mod two_gen;
