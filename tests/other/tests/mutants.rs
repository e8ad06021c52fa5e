//! Every mutant of the reference is caught by a check of `tests/document.rs`,
//! `tests/genlib.rs`, `tests/two.rs`, `tests/tally.rs`,
//! `tests/pairs.rs`, `tests/shuffled.rs` or `tests/check.rs`.
//! `MUTANTS=28,29` in the environment tries these alone, `CHECKS=limits,ranges` by these checks.

use other::{check_checks, checks, genlib_checks, mutants, pairs_checks, shuffled_checks, tally_checks, two_checks};
use std::panic::catch_unwind;

type Checks = [(&'static str, fn() -> checks::Check); 11];

const CHECKS: Checks = [
    ("marked_cases", checks::marked),
    ("limits", checks::limits),
    ("faults", || checks::faults(8_000, 1)),
    ("damage", checks::damage),
    ("twins", || checks::twins(1_500, 1)),
    ("line_ends", || checks::line_ends(1_500, 1)),
    ("arrivals", || checks::arrivals(1_000, 1)),
    ("ranges", || checks::ranges(500, 20, 1)),
    ("netlists", || checks::netlists(1_500, 1)),
    ("every_small_graph", checks::every_small_graph),
    ("all_covers", || checks::all_covers(1_500, 1)),
];

const GENLIB: [(&str, fn() -> checks::Check); 4] = [
    ("edges", genlib_checks::edges),
    ("good", || genlib_checks::good(1_500, 1)),
    ("faults", || genlib_checks::faults(5_000, 1)),
    ("damage", || genlib_checks::damage(5_000, 1)),
];

const TWO: [(&str, fn() -> checks::Check); 7] = [
    ("sum_of_both_needs", two_checks::sum_of_both_needs),
    ("early_in_either", two_checks::early_in_either),
    ("library_of_both", two_checks::library_of_both),
    ("late_in_one", two_checks::late_in_one),
    ("a_text_memory_each", two_checks::a_text_memory_each),
    ("own_arrivals", two_checks::own_arrivals),
    ("pairs", || two_checks::pairs(600, 1)),
];

const TALLY: [(&str, fn() -> checks::Check); 7] = [
    ("as_listed", tally_checks::as_listed),
    ("sixty_four", tally_checks::sixty_four),
    ("figures", tally_checks::figures),
    ("in_order", tally_checks::in_order),
    ("sums", || tally_checks::sums(100, 1)),
    ("netlists", || tally_checks::netlists(1_500, 1)),
    ("damage", tally_checks::damage),
];

const PAIRS: [(&str, fn() -> checks::Check); 8] = [
    ("by_hand", pairs_checks::by_hand),
    ("printed", pairs_checks::printed),
    ("limits", pairs_checks::limits),
    ("ranges", pairs_checks::ranges),
    ("two_channels", pairs_checks::two_channels),
    ("netlists", || pairs_checks::netlists(500, 1)),
    ("all_covers", || pairs_checks::all_covers(100, 1)),
    ("small_graphs", pairs_checks::small_graphs),
];

const SHUFFLED: [(&str, fn() -> checks::Check); 2] =
    [("by_hand", shuffled_checks::by_hand), ("agree", || shuffled_checks::agree(900, 1))];

const CHECK: [(&str, fn() -> checks::Check); 5] = [
    ("by_hand", check_checks::by_hand),
    ("limits", check_checks::limits),
    ("cases", || check_checks::cases(800, 1)),
    ("printed", || check_checks::printed(300, 1)),
    ("damage", check_checks::damage),
];

#[test]
fn every_mutant_is_caught() {
    caught(&mutants::LIST, &CHECKS);
}

#[test]
fn every_mutant_of_genlib_is_caught() {
    caught(&mutants::GENLIB, &GENLIB);
}

#[test]
fn every_mutant_of_two_is_caught() {
    caught(&mutants::TWO, &TWO);
}

#[test]
fn every_mutant_of_tally_is_caught() {
    caught(&mutants::TALLY, &TALLY);
}

#[test]
fn every_mutant_of_pairs_is_caught() {
    caught(&mutants::PAIRS, &PAIRS);
}

#[test]
fn every_mutant_of_shuffled_is_caught() {
    caught(&mutants::SHUFFLED, &SHUFFLED);
}

#[test]
fn every_mutant_of_check_is_caught() {
    caught(&mutants::CHECK, &CHECK);
}

/// Prints a row for each mutant.
fn caught(list: &[(u32, &str)], checks: &[(&str, fn() -> checks::Check)]) {
    std::panic::set_hook(Box::new(|_| {}));
    let left_out =
        |name: &str, word: &str| std::env::var(name).is_ok_and(|list| !list.split(',').any(|one| one == word));
    let is_wanted = |number: u32| !left_out("MUTANTS", &number.to_string());
    let mut missed = Vec::new();
    println!("| mutant | what is wrong | caught by |\n|---|---|---|");
    let all = [(0, "nothing")].into_iter().chain(list.iter().copied());
    for (number, what) in all.filter(|&(number, _)| is_wanted(number)) {
        mutants::switch(number);
        let caught: Vec<&str> = checks
            .iter()
            .filter(|(name, check)| !left_out("CHECKS", name) && !matches!(catch_unwind(check), Ok(Ok(_))))
            .map(|(name, _)| *name)
            .collect();
        println!("| {number} | {what} | {} |", caught.join(", "));
        if caught.is_empty() == (number != 0) {
            missed.push(number);
        }
    }
    let _ = std::panic::take_hook();
    assert!(missed.is_empty(), "not as it should be: {missed:?}");
}
