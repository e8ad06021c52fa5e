//! Counting and reporting against the sentences of request N11, and netlists against a
//! second reader.

use other::{checks, tally_checks};

fn passes(check: checks::Check) {
    match check {
        Ok(counts) => println!("{counts}"),
        Err(wrong) => panic!("{wrong}"),
    }
}

#[test]
fn as_listed() {
    passes(tally_checks::as_listed());
}

#[test]
fn sixty_four() {
    passes(tally_checks::sixty_four());
}

#[test]
fn figures() {
    passes(tally_checks::figures());
}

#[test]
fn in_order() {
    passes(tally_checks::in_order());
}

#[test]
fn sums() {
    passes(tally_checks::sums(400, 1));
}

#[test]
fn netlists() {
    passes(tally_checks::netlists(8_000, 1));
}

#[test]
fn damage() {
    passes(tally_checks::damage());
}
