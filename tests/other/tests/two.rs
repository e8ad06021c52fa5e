//! Two channels against the sentences of request N8, and pairs of texts against the
//! loose reader and the mapper of one graph.

use other::{checks, two_checks};

fn passes(check: checks::Check) {
    match check {
        Ok(counts) => println!("{counts}"),
        Err(wrong) => panic!("{wrong}"),
    }
}

#[test]
fn sum_of_both_needs() {
    passes(two_checks::sum_of_both_needs());
}

#[test]
fn early_in_either() {
    passes(two_checks::early_in_either());
}

#[test]
fn library_of_both() {
    passes(two_checks::library_of_both());
}

#[test]
fn late_in_one() {
    passes(two_checks::late_in_one());
}

#[test]
fn a_text_memory_each() {
    passes(two_checks::a_text_memory_each());
}

#[test]
fn own_arrivals() {
    passes(two_checks::own_arrivals());
}

#[test]
fn pairs() {
    passes(two_checks::pairs(2_000, 1));
}
