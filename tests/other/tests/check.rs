//! Netlists checked against their graphs: the sentences of request N14, and cases by
//! chance against a second way.

use other::{check_checks, checks};

fn passes(check: checks::Check) {
    match check {
        Ok(counts) => println!("{counts}"),
        Err(wrong) => panic!("{wrong}"),
    }
}

#[test]
fn by_hand() {
    passes(check_checks::by_hand());
}

#[test]
fn limits() {
    passes(check_checks::limits());
}

#[test]
fn cases() {
    passes(check_checks::cases(3_000, 1));
}

#[test]
fn printed() {
    passes(check_checks::printed(1_500, 1));
}

#[test]
fn damage() {
    passes(check_checks::damage());
}
