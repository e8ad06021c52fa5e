//! Shuffled libraries against the sentences of request N13.

use other::{checks, shuffled_checks};

fn passes(check: checks::Check) {
    match check {
        Ok(counts) => println!("{counts}"),
        Err(wrong) => panic!("{wrong}"),
    }
}

#[test]
fn by_hand() {
    passes(shuffled_checks::by_hand());
}

#[test]
fn agree() {
    passes(shuffled_checks::agree(1_000, 1));
}
