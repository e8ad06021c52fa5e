//! Pairs of cells against the sentences of request N12, the brute force over covers with
//! pairs, and the same libraries without.

use other::{checks, pairs_checks};

fn passes(check: checks::Check) {
    match check {
        Ok(counts) => println!("{counts}"),
        Err(wrong) => panic!("{wrong}"),
    }
}

#[test]
fn by_hand() {
    passes(pairs_checks::by_hand());
}

#[test]
fn printed() {
    passes(pairs_checks::printed());
}

#[test]
fn limits() {
    passes(pairs_checks::limits());
}

#[test]
fn ranges() {
    passes(pairs_checks::ranges());
}

#[test]
fn two_channels() {
    passes(pairs_checks::two_channels());
}

#[test]
fn netlists() {
    passes(pairs_checks::netlists(2_500, 1));
}

#[test]
fn all_covers() {
    passes(pairs_checks::all_covers(1_500, 1));
}

#[test]
fn small_graphs() {
    passes(pairs_checks::small_graphs());
}

/// Runs where GRAPHS_DIR names a folder of graphs.
#[test]
fn real_graphs() {
    match std::env::var_os("GRAPHS_DIR") {
        Some(folder) => passes(pairs_checks::real_graphs(folder.as_ref())),
        None => println!("no GRAPHS_DIR"),
    }
}
