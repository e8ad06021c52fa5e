//! The program for every day: maps graphs, checks and counts netlists. What it prints is the proved call's netlist, and what it says of a netlist
//! the proved call's verdict.

use arraymap_cli::{program, verbs};
use std::{env, process::ExitCode};

fn main() -> ExitCode {
    program::run("arraymap", || verbs::run(env::args_os().skip(1)))
}
