//! What the programs `arraymap` and `cells2genlib` are made of. The answer is the call's; what stands here reads the same texts again, for messages,
//! figures and pictures, and decides nothing.

pub mod any;
pub mod args;
pub mod arrivals;
pub mod cells;
pub mod dot;
mod drafts;
pub mod edited;
pub mod files;
pub mod foundry;
pub mod genlib;
pub mod graph;
pub mod json;
pub mod liberty;
pub mod library;
pub mod lines;
mod memory;
pub mod message;
pub mod named;
pub mod netlist;
pub mod output;
mod processes;
pub mod program;
pub mod sheet;
pub mod summary;
mod sys;
pub mod verbs;
pub mod verify;
pub mod version;
pub mod yosys;

/// Prints a message to standard error. Where that is closed too, there is nobody left to tell.
pub fn say(message: &str) {
    use std::io::Write;
    let _ = std::io::stderr().write_all(message.as_bytes());
}
