//! `arraymap cells`: the cell text of a genlib library.

use super::{named, reading, source, spare, Input, Verb};
use crate::{
    args::{with, Given},
    files::{write_all, Output},
    program::Failure,
};

pub const VERB: Verb =
    Verb { name: "cells", usage: "usage: arraymap cells [-o CELLS] LIBRARY\n", known: &[with("-o", "file")], run };

fn run(given: &Given) -> Result<u8, Failure> {
    let files = named(&VERB, &given.files, &["LIBRARY"])?;
    let [(_, genlib)] = files[..] else { return Err(VERB.usage("one file is due: LIBRARY")) };
    let to = given.output("-o");
    spare(&VERB, to.as_slice(), &files)?;
    let input = Input::new(source(genlib)?, &reading(&VERB, given)?);
    // What does not begin as genlib does is refused by the call too.
    let judged = match input.read {
        Ok(()) if input.cells.is_written() => Ok(()),
        Ok(()) => arraymap::cells(&input.cells.file.text).map(drop),
        refused => refused,
    };
    judged.map_err(|refusal| input.fail(refusal, false))?;
    let text = String::from_utf8_lossy(input.cells.text());
    write_all(&[Output { path: to, text: &text }]).map_err(Failure::File)?;
    Ok(0)
}
