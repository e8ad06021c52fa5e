//! `arraymap tally`: the gates of each cell, counted over netlists.

use super::{named, reading, source, spare, Input, Verb};
use crate::{
    args::{flag, with, Given},
    files::{write_all, Output},
    json::Object,
    program::{print, Failure},
    say,
};
use arraymap::Tally;

pub const VERB: Verb = Verb {
    name: "tally",
    usage: "usage: arraymap tally [-o REPORT] [--json] CELLS NETLIST..\n",
    known: &[with("-o", "file"), flag("--json")],
    run,
};

/// Reports the netlists that are not refused. One that is adds nothing, is told, and makes the status 1.
fn run(given: &Given) -> Result<u8, Failure> {
    let (json, to) = (given.has("--json"), given.output("-o"));
    let files = named(&VERB, &given.files, &["CELLS", "NETLIST"])?;
    let [(_, cells), netlists @ ..] = &files[..] else {
        return Err(VERB.usage("two files or more are due: CELLS NETLIST.."));
    };
    if netlists.is_empty() {
        return Err(VERB.usage("two files or more are due: CELLS NETLIST.."));
    }
    if json && given.has("-o") {
        return Err(VERB.usage("--json goes without -o: the report is its objects"));
    }
    spare(&VERB, to.as_slice(), &files)?;
    let mut input = Input::new(source(cells)?, &reading(&VERB, given)?);
    let (mut tally, mut status, mut refusals) = (Tally::default(), 0, String::new());
    input.read.map_err(|refusal| input.fail(refusal, json))?;
    // The library's own refusals are its own, and not a netlist's.
    let empty = tally.report(input.cells.text());
    empty.map_err(|refusal| input.fail(refusal, json))?;
    for (_, netlist) in netlists {
        input.netlist = source(netlist)?;
        if let Err(refusal) = tally.count(input.cells.text(), &input.netlist.text) {
            let (object, message) = input.refused(refusal);
            say(&message);
            refusals += &object.line();
            status = 1;
        }
    }
    let report = tally.report(input.cells.text()).map_err(|refusal| input.fail(refusal, json))?;
    let report = String::from_utf8_lossy(&report);
    if json {
        refusals.extend(objects(&report).into_iter().map(Object::line));
        print(&refusals)?;
    } else {
        write_all(&[Output { path: to, text: &report }]).map_err(Failure::File)?;
    }
    Ok(status)
}

/// The report's lines as objects: the cells, and the total, which is the last line, for a cell may have its name.
fn objects(report: &str) -> Vec<Object> {
    let lines: Vec<&str> = report.lines().collect();
    let (total, cells) = lines.split_last().unwrap_or((&"", &[]));
    let counted = cells.iter().filter_map(|line| {
        let (cell, numbers) = line.split_once(' ')?;
        Some(with_numbers(Object::of("counted").text("cell", Some(cell)), numbers))
    });
    let total = total.split_once(' ').map(|(_, numbers)| with_numbers(Object::of("total"), numbers));
    counted.chain(total).collect()
}

/// Gates, their area and netlists.
fn with_numbers(object: Object, numbers: &str) -> Object {
    let fields = ["gates", "area", "netlists"].into_iter().zip(numbers.split(' '));
    fields.fold(object, |object, (name, number)| object.number(name, number.parse().ok()))
}
