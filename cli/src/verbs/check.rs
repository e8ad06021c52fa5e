//! `arraymap check`: a netlist compared with its graph.

use super::{named, reading, source, Input, Verb};
use crate::{
    args::{flag, Given},
    json::Object,
    message::differing,
    program::{print, Failure},
};
use arraymap::Checked;
use std::ffi::OsStr;

pub const VERB: Verb = Verb {
    name: "check",
    usage: "usage: arraymap check [--json] NETLIST CELLS GRAPH\n",
    known: &[flag("--json")],
    run,
};

fn run(given: &Given) -> Result<u8, Failure> {
    let files = named(&VERB, &given.files, &["NETLIST", "CELLS", "GRAPH"])?;
    let [(_, netlist), (_, cells), (_, graph)] = files[..] else {
        return Err(VERB.usage("three files are due: NETLIST CELLS GRAPH"));
    };
    compare(netlist, cells, graph, given)
}

/// Compares the netlist with the graph in every setting of its inputs.
pub fn compare(netlist: &OsStr, cells: &OsStr, graph: &OsStr, given: &Given) -> Result<u8, Failure> {
    let json = given.has("--json");
    let mut input = Input::new(source(cells)?, &reading(&VERB, given)?);
    input.graph = source(graph)?;
    input.netlist = source(netlist)?;
    let checked = match input.read {
        Ok(()) => arraymap::check(input.cells.text(), &input.graph.text, &input.netlist.text),
        Err(refusal) => Err(refusal),
    };
    match checked.map_err(|refusal| input.fail(refusal, json))? {
        Checked::Accepted if json => print(&Object::of("accepted").text("file", Some(&input.netlist.name)).line()),
        Checked::Accepted => print("accepted\n"),
        Checked::Differs { setting, output } => {
            let told = differing(setting, output, &input.graph, &input.netlist);
            if json {
                let object = Object::of("differs").number("setting", setting as u64).number("output", output as u64);
                print(&told.fields(object, &input.texts()).line())?;
            }
            Err(Failure::Refused(told.message("differs")))
        }
    }?;
    Ok(0)
}
