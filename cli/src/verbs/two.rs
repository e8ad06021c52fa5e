//! `arraymap two`: two graphs in one call, or each by itself where one call does not take them.

use super::{
    map::{object, wants_whole},
    mapping::{is_early, Mapping, Request, Unmapped},
    named, reading, source, spare, Input, Verb,
};
use crate::{
    args::{flag, with_each, Given},
    files::{same, write_all, Output, Source},
    message::Texts,
    named::turned,
    program::Failure,
    say,
};
use arraymap::{Channel, Refusal};
use std::ffi::OsStr;

pub const VERB: Verb = Verb {
    name: "two",
    usage:
        "usage: arraymap two [-p] [-o NETLIST -o NETLIST] [--json] [--whole] CELLS GRAPH GRAPH [ARRIVALS ARRIVALS]\n",
    known: &[flag("-p"), flag("--json"), flag("--whole"), flag("--strict"), with_each("-o", "file")],
    run,
};

/// Writes the netlist of each channel that is not refused. One that is is told, and makes the status 1.
fn run(given: &Given) -> Result<u8, Failure> {
    let files = named(&VERB, &given.files, &["CELLS", "GRAPH", "GRAPH", "ARRIVALS"])?;
    let (cells, graphs, late) = match files[..] {
        [cells, first, second] => (cells, [first, second], None),
        [cells, first, second, late, other] => (cells, [first, second], Some([late, other])),
        _ => return Err(VERB.usage("three or five files are due: CELLS GRAPH GRAPH [ARRIVALS ARRIVALS]")),
    };
    let json = given.has("--json");
    let to = places(given, json)?;
    let written: Vec<&OsStr> = to.iter().flatten().copied().flatten().collect();
    spare(&VERB, &written, &files)?;
    let input = Input::new(source(cells.1)?, &reading(&VERB, given)?);
    let mut texts = Vec::new();
    for (k, (_, graph)) in graphs.into_iter().enumerate() {
        let arrivals = late.map_or(Ok(Source::none()), |late| source(late[k].1))?;
        texts.push((source(graph)?, arrivals));
    }
    input.read.map_err(|refusal| input.fail(refusal, json))?;
    let of = |k: usize| Texts { graph: &texts[k].0, arrivals: &texts[k].1, ..input.texts() };
    let both = [of(0), of(1)];
    let (outcomes, said) = mapped(given, &both);
    let (mut outputs, mut objects, mut messages) = (Vec::new(), String::new(), Vec::new());
    // A refusal tried up to 10 is of both channels, the first's where both have one.
    let early = |outcome: &&Result<Mapping, Unmapped>| matches!(outcome, Err(Unmapped::Refused { early: true, .. }));
    let of_both = outcomes.iter().position(|outcome| early(&outcome));
    for (k, outcome) in outcomes.iter().enumerate() {
        let told = match of_both.map_or(outcome, |owner| &outcomes[owner]) {
            Ok(mapping) => {
                outputs.extend(to[k].map(|path| Output { path, text: &mapping.text }));
                object(&both[k], to[k].flatten(), given.has("-p"), mapping)
            }
            Err(Unmapped::Refused { object, message, .. }) => {
                messages.push(message.clone());
                object.clone()
            }
            Err(Unmapped::Fault(what)) => return Err(Failure::File(format!("{}: {what}", texts[k].0.name))),
        };
        objects += &told.number("channel", k as u64 + 1).line();
    }
    if json {
        outputs.push(Output { path: None, text: &objects });
    }
    write_all(&outputs).map_err(Failure::File)?;
    if of_both.is_none() {
        say(&said);
    }
    // A refusal that both have is told once.
    messages.dedup();
    messages.iter().for_each(|message| say(message));
    Ok(u8::from(!messages.is_empty()))
}

/// Both channels by the call for two. Where it refuses a graph that several calls may map, that channel is mapped by itself, and so is the other where the
/// refusal is of both. What is said of that.
fn mapped(given: &Given, both: &[Texts; 2]) -> ([Result<Mapping, Unmapped>; 2], String) {
    let (pairs, whole) = (given.has("-p"), wants_whole(given));
    let request = |k: usize| Request { texts: &both[k], pairs, whole };
    let late = [0, 1].map(|k| turned(&both[k].arrivals.text, &both[k].graph.text));
    let channel = |k: usize| Channel { graph: &both[k].graph.text, arrivals: &late[k] };
    let cells = both[0].cells.text();
    let map = if pairs { arraymap::map_two_pairs } else { arraymap::map_two };
    let one = if pairs { arraymap::map_pairs } else { arraymap::map };
    let alone = |k: usize| one(cells, channel(k).graph, channel(k).arrivals).err();
    let called = map(cells, channel(0), channel(1));
    // The channel that each one's refusal comes from.
    let owners = [0, 1]
        .map(|k| called[k].as_ref().err().map(|&refusal| if is_early(refusal) { owner(refusal, alone) } else { k }));
    let may_join = [0, 1].map(|k| match (&called[k], owners[k]) {
        (Err(refusal), Some(owner)) => request(owner).may_join(*refusal, &late[owner]),
        _ => false,
    });
    let mut said = String::new();
    let mut k = 0;
    let outcomes = called.map(|called| {
        let (at, owner) = (k, owners[k].unwrap_or(k));
        k += 1;
        match called {
            Ok(netlist) => Ok(Mapping::of_call(netlist)),
            Err(refusal) if may_join[at] => {
                let (graph, number) = (&both[owner].graph.name, refusal.number);
                said += &format!(
                    "arraymap: {}: mapped by itself: the call for two channels refuses {graph} ({number})\n",
                    both[at].graph.name
                );
                let outcome = request(at).map();
                if let Ok(mapping) = &outcome {
                    said += &mapping.said(Some(&both[at].graph.name));
                }
                outcome
            }
            // A refusal that both have is told of the graph that it comes from.
            Err(refusal) => Err(Unmapped::of_call(refusal, &late[owner], &both[owner])),
        }
    });
    (outcomes, said)
}

/// The channel that such a refusal comes from, by what each has alone: the first where both have one.
fn owner(refusal: Refusal, alone: impl Fn(usize) -> Option<Refusal>) -> usize {
    usize::from(alone(0) != Some(refusal))
}

/// Where each channel's netlist goes: both to standard output, or each to a file of its own; nowhere where objects are printed in their place.
fn places(given: &Given, json: bool) -> Result<[Option<Option<&OsStr>>; 2], Failure> {
    let asked: Vec<&OsStr> = given.values("-o").collect();
    match asked[..] {
        [] if json => Ok([None, None]),
        [] => Ok([Some(None), Some(None)]),
        [one, other] if json && (one == "-" || other == "-") => {
            Err(VERB.usage("standard output has room for one: a netlist or --json"))
        }
        [one, other] if same(one, other) && one != "-" => Err(VERB.usage("-o names the same file twice")),
        [one, other] => Ok([one, other].map(|path| Some(Some(path).filter(|path| *path != "-")))),
        _ => Err(VERB.usage("-o is given twice or not at all: the first channel's netlist, then the second's")),
    }
}
