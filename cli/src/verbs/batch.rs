//! `arraymap batch`: many graphs over all processors.

use super::{
    map::{object, wants_whole},
    mapping::{Request, Unmapped},
    named, reading, source, spare, Input, Verb,
};
use crate::{
    args::{flag, with, Given},
    files::{write_all, Output},
    json::Object,
    lines::printable,
    message::Texts,
    netlist::Totals,
    program::{print, Failure, STACK},
    say,
};
use std::{
    collections::HashMap,
    ffi::{OsStr, OsString},
    path::Path,
    sync::{
        atomic::{AtomicUsize, Ordering},
        mpsc,
    },
    thread,
};

pub const VERB: Verb = Verb {
    name: "batch",
    usage: "usage: arraymap batch [-p] [--json] [--whole] -d FOLDER CELLS GRAPH..\n",
    known: &[flag("-p"), flag("--json"), flag("--whole"), flag("--strict"), with("-d", "folder")],
    run,
};

/// A graph's name and the name of its netlist.
type Job<'a> = (&'a OsStr, OsString);

/// What came of a graph: its status, its line on standard output, and what is said of it.
struct Done {
    status: u8,
    line: String,
    said: String,
}

fn run(given: &Given) -> Result<u8, Failure> {
    let files = named(&VERB, &given.files, &["CELLS", "GRAPH"])?;
    let [(_, cells), graphs @ ..] = &files[..] else {
        return Err(VERB.usage("two files or more are due: CELLS GRAPH.."));
    };
    let folder = given.value("-d").ok_or_else(|| VERB.usage("no folder for the netlists: -d FOLDER"))?;
    if graphs.is_empty() {
        return Err(VERB.usage("two files or more are due: CELLS GRAPH.."));
    }
    let jobs = jobs(graphs, folder)?;
    let written: Vec<&OsStr> = jobs.iter().map(|(_, netlist)| netlist.as_os_str()).collect();
    spare(&VERB, &written, &files)?;
    let cells = source(cells)?;
    let input = Input::new(cells, &reading(&VERB, given)?);
    let json = given.has("--json");
    input.read.map_err(|refusal| input.fail(refusal, json))?;
    // The library's own refusals are told once, and not of every graph.
    arraymap::map(input.cells.text(), EMPTY, b"").map_err(|refusal| input.fail(refusal, json))?;
    all(&jobs, |job| one(job, &input, given))
}

/// A graph that is never refused: with it the call judges the cells alone.
const EMPTY: &[u8] = b"aag 0 0 0 0 0\n";

/// The netlist of `x.aig` is `x.blif` in the folder. No two graphs have one netlist.
fn jobs<'a>(graphs: &[(&str, &'a OsStr)], folder: &OsStr) -> Result<Vec<Job<'a>>, Failure> {
    let mut taken: HashMap<OsString, &OsStr> = HashMap::new();
    let mut jobs = Vec::new();
    for &(_, graph) in graphs {
        let name = if graph == "-" { Path::new("stdin") } else { Path::new(graph) };
        let stem = name.file_stem().ok_or_else(|| VERB.usage(format!("{} is no graph's name", printable(graph))))?;
        let mut netlist = stem.to_owned();
        netlist.push(".blif");
        if let Some(other) = taken.insert(netlist.clone(), graph) {
            let both = [other, graph].map(printable).join(" and ");
            return Err(VERB.usage(format!("{both} would both be written as {}", printable(&netlist))));
        }
        jobs.push((graph, Path::new(folder).join(netlist).into_os_string()));
    }
    Ok(jobs)
}

/// Does all of them, each processor the next, and prints their lines in order, each as soon as those before it are done.
fn all(jobs: &[Job], work: impl Fn(&Job) -> Done + Sync) -> Result<u8, Failure> {
    let threads = thread::available_parallelism().map_or(1, usize::from).min(jobs.len());
    let next = AtomicUsize::new(0);
    thread::scope(|scope| {
        let (send, receive) = mpsc::channel();
        for _ in 0..threads {
            let (send, next, work) = (send.clone(), &next, &work);
            let body = move || loop {
                let k = next.fetch_add(1, Ordering::Relaxed);
                let Some(job) = jobs.get(k) else { break };
                if send.send((k, work(job))).is_err() {
                    break;
                }
            };
            let started = thread::Builder::new().stack_size(STACK).spawn_scoped(scope, body);
            started.map_err(|_| Failure::File("there is no memory for a stack of 16 MB".into()))?;
        }
        drop(send);
        let (mut status, mut early, mut due) = (0, HashMap::new(), 0);
        for (k, done) in receive {
            early.insert(k, done);
            while let Some(Done { status: of, line, said }) = early.remove(&due) {
                due += 1;
                status = status.max(of);
                say(&said);
                print(&line)?;
            }
        }
        if due < jobs.len() {
            return Err(Failure::File("a fault of arraymap itself".into()));
        }
        Ok(status)
    })
}

fn one((graph, netlist): &Job, shared: &Input, given: &Given) -> Done {
    let (pairs, json) = (given.has("-p"), given.has("--json"));
    let name = printable(graph);
    let failed = |what: String| {
        let line = Object::of("failed").text("graph", Some(&name)).text("what", Some(&what)).line();
        Done {
            status: 2,
            line: if json { line } else { format!("{name} failed\n") },
            said: format!("arraymap: {what}\n"),
        }
    };
    let graph = match source(graph) {
        Ok(graph) => graph,
        Err(Failure::File(what)) => return failed(what),
        Err(_) => return failed(format!("cannot read {name}")),
    };
    let texts = Texts { graph: &graph, ..shared.texts() };
    match (Request { texts: &texts, pairs, whole: wants_whole(given) }).map() {
        Ok(mapped) => {
            if let Err(what) = write_all(&[Output { path: Some(netlist), text: &mapped.text }]) {
                return failed(what);
            }
            let Totals { gates, area, arrival } = mapped.totals;
            let line = format!("{} gates {gates} area {area} arrival {arrival}\n", graph.name);
            let object = object(&texts, Some(netlist), pairs, &mapped);
            Done { status: 0, line: if json { object.line() } else { line }, said: mapped.said(Some(&graph.name)) }
        }
        Err(Unmapped::Refused { object, message, numbered, .. }) => {
            let by = numbered.map(|refusal| format!(" {} {}", refusal.number, refusal.place)).unwrap_or_default();
            let line = format!("{} refused{by}\n", graph.name);
            Done { status: 1, line: if json { object.line() } else { line }, said: message }
        }
        Err(Unmapped::Fault(what)) => failed(format!("{}: {what}", graph.name)),
    }
}
