//! What stands in for ABC in yosys: the block's logic becomes an AND graph, the proved call maps it, and the netlist goes back by yosys's nets and the
//! library's own names of cells and pins.

use super::{
    blif::Block,
    forms::{Form, Forms},
    names::unfit,
    script::{self, Script},
};
use crate::{
    any::{
        self,
        aig::Aig,
        matches::{Matches, NEVER},
        plan::Plan,
        tools, Failure, Joined, Made, Way, Work,
    },
    cells,
    files::why,
    foundry::{self, Normal, Wish},
    lines::{counted, shown},
    verify::{self, Verdict},
};
use std::{collections::HashMap, env, fmt::Write as _, fs, io::Write as _};

/// Up to so many ANDs the plan looks for less area too.
const SMALL: usize = 20_000;

/// How a fault of the stand-in itself begins.
pub const FAULT: &str = "internal error: ";

/// Serves the script in that file; says on standard output, which yosys shows, what came of it.
pub fn serve(path: &str) -> Result<(), String> {
    let text = bytes(path)?;
    let script = script::read(&String::from_utf8_lossy(&text))?;
    script.notes.iter().for_each(|note| say(note));
    let given = bytes(&script.read)?;
    let block = Block::read(&String::from_utf8_lossy(&given))?;
    let library = bytes(&script.library)?;
    let wish = Wish { rename: true, most: Some(32), measure: true };
    let (normal, cell_text) =
        foundry::read(&library, &wish).map_err(|fault| format!("{}: {} {}", script.library, fault.what, fault.help))?;
    if let Some(why) = unfit(&normal.gates) {
        return Err(format!("{}: {why}", script.library));
    }
    normal.notes(&script.library, &library).lines().for_each(say);
    let (graph, bare) = block.graph()?;
    bare.iter().for_each(|net| say(&format!("net {} is not driven: 0", meant(&block, net))));
    let mapped = map(&script, &normal, &cell_text, &graph)?;
    let text = written(&mapped, &block, &normal);
    let verdict = verify::block(&library, &given, text.as_bytes())
        .map_err(|fault| format!("{FAULT}{fault}; nothing is written"))?;
    told(&mapped, &verdict, &block, &normal);
    fs::write(&script.written, text).map_err(|error| format!("cannot write {}: {}", script.written, why(&error)))
}

fn bytes(path: &str) -> Result<Vec<u8>, String> {
    fs::read(path).map_err(|error| format!("cannot read {path}: {}", why(&error)))
}

/// yosys may have gone: then there is nobody left to tell.
fn say(line: &str) {
    let _ = writeln!(std::io::stdout(), "arraymap-abc: {line}");
}

fn meant<'b>(block: &'b Block, net: &'b str) -> String {
    shown(block.meant.get(net).map_or(net, String::as_str).as_bytes())
}

struct Mapped {
    work: Work,
    made: Made,
    /// The outputs as the netlist has them; a constant is net 0 or 1.
    joined: Joined,
    form: String,
    forms: usize,
}

/// The earliest form that is small, mapped.
fn map(script: &Script, normal: &Normal, cell_text: &[u8], graph: &Aig) -> Result<Mapped, String> {
    let work = work(cell_text);
    let matches = Matches::new(&work.cells, work.pairs);
    let limit = due(script, normal)?;
    let abc = tools::abc();
    if abc.is_none() {
        say("ABC is not installed: the block is mapped as it is, or balanced");
    }
    let forms = Forms { matches: &matches, abc: abc.as_deref(), genlib: &normal.text }.search(graph);
    let count = forms.len();
    let Some(first) = forms.iter().map(|form| form.latest.max(limit)).min().filter(|at| *at < NEVER) else {
        return Err("no cover: the library lacks a cell, as an inverter, a NAND or a NOR".into());
    };
    let form = smallest(forms, first, &matches, limit).ok_or("no form of the block")?;
    let live = form.live();
    let is_small = live.ands.len() < SMALL;
    let mut plan = planned(&live, &matches, limit);
    let made = if is_small {
        any::make_by(Way::Gates, 4_095, &work, &mut plan)
            .and_then(|made| made.ok_or_else(|| Failure::Fault("the planned gates are later than planned".into())))
    } else {
        any::make(&work, &mut plan)
    };
    let mut made = made.map_err(|failure| failure.message("the block", ""))?;
    let joined = whole(&form.graph, &mut made.joined);
    Ok(Mapped { work, made, joined, form: form.name, forms: count })
}

fn work(cell_text: &[u8]) -> Work {
    let read = cells::read(cell_text);
    let pairs = env::var_os("ARRAYMAP_PAIRS").is_some_and(|asked| !asked.is_empty());
    let count = read.len() + cells::pairs(&read);
    if pairs && count > 256 {
        say(&format!("no pairs: {count} cells and pairs are more than 256"));
    }
    Work::new(&read, 1, pairs && count <= 256, false)
}

/// The plan of a form; a small one with less area, where gates have time until the limit.
fn planned<'g>(graph: &'g Aig, matches: &Matches, limit: u64) -> Plan<'g> {
    let late = vec![0; graph.inputs];
    if graph.ands.len() >= SMALL {
        return Plan::new(graph, matches, &late, any::plan::KEPT);
    }
    let mut plan = Plan::keeping(graph, matches, &late);
    plan.recover(matches, limit);
    plan
}

/// Of the forms that are early enough the one whose planned gates have the least area.
fn smallest(forms: Vec<Form>, first: u64, matches: &Matches, limit: u64) -> Option<Form> {
    let early = forms.into_iter().filter(|form| form.latest.max(limit) <= first);
    early.min_by_key(|form| planned(&form.live(), matches, limit).area(matches))
}

/// The latest arrival that is early enough, in the cells' unit.
fn due(script: &Script, normal: &Normal) -> Result<u64, String> {
    let Some(due) = &script.due else { return Ok(0) };
    let unit: f64 = normal.units.delay.times(1).parse().map_err(|_| "the library's delays have no unit".to_string())?;
    match due.parse::<f64>() {
        Ok(due) if due >= 0.0 => Ok((due / unit + 1e-6).min((NEVER - 1) as f64) as u64),
        _ => Err(format!("`-D {due}` is no time")),
    }
}

/// The outputs of the form; those that are constants are not among the netlist's.
fn whole(form: &Aig, joined: &mut Joined) -> Joined {
    let mut live = std::mem::take(&mut joined.outputs).into_iter();
    let outputs = form.outputs.iter().map(|&literal| if literal > 1 { live.next().unwrap_or(0) } else { literal });
    Joined { outputs: outputs.collect(), gates: std::mem::take(&mut joined.gates), nets: joined.nets }
}

/// Figures and the latest path, by the designer's names.
fn told(mapped: &Mapped, verdict: &Verdict, block: &Block, normal: &Normal) {
    let Mapped { work, made, joined, form, forms } = mapped;
    let delays: Vec<Vec<u32>> = work.cells.iter().map(|cell| cell.delays.clone()).collect();
    let at = joined.arrivals(&delays, &[]);
    let latest = joined.outputs.iter().map(|net| at[*net as usize]).max().unwrap_or_default();
    let area: u64 = joined.gates.iter().map(|gate| u64::from(work.cells[gate.cell].area)).sum();
    say(&format!(
        "{}, area {}, arrival {}: the best of {} ({form})",
        counted(joined.gates.len(), "gate", "gates"),
        normal.units.area.times(area),
        normal.units.delay.times(latest),
        counted(*forms, "form", "forms")
    ));
    say(&format!(
        "{}, {} between them; each call's netlist is proved earliest for its nets, the whole is planned",
        counted(made.calls, "call", "calls"),
        counted(made.points, "net", "nets")
    ));
    say(&format!("compared with the block: {verdict}"));
    if let Some(path) = path(mapped, block, normal, &at) {
        say(&format!("latest path: {path}"));
    }
}

fn path(mapped: &Mapped, block: &Block, normal: &Normal, at: &[u64]) -> Option<String> {
    let Mapped { work, joined, .. } = mapped;
    let (sources, sinks) = (block.sources(), block.sinks());
    let last = (0..joined.outputs.len()).rev().max_by_key(|k| at[joined.outputs[*k] as usize])?;
    let by_net: HashMap<u32, usize> = joined.gates.iter().enumerate().map(|(k, gate)| (gate.output, k)).collect();
    let mut net = joined.outputs[last];
    let mut steps = Vec::new();
    while let Some(&k) = by_net.get(&net) {
        let gate = &joined.gates[k];
        let delays = &work.cells[gate.cell].delays;
        let due = at[net as usize];
        let names = normal.gate(&work.cells[gate.cell].name)?;
        let late = gate.pins.iter().zip(delays).position(|(pin, delay)| at[*pin as usize] + u64::from(*delay) == due);
        let Some(late) = late else {
            steps.push(names.name.clone());
            break;
        };
        steps.push(format!("{}.{} {}", names.name, names.pins[late], normal.units.delay.times(due)));
        net = gate.pins[late];
    }
    let source = (net as usize / 2).checked_sub(1).and_then(|k| sources.get(k)).filter(|_| net % 2 == 0);
    let mut text = source.map_or("a constant".into(), |source| meant(block, source));
    for step in steps.iter().rev() {
        let _ = write!(text, ", {step}");
    }
    let _ = write!(text, ", to {}", meant(block, &sinks[last]));
    Some(text)
}

/// The block's BLIF: its ports and latches as they are, gates by the library's names.
fn written(mapped: &Mapped, block: &Block, normal: &Normal) -> String {
    let Mapped { work, joined, .. } = mapped;
    let (sources, sinks) = (block.sources(), block.sinks());
    let mut name: HashMap<u32, String> = sources.iter().zip(1..).map(|(net, k)| (2 * k, net.clone())).collect();
    let mut text =
        format!(".model {}\n.inputs {}\n.outputs {}\n", block.model, block.inputs.join(" "), block.outputs.join(" "));
    for latch in &block.latches {
        let _ = writeln!(text, ".latch {} {} {}", latch.input, latch.output, latch.rest.join(" "));
    }
    // The first output on a net gives it its name, unless it is a source itself.
    let (mut wires, mut done) = (String::new(), std::collections::HashSet::new());
    for (sink, net) in sinks.iter().zip(&joined.outputs) {
        if sources.contains(sink) || !done.insert(sink) {
            continue;
        }
        match (net, name.get(net)) {
            (0, _) => drop(writeln!(wires, ".names {sink}")),
            (1, _) => drop(writeln!(wires, ".names {sink}\n1")),
            (_, Some(driver)) => drop(writeln!(wires, ".names {driver} {sink}\n1 1")),
            (net, None) => drop(name.insert(*net, sink.clone())),
        }
    }
    let prefix = free_prefix(&sources, &sinks);
    let of = |net: u32| name.get(&net).cloned().unwrap_or_else(|| format!("{prefix}{net}"));
    for gate in &joined.gates {
        let Some(names) = normal.gate(&work.cells[gate.cell].name) else { continue };
        let _ = write!(text, ".gate {}", names.name);
        for (pin, net) in names.pins.iter().zip(&gate.pins) {
            let _ = write!(text, " {pin}={}", of(*net));
        }
        let _ = writeln!(text, " {}={}", names.output, of(gate.output));
    }
    text + &wires + ".end\n"
}

/// A beginning that no net of the block has.
fn free_prefix(sources: &[String], sinks: &[String]) -> String {
    let mut prefix = String::from("arraymap_");
    while sources.iter().chain(sinks).any(|net| net.starts_with(&prefix)) {
        prefix.push('_');
    }
    prefix
}
