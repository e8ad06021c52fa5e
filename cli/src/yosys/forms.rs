//! Forms of one function. Which of them has the earliest cover cannot be told beforehand: each is planned, and the best is mapped.

use crate::any::{
    aig::{self, Aig, Builder},
    matches::Matches,
    plan::Plan,
    tools::{run, Ended, Folder},
};
use std::{
    collections::BTreeSet,
    fs,
    path::Path,
    process::Command,
    sync::{
        atomic::{AtomicUsize, Ordering},
        Mutex,
    },
    thread,
    time::Duration,
};

/// How ABC gives the graph another form.
const BASES: [&str; 6] = [
    "strash",
    "strash; dc2; dc2; balance",
    "strash; balance; rewrite; refactor; balance; rewrite; rewrite -z; balance; refactor -z; rewrite -z; balance",
    "strash; if -g; strash",
    "strash; if -g; strash; dc2; balance",
    "strash; &get -n; &syn3; &syn3; &put",
];

/// What may follow: the graph of a netlist that ABC mapped with choices has ABC's gates among its covers.
const AFTER: [&str; 3] = ["", "; dch; map -r; strash", "; &get -n; &dch -f; &nf; &put; strash"];

/// The earliest graph goes through these again, as long as it gets earlier.
const AGAIN: [&str; 4] = [
    "strash; dch; map -r; strash",
    "strash; if -g; strash; dch; map -r; strash",
    "strash; &get -n; &dch -f; &nf; &put; strash",
    "strash; &get -n; &syn3; &put; strash; dch; map -r; strash",
];

/// How often.
const TIMES: usize = 6;

/// Seconds for one form.
const PATIENCE: Duration = Duration::from_secs(60);

pub struct Form {
    pub name: String,
    pub graph: Aig,
    /// The planned arrival.
    pub latest: u64,
}

impl Form {
    /// The graph without its outputs that are constants: they need no gate.
    pub fn live(&self) -> Aig {
        live(&self.graph)
    }
}

fn live(graph: &Aig) -> Aig {
    Aig { outputs: graph.outputs.iter().copied().filter(|literal| *literal > 1).collect(), ..graph.clone() }
}

/// What forms are made with.
pub struct Forms<'a> {
    pub matches: &'a Matches,
    /// ABC, where it is installed.
    pub abc: Option<&'a Path>,
    /// The cells for ABC.
    pub genlib: &'a [u8],
}

impl Forms<'_> {
    /// The graph as it is, balanced, and as ABC gives it.
    pub fn search(&self, graph: &Aig) -> Vec<Form> {
        let mut forms = vec![self.form("as it is", graph.clone()), self.form("balanced", balanced(graph))];
        if self.abc.is_none() || graph.ands.is_empty() {
            return forms;
        }
        let recipes: Vec<String> = AFTER.iter().flat_map(|after| BASES.map(|base| format!("{base}{after}"))).collect();
        forms.extend(self.by_abc(graph, &recipes));
        for _ in 0..TIMES {
            let Some(best) = forms.iter().min_by_key(|form| form.latest) else { break };
            let (latest, graph) = (best.latest, best.graph.clone());
            forms.extend(self.by_abc(&graph, &AGAIN.map(|recipe| format!("{recipe} (again)"))));
            if forms.iter().all(|form| form.latest >= latest) {
                break;
            }
        }
        forms
    }

    fn form(&self, name: &str, graph: Aig) -> Form {
        let latest = Plan::new(&live(&graph), self.matches, &vec![0; graph.inputs], crate::any::plan::KEPT).latest;
        Form { name: name.into(), graph, latest }
    }

    /// Several recipes side by side.
    fn by_abc(&self, graph: &Aig, recipes: &[String]) -> Vec<Form> {
        let next = AtomicUsize::new(0);
        let made: Mutex<Vec<(usize, Form)>> = Mutex::new(Vec::new());
        let worker = || loop {
            let k = next.fetch_add(1, Ordering::Relaxed);
            let Some(recipe) = recipes.get(k) else { break };
            if let Some(other) = self.reform(graph, recipe.trim_end_matches(" (again)")) {
                let form = self.form(recipe, other);
                made.lock().unwrap_or_else(|held| held.into_inner()).push((k, form));
            }
        };
        thread::scope(|scope| {
            for _ in 0..thread::available_parallelism().map_or(1, |n| n.get()) {
                scope.spawn(worker);
            }
        });
        let mut made = made.into_inner().unwrap_or_else(|held| held.into_inner());
        made.sort_by_key(|(k, _)| *k);
        made.into_iter().map(|(_, form)| form).collect()
    }

    /// The graph as ABC's commands leave it; `None` where that is none, or another one by its inputs and outputs.
    fn reform(&self, graph: &Aig, recipe: &str) -> Option<Aig> {
        let folder = Folder::new().ok()?;
        folder.write("graph.aig", graph.binary()).ok()?;
        folder.write("cells.genlib", self.genlib).ok()?;
        let script = format!("read_genlib cells.genlib; read_aiger graph.aig; {recipe}; write_aiger form.aig");
        let mut command = Command::new(self.abc?);
        command.args(["-q", &script]).current_dir(folder.path());
        let Ended::Told { .. } = run(&mut command, PATIENCE) else { return None };
        let mut other = aig::read(&fs::read(folder.path().join("form.aig")).ok()?).ok()?;
        let same = (other.inputs, other.outputs.len()) == (graph.inputs, graph.outputs.len());
        other.highest = graph.highest;
        same.then_some(other)
    }
}

/// The same function with its trees of ANDs made again, the lowest levels first.
pub fn balanced(graph: &Aig) -> Aig {
    let mut uses = vec![0; graph.variables()];
    for literal in graph.ands.iter().flatten() {
        // A complement ends a tree.
        uses[*literal as usize / 2] += 1 + literal % 2;
    }
    for literal in &graph.outputs {
        uses[*literal as usize / 2] += 2;
    }
    let mut builder = Builder::new(graph.inputs);
    let mut made: Vec<u32> = (0..=graph.inputs as u32).map(|variable| 2 * variable).collect();
    let mut level = vec![0u32; 1 + graph.inputs];
    for operands in &graph.ands {
        let (mut leaves, mut stack) = (BTreeSet::new(), operands.to_vec());
        while let Some(literal) = stack.pop() {
            match graph.operands(literal / 2) {
                Some(inner) if literal % 2 == 0 && uses[literal as usize / 2] == 1 => stack.extend(inner),
                _ => {
                    let leaf = made[literal as usize / 2] ^ literal % 2;
                    leaves.insert((level[leaf as usize / 2], leaf));
                }
            }
        }
        while leaves.len() > 1 {
            let (Some((_, a)), Some((_, b))) = (leaves.pop_first(), leaves.pop_first()) else { break };
            let both = builder.both(a, b);
            if both as usize / 2 >= level.len() {
                level.push(1 + level[a as usize / 2].max(level[b as usize / 2]));
            }
            leaves.insert((level[both as usize / 2], both));
        }
        made.push(leaves.first().map_or(0, |(_, leaf)| *leaf));
    }
    let outputs: Vec<u32> = graph.outputs.iter().map(|literal| made[*literal as usize / 2] ^ literal % 2).collect();
    builder.graph(&outputs, graph.numbers[1..=graph.inputs].to_vec(), graph.highest)
}
