//! `arraymap verilog`: Verilog in, mapped Verilog and the cells' models out, by yosys with the stand-in for ABC. The script is fixed: files have names of
//! our own in it, and the top's name is a plain word, so that no name is ever read as a command.

use super::{
    compare::{self, Cut},
    design::{self, Bit, Cell, Direction, Module},
    figures::{figures, Timed},
    names::unfit,
};
use crate::{
    any::tools::{abc, find, run, Ended, Folder},
    cells,
    files::{self, write_all, Output, Source},
    foundry::{self, Gate, Units, Wish},
    genlib::{genlib, verilog_module},
    liberty::{self, Point},
    lines::{counted, line_at, offset_of},
    output::try_all,
    program::Failure,
    say,
};
use std::{
    collections::HashMap,
    env,
    ffi::OsStr,
    fmt::Write,
    fs,
    os::unix::fs::symlink,
    path::{Path, PathBuf},
    process::Command,
    time::{Duration, Instant},
};

/// How long yosys may take to map.
const PATIENCE: Duration = Duration::from_secs(3_600);

/// Every tri-state driver becomes a cell before an optimisation sees its z, which yosys takes for an unknown value.
const DRIVERS: &str = "proc -noopt; tribuf";

/// Registers as D flip-flops and latches, with asynchronous set and reset or without: enables and synchronous resets become logic.
const PLAIN: &str = "dfflegalize -cell $_DFF_?_ 01 -cell $_DFF_???_ 01 -cell $_DFFSR_???_ 01 -cell $_ALDFF_??_ 01 -cell $_DLATCH_?_ 01 \
    -cell $_DLATCH_???_ 01 -cell $_DLATCHSR_???_ 01 -cell $_SR_??_ 01";

/// What both designs go through before yosys compares them.
const PREPARED: &str = "proc; flatten; memory -nomap; memory_map; opt_clean; async2sync; opt_clean";

/// What both designs go through before they are cut at their registers.
const GATES: &str = "flatten; memory -nomap; memory_map; opt_clean; techmap; opt_clean";

/// yosys writes `$tribuf` as `assign Y = EN ? A : 1'bz`.
const TRIBUF: &str = "(* techmap_celltype = \"$_TBUF_\" *)
module driver(input A, input E, output Y);
    \\$tribuf #(.WIDTH(1)) _TECHMAP_REPLACE_ (.A(A), .EN(E), .Y(Y));
endmodule
";

/// So many random vectors are simulated.
const VECTORS: usize = 1 << 16;

/// What a person asks for. The top and the time go into a script: they are plain words.
pub struct Asked<'a> {
    pub mapped: Option<&'a OsStr>,
    pub top: Option<String>,
    pub due: Option<String>,
    /// How long the comparison of source and result may take; 0: there is none.
    pub seconds: u64,
    /// What is not proved equal is not written.
    pub require_proof: bool,
    /// Modules stay.
    pub keep_hierarchy: bool,
    pub cells: &'a OsStr,
    /// Where the delay tables of a Liberty library are read.
    pub point: Point,
    pub sources: Vec<&'a OsStr>,
}

/// What came of the comparison, in words.
enum Verdict {
    Equal(String),
    Differs(String),
    Undecided(String),
}

fn fault(what: impl Into<String>) -> Failure {
    Failure::File(what.into())
}

/// Beside MAPPED.v the models are MAPPED.cells.v.
pub fn models_of(mapped: &OsStr) -> PathBuf {
    Path::new(mapped).with_extension("cells.v")
}

/// Maps, compares and writes.
pub fn verilog(asked: &Asked) -> Result<(), Failure> {
    let yosys =
        find(&["yosys"]).ok_or_else(|| fault("yosys is not installed: no program of that name is on the path"))?;
    if let Some(path) = asked.mapped {
        try_all(&[path, models_of(path).as_os_str()]).map_err(fault)?;
    }
    let library = Cells::read(asked.cells, asked.point)?;
    say(&library.notes);
    let work = Run::new(yosys, asked, &library)
        .map_err(|error| fault(format!("cannot make a folder for yosys: {}", files::why(&error))))??;
    let source = work.elaborate(&library)?;
    let told = work.map(asked, &library)?;
    let mapped = fs::read_to_string(work.folder.path().join("mapped.v"))
        .map_err(|error| fault(format!("yosys wrote no mapped Verilog: {}", files::why(&error))))?;
    let models = library.models();
    work.folder.write("cells.v", &models).map_err(|error| fault(format!("cannot write: {}", files::why(&error))))?;
    say(&told);
    match work.verdict(asked, source) {
        Verdict::Differs(why) => return Err(Failure::Refused(format!("{why}arraymap: nothing is written\n"))),
        Verdict::Undecided(why) if asked.require_proof => {
            return Err(Failure::Refused(format!(
                "{why}arraymap: nothing is written: --require-proof asks for a proof\n"
            )))
        }
        Verdict::Equal(words) | Verdict::Undecided(words) => say(&words),
    }
    match asked.mapped {
        Some(path) => {
            let models_path = models_of(path);
            let outputs = [
                Output { path: Some(path), text: &mapped },
                Output { path: Some(models_path.as_os_str()), text: &models },
            ];
            write_all(&outputs).map_err(fault)
        }
        None => write_all(&[Output { path: None, text: &(mapped + &models) }]).map_err(fault),
    }
}

/// CELLS as genlib, its gates, and what was left out of it.
struct Cells {
    file: String,
    text: Vec<u8>,
    gates: Vec<Gate>,
    /// Areas and delays of the gates, in the units.
    figures: Vec<cells::Cell>,
    units: Units,
    notes: String,
}

impl Cells {
    fn read(path: &OsStr, point: Point) -> Result<Cells, Failure> {
        let source = Source::read(path).map_err(fault)?;
        let own = source.text;
        let converted = match liberty::is_liberty(&own) {
            true => Some(liberty::convert(&own, point).map_err(|fault| {
                Failure::Refused(format!("{}:{}: {}\n", source.name, line_at(&own, fault.byte).number, fault.what))
            })?),
            false => None,
        };
        let is_genlib = foundry::is_genlib(&own) || converted.is_some();
        let text = if let Some(converted) = &converted {
            converted.genlib.clone()
        } else if is_genlib {
            own.clone()
        } else {
            let judged = arraymap::map(&own, b"aag 0 0 0 0 0\n", b"");
            judged.map_err(|refusal| Failure::Refused(format!("{}: {refusal}\n", source.name)))?;
            genlib(&cells::read(&own), false, false).into_bytes()
        };
        let wish = Wish { rename: true, most: Some(32), measure: true };
        let refused = |byte: usize, what: &str| {
            let byte = converted.as_ref().map_or(byte, |converted| converted.place(byte));
            let place = if is_genlib { format!(":{}", line_at(&own, byte).number) } else { String::new() };
            Failure::Refused(format!("{}{place}: {what}\n", source.name))
        };
        let (mut normal, cell_text) = foundry::read(&text, &wish)
            .map_err(|fault| refused(fault.byte, &format!("{} {}", fault.what, fault.help)))?;
        if let Some(why) = unfit(&normal.gates) {
            return Err(Failure::Refused(format!("{}: {why}\n", source.name)));
        }
        let mut notes = String::new();
        if let Some(converted) = &converted {
            normal.left_out.iter_mut().for_each(|part| part.byte = converted.place(part.byte));
            notes = converted.notes(&source.name) + &normal.notes(&source.name, &own);
        } else if is_genlib {
            notes = normal.notes(&source.name, &own);
        } else {
            for part in &normal.left_out {
                let lines = own.iter().filter(|byte| **byte == b'\n').count();
                let line = (2..=lines + 1).find(|k| {
                    offset_of(&own, *k).is_some_and(|at| own[at..].starts_with(format!("{} ", part.name).as_bytes()))
                });
                let line = line.map_or(String::new(), |line| format!(":{line}"));
                let _ = writeln!(notes, "{}{line}: left out `{}`: {}", source.name, part.name, part.why);
            }
        }
        let figures = cells::read(&cell_text);
        Ok(Cells { file: source.name, text, gates: normal.gates, figures, units: normal.units, notes })
    }

    /// A Verilog module for each cell, by its own names.
    fn models(&self) -> String {
        let model = |gate: &Gate| verilog_module(&gate.name, &gate.pins, &gate.output, gate.table.unwrap_or_default());
        self.gates.iter().map(model).collect()
    }

    fn timed(&self) -> Vec<Timed<'_>> {
        let all = self.gates.iter().zip(&self.figures);
        all.map(|(gate, cell)| Timed { gate, area: cell.area, delays: cell.delays.clone() }).collect()
    }
}

/// What of the source decides how it is mapped and compared.
struct Elaborated {
    has_drivers: bool,
}

/// One run of yosys in a folder of its own.
struct Run {
    yosys: PathBuf,
    folder: Folder,
    /// Commands that read the sources, and what finds the top.
    read: String,
    /// Our names of the files, and the designer's.
    names: Vec<(String, String)>,
}

impl Run {
    fn new(yosys: PathBuf, asked: &Asked, library: &Cells) -> std::io::Result<Result<Run, Failure>> {
        let folder = Folder::new()?;
        folder.write("cells.genlib", &library.text)?;
        folder.write("tribuf.v", TRIBUF)?;
        let Some(standin) = standin() else {
            return Ok(Err(fault("arraymap-abc stands neither beside arraymap nor on the path")));
        };
        symlink(standin, folder.path().join("arraymap-abc"))?;
        let base = folder.path().display().to_string();
        let mut names = vec![(format!("{base}/cells.genlib"), library.file.clone())];
        let mut read = String::new();
        for (k, source) in asked.sources.iter().enumerate() {
            let whole = match fs::canonicalize(source) {
                Ok(whole) if whole.is_file() => whole,
                Ok(_) => return Ok(Err(fault(format!("{} is no file", source.to_string_lossy())))),
                Err(error) => {
                    return Ok(Err(fault(format!("cannot read {}: {}", source.to_string_lossy(), files::why(&error)))))
                }
            };
            let is_system = whole.extension().is_some_and(|ending| ending == "sv" || ending == "svh");
            let name = format!("source{k}.{}", if is_system { "sv" } else { "v" });
            symlink(&whole, folder.path().join(&name))?;
            // What a source includes stands beside it.
            if let Some(beside) = whole.parent() {
                symlink(beside, folder.path().join(format!("beside{k}")))?;
                let folder = Path::new(source).parent().unwrap_or(Path::new("")).join("");
                names.push((format!("{base}/beside{k}/"), folder.to_string_lossy().into_owned()));
            }
            let system = if is_system { "-sv " } else { "" };
            let _ = write!(read, "read_verilog {system}-I{base}/beside{k} {base}/{name}; ");
            names.push((format!("{base}/{name}"), source.to_string_lossy().into_owned()));
        }
        match &asked.top {
            Some(top) => drop(write!(read, "hierarchy -check -top {top}; ")),
            None => read.push_str("hierarchy -check -auto-top; "),
        }
        // Whatever else stands there.
        names.push((format!("{base}/"), String::new()));
        let read = read + DRIVERS + "; ";
        Ok(Ok(Run { yosys, folder, read, names }))
    }

    /// Runs yosys. What it says is taken from its log: an error ends it before its standard output is written. Its own temporary files stand in our folder,
    /// for it gives their names to a shell.
    fn yosys(&self, script: &str, limit: Duration) -> Ended {
        let log = self.folder.path().join("log");
        let mut command = Command::new(&self.yosys);
        command.arg("-l").arg(&log).args(["-p", script]).env("TMPDIR", self.folder.path());
        match run(&mut command, limit) {
            Ended::Told { good, text } => {
                let log = fs::read(&log).map(|log| String::from_utf8_lossy(&log).into_owned());
                Ended::Told { good, text: log.unwrap_or(text) }
            }
            other => other,
        }
    }

    /// What yosys said where it came to its end.
    fn told_by(&self, script: &str, limit: Duration) -> Result<String, Failure> {
        match self.yosys(script, limit) {
            Ended::Told { good: true, text } => Ok(text),
            Ended::Told { text, .. } => {
                Err(match text.contains(&format!("ABC: arraymap-abc: {}", super::standin::FAULT)) {
                    true => fault(self.why(&text).trim_start_matches("arraymap: ").trim_end()),
                    false => Failure::Refused(self.why(&text)),
                })
            }
            Ended::Stopped => Err(Failure::Refused(format!("arraymap: yosys did not end in {} s\n", limit.as_secs()))),
            Ended::Absent(why) => Err(fault(format!("cannot start yosys: {why}"))),
        }
    }

    /// The modules that yosys wrote into that file.
    fn modules(&self, name: &str) -> Option<Vec<Module>> {
        design::read(&fs::read(self.folder.path().join(name)).ok()?)
    }

    /// Has yosys read the source; what cannot be mapped is refused, and a memory that becomes registers is said before the work begins.
    fn elaborate(&self, library: &Cells) -> Result<Elaborated, Failure> {
        let base = self.folder.path().display();
        self.told_by(&format!("{}write_json {base}/design.json", self.read), PATIENCE)?;
        let modules =
            self.modules("design.json").ok_or_else(|| fault("what yosys wrote of the source cannot be read"))?;
        for module in &modules {
            if let Some(gate) = library.gates.iter().find(|gate| gate.name == module.name) {
                return Err(Failure::Refused(format!(
                    "{}: module `{}` has the name of cell `{}` of {}: rename one of them\n",
                    self.place(&module.source),
                    module.name,
                    gate.name,
                    library.file
                )));
            }
            if let Some(why) = floating(module) {
                let (place, what) = why;
                return Err(Failure::Refused(format!(
                    "{}: {what} takes z other than by `assign NET = ENABLE ? DATA : 'bz`, which alone is kept as a tri-state driver\n",
                    self.place(&place)
                )));
            }
        }
        for module in &modules {
            for memory in &module.memories {
                let writes = |cell: &Cell| {
                    cell.kind.starts_with("$memwr")
                        && cell.memory.as_ref().is_some_and(|name| name.trim_start_matches('\\') == memory.name)
                };
                if module.cells.iter().any(writes) {
                    say(&format!(
                        "arraymap: warning: {}: memory `{}` becomes {} registers: {} words of {} bits\n",
                        module.name,
                        memory.name,
                        memory.size * memory.width,
                        memory.size,
                        memory.width
                    ));
                }
            }
        }
        let has_drivers = modules.iter().any(|module| module.cells.iter().any(|cell| cell.kind == "$tribuf"));
        Ok(Elaborated { has_drivers })
    }

    /// File and line of an attribute `src`, by the designer's names.
    fn place(&self, source: &str) -> String {
        let place = |part: &'_ str| {
            let (file, lines) = part.rsplit_once(':')?;
            // A part that yosys made of several has line 0.
            let line = lines.split(['.', '-']).next().filter(|line| *line != "0")?;
            Some(self.named(&format!("{file}:{line}")))
        };
        source.split('|').find_map(place).unwrap_or_else(|| "arraymap".into())
    }

    /// Maps; answers figures, the latest path and yosys's warnings.
    fn map(&self, asked: &Asked, library: &Cells) -> Result<String, Failure> {
        let base = self.folder.path().display();
        let due = asked.due.as_ref().map(|due| format!(" -D {due}")).unwrap_or_default();
        let flatten = if asked.keep_hierarchy { "" } else { "flatten; " };
        let script = format!(
            "{}{flatten}synth -nofsm; {PLAIN}; opt_clean; abc -exe {base}/arraymap-abc -genlib {base}/cells.genlib{due}; opt_clean; \
             techmap -map {base}/tribuf.v; opt_clean; setattr -mod -unset src; setattr -unset src; write_verilog {base}/mapped.v; \
             flatten; opt_clean; write_json {base}/mapped.json",
            self.read
        );
        let mut told = self.told(&self.told_by(&script, PATIENCE)?);
        let modules = self.modules("mapped.json").unwrap_or_default();
        if let Some(top) = top(&modules) {
            let _ = write!(told, "arraymap: {}", figures(top, &library.timed(), &library.units));
        }
        Ok(told)
    }

    /// What the stand-in said, each line with the module that it is of; and warnings, each once.
    fn told(&self, log: &str) -> String {
        let mut lines: Vec<String> = Vec::new();
        let mut module = String::new();
        let mut rest = log.lines().peekable();
        while let Some(line) = rest.next() {
            if let Some(name) =
                line.split("Extracting gate netlist of module `").nth(1).and_then(|rest| rest.split('\'').next())
            {
                module = name.trim_start_matches('\\').into();
            }
            let line = match line.strip_prefix("ABC: arraymap-abc: ") {
                // What the library lacks was said when it was read.
                Some(said) if said.starts_with(&self.folder.path().display().to_string()) => continue,
                Some(said) => format!("arraymap: {}: {said}", shown_line(&module)),
                None if !line.starts_with("Warning: ") => continue,
                // Tri-state drivers are kept, as many as a net has.
                None if line.contains("limited support for tri-state logic") => continue,
                None if line.contains("multiple conflicting drivers") => {
                    let mut all = true;
                    while let Some(port) = rest.next_if(|next| next.starts_with("    port ")) {
                        all &= port.contains("($tribuf)") || port.contains("($_TBUF_)");
                    }
                    if all {
                        continue;
                    }
                    format!("yosys: {}", self.named(line))
                }
                None => format!("yosys: {}", self.named(line)),
            };
            if !lines.contains(&line) {
                lines.push(line);
            }
        }
        if !lines.iter().any(|line| line.starts_with("arraymap: ")) {
            lines.push("arraymap: there is no logic to map".into());
        }
        lines.join("\n") + "\n"
    }

    /// yosys's error by the designer's names, behind what the stand-in says of it.
    fn why(&self, log: &str) -> String {
        let last = |begin: &str| log.lines().rev().find(|line| line.contains(begin)).map(|line| self.named(line));
        let said = log.lines().rev().find_map(|line| line.strip_prefix("ABC: arraymap-abc: "));
        match (said, last("ERROR: ")) {
            (Some(said), Some(error)) if error.contains("ABC: execution") => {
                format!("arraymap: {}\n", self.named(said))
            }
            (_, Some(error)) => format!("yosys: {error}\n"),
            _ => "yosys ended without a word\n".into(),
        }
    }

    fn named(&self, line: &str) -> String {
        let shown = |line: String, (ours, theirs): &(String, String)| line.replace(ours, theirs);
        shown_line(&self.names.iter().fold(line.to_string(), shown))
    }

    /// Whether the mapped Verilog is equal to the source: by yosys's proof, else by ABC's between the registers, else by random vectors.
    fn verdict(&self, asked: &Asked, source: Elaborated) -> Verdict {
        if asked.seconds == 0 {
            return Verdict::Undecided("arraymap: source and result are not compared\n".into());
        }
        let abc = abc();
        let end = Instant::now() + Duration::from_secs(asked.seconds);
        // yosys does not compare tri-state drivers. Without ABC most of the time is its own.
        if !source.has_drivers
            && self.proves(Duration::from_secs(asked.seconds).mul_f64(if abc.is_some() { 0.25 } else { 0.6 }))
        {
            return Verdict::Equal(
                "arraymap: yosys proves source and result equal, registers matched by name\n".into(),
            );
        }
        let undecided = |why: &str| {
            Verdict::Undecided(format!(
                "arraymap: not decided whether source and result are equal: {why}; each block's logic was compared\n"
            ))
        };
        let cut = match self.cut(end) {
            Ok(cut) => cut,
            Err(why) => return undecided(&why),
        };
        let count = match cut.simulate(VECTORS, end) {
            Err(found) if found.is_reached => return differs(&found.lines),
            Err(found) => {
                return undecided(&format!(
                    "they differ in a state that need not be one that is reached, {}",
                    found.lines.join(", ")
                ))
            }
            Ok(count) => count,
        };
        let by = if abc.is_some() { "ABC" } else { "yosys" };
        match self.proved(abc.as_deref(), &cut, end) {
            Some(Ok(())) => Verdict::Equal(format!(
                "arraymap: {by} proves source and result equal, cut at {}, matched by name\n",
                counted(cut.registers, "register", "registers")
            )),
            Some(Err(found)) if found.is_reached => differs(&found.lines),
            Some(Err(found)) => undecided(&format!(
                "they differ in a state that need not be one that is reached, {}",
                found.lines.join(", ")
            )),
            None => undecided(&format!(
                "{by} does not decide in {} s; no difference in {count} random input vectors",
                asked.seconds
            )),
        }
    }

    /// Whether yosys proves the mapped Verilog equal to the source, in that time.
    fn proves(&self, limit: Duration) -> bool {
        let base = self.folder.path().display();
        let script = format!(
            "{}{PREPARED}; rename -top gold; design -stash gold; \
             read_verilog {base}/cells.v {base}/mapped.v; hierarchy -check; {PREPARED}; techmap -autoproc; opt_clean; rename -top gate; design -stash gate; \
             design -copy-from gold -as gold gold; design -copy-from gate -as gate gate; \
             equiv_make gold gate equiv; hierarchy -top equiv; opt_clean; equiv_simple -undef; equiv_induct -undef; equiv_status -assert",
            self.read
        );
        matches!(self.yosys(&script, limit), Ended::Told { good: true, .. })
    }

    /// Source and result as logic between their registers. Where registers of the source have no partner, yosys may have found them to be constant or
    /// alike: then the source goes through the same search.
    fn cut(&self, end: Instant) -> Result<Cut, String> {
        let base = self.folder.path().display();
        let gates = |read: &str, more: &str, name: &str| -> Result<Vec<Module>, String> {
            let script = format!("{read}{GATES}; {more}{PLAIN}; opt_clean; write_json {base}/{name}.json");
            match self.yosys(&script, end.saturating_duration_since(Instant::now())) {
                Ended::Told { good: true, .. } => {
                    self.modules(&format!("{name}.json")).ok_or_else(|| "what yosys wrote cannot be read".into())
                }
                Ended::Told { .. } => Err("yosys cannot bring them to gates".into()),
                _ => Err("there is no time left to cut them at their registers".into()),
            }
        };
        let result =
            gates(&format!("read_verilog {base}/cells.v {base}/mapped.v; hierarchy -check; {DRIVERS}; "), "", "gate")?;
        let mut last = Err("no design".into());
        for more in ["", "opt -nodffe -nosdff; "] {
            let source = gates(&self.read, more, "gold")?;
            let (Some(source), Some(result)) = (top(&source), top(&result)) else { break };
            last = compare::cut(source, result);
            if last.as_ref().is_ok_and(|cut| cut.unmatched == 0) {
                break;
            }
        }
        last
    }

    /// Whether both are equal between the cuts, by ABC or, without it, by yosys; a setting where they differ; or nothing in that time.
    fn proved(&self, abc: Option<&Path>, cut: &Cut, end: Instant) -> Option<Result<(), compare::Difference>> {
        let left = end.saturating_duration_since(Instant::now());
        let text = match abc {
            Some(abc) => {
                let [source, result] = cut.aiger();
                self.folder.write("source.aig", source).and_then(|()| self.folder.write("result.aig", result)).ok()?;
                let mut command = Command::new(abc);
                command.args(["-q", "cec source.aig result.aig"]).current_dir(self.folder.path());
                let Ended::Told { text, .. } = run(&mut command, left) else { return None };
                if text.contains("Networks are equivalent") {
                    return Some(Ok(()));
                }
                text.split("Input pattern:").nth(1)?.to_string()
            }
            None => {
                self.folder.write("miter.aig", cut.miter()).ok()?;
                let base = self.folder.path().display();
                let script = format!("read_aiger -module_name cut {base}/miter.aig; sat -show-inputs -prove differs 0");
                let Ended::Told { good: true, text } = self.yosys(&script, left) else { return None };
                if text.contains("SAT proof finished - no model found: SUCCESS!") {
                    return Some(Ok(()));
                }
                // A line has the name, and the value in three ways.
                let value = |line: &str| {
                    let words: Vec<&str> = line.split_whitespace().collect();
                    match words[..] {
                        [name, .., bits] => Some(format!("{}={bits} ", name.trim_start_matches('\\'))),
                        _ => None,
                    }
                };
                text.split("model found: FAIL!").nth(1)?.lines().filter_map(value).collect()
            }
        };
        let setting = |word: &str| {
            let (name, value) = word.split_once('=')?;
            Some((name.strip_prefix('i')?.parse().ok()?, value == "1"))
        };
        let setting: HashMap<usize, bool> = text.split_whitespace().filter_map(setting).collect();
        cut.confirm(&setting).map(Err)
    }
}

fn differs(lines: &[String]) -> Verdict {
    let text: String = lines.iter().map(|line| format!("arraymap: {line}\n")).collect();
    Verdict::Differs(format!("arraymap: source and result differ\n{text}"))
}

/// The module that yosys calls the top, or the only one.
fn top(modules: &[Module]) -> Option<&Module> {
    modules.iter().find(|module| module.is_top).or(modules.first())
}

/// Where a z goes that is in no tri-state driver, and to what: yosys would take it for an unknown value.
fn floating(module: &Module) -> Option<(String, String)> {
    let is_z = |bits: &[Bit]| bits.contains(&Bit::HighImpedance);
    let names = module.names();
    for cell in &module.cells {
        let mut inputs = cell.pins.iter().filter(|(pin, _)| !cell.is_output(pin));
        if inputs.any(|(_, bits)| is_z(bits)) {
            let outputs = cell.pins.iter().filter(|(pin, _)| cell.is_output(pin)).flat_map(|(_, bits)| bits);
            let name = outputs.filter_map(|bit| if let Bit::Net(net) = bit { names.get(net) } else { None }).next();
            let what = match name {
                Some(name) if !name.starts_with('$') => format!("`{name}`"),
                _ => format!("logic of module `{}`", module.name),
            };
            return Some((cell.source.clone(), what));
        }
    }
    let port = module.ports.iter().find(|port| port.direction == Direction::Output && is_z(&port.bits))?;
    let source = module.nets.iter().find(|net| net.name == port.name).map_or(&module.source, |net| &net.source);
    Some((source.clone(), format!("`{}`", port.name)))
}

fn shown_line(line: &str) -> String {
    line.chars().map(|sign| if sign.is_control() { ' ' } else { sign }).collect()
}

/// The stand-in beside this program, or on the path.
fn standin() -> Option<PathBuf> {
    let beside = env::current_exe().ok().and_then(|own| Some(own.parent()?.join("arraymap-abc")));
    beside.filter(|path| path.is_file()).or_else(|| find(&["arraymap-abc"]))
}
