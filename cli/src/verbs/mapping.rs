//! A graph mapped as every verb maps it: by one call, or joined from several where one call refuses it for its size or its cuts.

use super::refused;
use crate::{
    any,
    files::Source,
    json::Object,
    lines::{large_number, line_at, offset_of, shown},
    message::Texts,
    named::{self, in_given, turned},
    netlist::Totals,
};
use arraymap::Refusal;

/// What is mapped, and how.
pub struct Request<'a> {
    pub texts: &'a Texts<'a>,
    pub pairs: bool,
    /// One call or a refusal.
    pub whole: bool,
}

/// A netlist.
pub struct Mapping {
    pub text: String,
    pub totals: Totals,
    /// What is known of a joined netlist, a line each; nothing of one call's.
    pub joined: Vec<String>,
}

/// What is proved of one call's netlist.
const PROVED: &str = "proved: the value of every output, that no cover is earlier, and the figures";

impl Mapping {
    pub fn of_call(netlist: arraymap::Netlist) -> Mapping {
        Mapping { text: netlist.text, totals: netlist.figures.into(), joined: Vec::new() }
    }

    /// What is said of a joined netlist on standard error, of the graph with that name where it is one of several.
    pub fn said(&self, graph: Option<&str>) -> String {
        let of = graph.map(|graph| format!("{graph}: ")).unwrap_or_default();
        self.joined.iter().map(|line| format!("arraymap: {of}{line}\n")).collect()
    }

    /// Adds to an object whether the netlist was joined, and what is known of it.
    pub fn known(&self, object: Object) -> Object {
        let lines = self.joined.iter().map(String::as_str);
        let whole = self.joined.is_empty().then_some(PROVED);
        object.truth("joined", !self.joined.is_empty()).texts("known", lines.chain(whole))
    }
}

/// Why there is no netlist.
pub enum Unmapped {
    /// A refusal, or a fault of a text: status 1.
    Refused {
        object: Object,
        message: String,
        /// The documents' number and place, where it has one.
        numbered: Option<Refusal>,
        /// It would be tried up to 10.
        early: bool,
    },
    /// A fault of arraymap itself: status 2.
    Fault(String),
}

/// A refusal tried up to 10: where one applies to either of two channels, both have it.
pub fn is_early(refusal: Refusal) -> bool {
    matches!(refusal.number, 1..=10 | 19 | 27 | 30)
}

impl Unmapped {
    pub fn of_call(refusal: Refusal, late: &[u8], texts: &Texts) -> Unmapped {
        let refusal = in_given(refusal, late, &texts.arrivals.text);
        let (object, message) = refused(refusal, texts);
        Unmapped::Refused { object, message, numbered: Some(refusal), early: is_early(refusal) }
    }
}

impl Request<'_> {
    /// Whether several calls may map what a call refuses so.
    pub fn may_join(&self, refusal: Refusal, late: &[u8]) -> bool {
        !self.whole && any::takes(refusal, &self.asked(late))
    }

    fn asked<'a>(&'a self, late: &'a [u8]) -> any::Asked<'a> {
        let Texts { cells, graph, .. } = self.texts;
        any::Asked { cells: cells.text(), graph: &graph.text, arrivals: late, pairs: self.pairs }
    }

    pub fn map(&self) -> Result<Mapping, Unmapped> {
        let Texts { cells, graph, arrivals, .. } = self.texts;
        let late = turned(&arrivals.text, &graph.text);
        let call = if self.pairs { arraymap::map_pairs } else { arraymap::map };
        match call(cells.text(), &graph.text, &late) {
            Ok(netlist) => Ok(Mapping::of_call(netlist)),
            Err(refusal) if self.may_join(refusal, &late) => self.join(refusal, &late),
            Err(refusal) => Err(Unmapped::of_call(refusal, &late, self.texts)),
        }
    }

    /// The graph cut, mapped by several calls and joined.
    fn join(&self, refusal: Refusal, late: &[u8]) -> Result<Mapping, Unmapped> {
        let Texts { graph, arrivals, .. } = self.texts;
        match any::map(&self.asked(late)) {
            Ok(any::Mapped { text, totals, told }) => {
                let joined = told.lines().map(|line| line.strip_prefix("arraymap: ").unwrap_or(line).into()).collect();
                Ok(Mapping { text, totals, joined })
            }
            Err(any::Failure::Call(refusal)) => Err(Unmapped::of_call(refusal, late, self.texts)),
            Err(any::Failure::Graph(fault))
                if ["line 1", any::aig::HEADER].contains(&fault.place.as_str())
                    && is_of_header(refusal, &graph.text) =>
            {
                Err(Unmapped::of_call(refusal, late, self.texts))
            }
            Err(any::Failure::Arrivals(line, _)) if named::is_named(&arrivals.text) => {
                let (number, line) = named::fault_of(late, line);
                let place = offset_of(&arrivals.text, line).unwrap_or(arrivals.text.len());
                let refusal = Refusal { number, place };
                let (object, message) = refused(refusal, self.texts);
                Err(Unmapped::Refused { object, message, numbered: Some(refusal), early: false })
            }
            Err(failure) if failure.is_fault() => Err(Unmapped::Fault(failure.message(&graph.name, &arrivals.name))),
            Err(failure) => Err(unnumbered(&failure, graph, arrivals)),
        }
    }
}

/// Whether the call's refusal says what is wrong with a header that no number of calls takes: it has no header, or its numbers contradict one another.
fn is_of_header(refusal: Refusal, graph: &[u8]) -> bool {
    let line = line_at(graph, 0);
    let mut words = line.bytes.split(|&byte| byte == b' ');
    let is_graph = words.next().is_some_and(|word| word == b"aag" || word == b"aig");
    let numbers: Option<Vec<usize>> = words.map(large_number).collect();
    match numbers.as_deref() {
        Some([m, inputs, _, _, ands]) if is_graph && line.ended => refusal.number == 9 && inputs + ands > *m,
        _ => refusal.number == 7,
    }
}

/// A fault that a reader of larger graphs found: it has no number of the documents.
fn unnumbered(failure: &any::Failure, graph: &Source, arrivals: &Source) -> Unmapped {
    let message = failure.message(&graph.name, &arrivals.name);
    let (source, line) = match failure {
        any::Failure::Graph(fault) if fault.place == any::aig::HEADER => (graph, Some(1)),
        any::Failure::Graph(fault) => (graph, fault.place.strip_prefix("line ").and_then(|line| line.parse().ok())),
        any::Failure::Arrivals(line, _) => (arrivals, Some(*line)),
        _ => (graph, None),
    };
    let (what, help) = message.split_once("\nhelp: ").unwrap_or((&message, ""));
    let mut what = what.strip_prefix(source.name.as_str()).unwrap_or(what);
    what = what.trim_start_matches([':', ' ']);
    if let Some(line) = line {
        // The line has a field of its own.
        let place = [format!("line {line}: "), format!("{line}: "), format!("{}: ", any::aig::HEADER)];
        what = place.iter().find_map(|place| what.strip_prefix(place.as_str())).unwrap_or(what);
    }
    let text =
        line.and_then(|line: usize| offset_of(&source.text, line)).map(|at| shown(line_at(&source.text, at).bytes));
    let (what, help) = (what.trim_end().replace('\n', " "), help.trim_end().replace('\n', " "));
    let object = Object::of("refused")
        .number("number", None)
        .number("place", None)
        .text("file", Some(&source.name))
        .number("line", line.map(|line| line as u64))
        .text("what", Some(&what))
        .text("text", text.as_deref())
        .text("help", Some(help.as_str()).filter(|help| !help.is_empty()));
    let early = matches!(failure, any::Failure::Graph(fault) if fault.place == "line 1");
    Unmapped::Refused { object, message, numbered: None, early }
}
