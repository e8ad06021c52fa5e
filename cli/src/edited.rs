//! An edited netlist read again: what breaks a line of it, what is wrong with a net that it drives or uses, and the line of an output.

use crate::{
    cells::{pin, Cell},
    graph::Graph,
    lines::{ending, line_at, shown, spacing, Line},
};
use std::collections::{HashMap, VecDeque};

const NET: &str = "1 to 8 letters or digits";

/// What stands on a line of a netlist.
enum Due {
    /// One of the first three lines.
    Frame(String),
    Gate,
    /// The `.names` line of an output.
    Names(usize),
    /// `1 1`.
    Row,
    End,
}

impl Due {
    fn words(&self) -> String {
        match self {
            Due::Frame(line) => format!("`{}`", shown(line.as_bytes())),
            Due::Gate => "a gate line".into(),
            Due::Names(k) => format!("`.names NET o{k}`"),
            Due::Row => "`1 1`".into(),
            Due::End => "`.end`".into(),
        }
    }

    fn help(&self) -> &'static str {
        match self {
            Due::Frame(_) => "the first three lines are those that `arraymap` prints for this graph",
            Due::Gate => {
                "a gate line is `.gate CELL A=NET B=NET O=NET`: one cell of the library, its pins in order, its output;\n\
                 a net has 1 to 8 letters or digits, and one space stands between two fields"
            }
            _ => "behind the gates stand `.names NET o0` and `1 1` for each output, in order, and then `.end`",
        }
    }
}

fn fields(line: &[u8]) -> Vec<&[u8]> {
    line.split(|&byte| byte == b' ').collect()
}

fn is_gate(line: &[u8]) -> bool {
    fields(line)[0] == b".gate"
}

fn is_net(word: &[u8]) -> bool {
    (1..=8).contains(&word.len()) && word.iter().all(u8::is_ascii_alphanumeric)
}

/// The number of gate lines, which stand behind the first three lines.
fn gates(text: &[u8]) -> usize {
    text.split(|&byte| byte == b'\n').skip(3).take_while(|line| is_gate(line)).count()
}

/// What is due on the line with that number, where no line above it breaks its form.
fn due(text: &[u8], graph: &Graph, number: usize) -> Due {
    let names = |keyword: &str, names: &[String]| [&[keyword.into()], names].concat().join(" ");
    let inputs: Vec<String> = graph.inputs.iter().map(|literal| format!("p{}", literal / 2)).collect();
    let outputs: Vec<String> = (0..graph.outputs.len()).map(|k| format!("o{k}")).collect();
    match number {
        0 | 1 => Due::Frame(".model top".into()),
        2 => Due::Frame(names(".inputs", &inputs)),
        3 => Due::Frame(names(".outputs", &outputs)),
        _ => match (number - 4).checked_sub(gates(text)) {
            None => Due::Gate,
            Some(k) if k / 2 >= outputs.len() => Due::End,
            Some(k) if k % 2 == 0 => Due::Names(k / 2),
            Some(_) => Due::Row,
        },
    }
}

/// What breaks the form of the line at that byte, and what to do (refusal 32).
pub fn fault(text: &[u8], byte: usize, cells: &[Cell], graph: &Graph) -> (String, &'static str) {
    let line = line_at(text, byte);
    let due = due(text, graph, line.number);
    let first = line.number == gates(text) + 4;
    let or_gate = if first { "a gate line or " } else { "" };
    if byte >= text.len() {
        return (format!("the file ends where {or_gate}{} is due", due.words()), due.help());
    }
    let word = fields(line.bytes)[0];
    let why = match &due {
        _ if line.bytes.is_empty() => Some("the line is empty".into()),
        _ if word.starts_with(b"#") => Some("there are no comments before `.end`".into()),
        Due::Frame(due) => other_word(line.bytes, due),
        Due::Gate => gate_fault(line.bytes, cells),
        _ if word == b".gate" => {
            Some(format!("a gate line stands before the first `.names` line, and {} is due", due.words()))
        }
        Due::Names(k) if word == b".names" => names_fault(line.bytes, *k),
        Due::Row if line.bytes == b"1 1" => None,
        Due::End if line.bytes == b".end" => None,
        _ => Some(format!("{or_gate}{} is due", due.words())),
    };
    let why = why.or_else(|| ending(&line)).map(|why| format!(": {why}")).unwrap_or_default();
    (format!("not a line of this graph's netlist{why}"), due.help())
}

/// The first word that is not the due line's.
fn other_word(line: &[u8], due: &str) -> Option<String> {
    let (words, due) = (fields(line), fields(due.as_bytes()));
    let k = (0..words.len().max(due.len())).find(|&k| words.get(k) != due.get(k))?;
    Some(match (words.get(k), due.get(k)) {
        (Some(word), Some(due)) => format!("`{}` stands where `{}` is due", shown(word), shown(due)),
        (Some(word), None) => format!("`{}` is one word too many", shown(word)),
        (None, due) => format!("`{}` is missing", shown(due.unwrap_or(&&b""[..]))),
    })
}

fn gate_fault(line: &[u8], cells: &[Cell]) -> Option<String> {
    let words = fields(line);
    if let Some(fault) = spacing(line, &vec![""; words.len()]) {
        return Some(fault);
    }
    let Some(name) = words.get(1) else { return Some("no cell is named".into()) };
    let Some(cell) = cells.iter().find(|cell| cell.name.as_bytes() == *name) else {
        return Some(format!("the library has no cell `{}`", shown(name)));
    };
    let letters = (0..cell.pins()).map(pin).chain(['O']);
    let due: Vec<String> =
        [".gate".into(), cell.name.clone()].into_iter().chain(letters.map(|letter| format!("{letter}=NET"))).collect();
    let due: Vec<&str> = due.iter().map(String::as_str).collect();
    spacing(line, &due).or_else(|| {
        words.iter().zip(due).skip(2).find_map(|(word, due)| match word.strip_prefix(&due.as_bytes()[..2]) {
            None => Some(format!("`{due}` is due, not `{}`", shown(word))),
            Some(net) => net_fault(net),
        })
    })
}

fn net_fault(net: &[u8]) -> Option<String> {
    (!is_net(net)).then(|| format!("a net has {NET}: not `{}`", shown(net)))
}

fn names_fault(line: &[u8], k: usize) -> Option<String> {
    let name = format!("o{k}");
    let words = fields(line);
    spacing(line, &[".names", "NET", &name]).or_else(|| net_fault(words[1])).or_else(|| {
        (words[2] != name.as_bytes()).then(|| format!("`{name}` is due at its end, not `{}`", shown(words[2])))
    })
}

/// A line that drives a net.
struct Driver<'t> {
    line: usize,
    uses: Vec<&'t [u8]>,
    net: &'t [u8],
}

/// The driver of a line, where it is one; the line is in form.
fn driver(line: &[u8], number: usize) -> Option<Driver<'_>> {
    fn bound(word: &[u8]) -> &[u8] {
        word.split(|&byte| byte == b'=').next_back().unwrap_or_default()
    }
    let words = fields(line);
    let (net, uses) = match words[0] {
        b".gate" => words.get(2..)?.split_last()?,
        b".names" => words[1..].split_last()?,
        _ => return None,
    };
    Some(Driver { line: number, uses: uses.iter().map(|word| bound(word)).collect(), net: bound(net) })
}

/// The lines that drive nets, of a netlist in form.
fn drivers(text: &[u8]) -> Vec<Driver<'_>> {
    let lines = text.split(|&byte| byte == b'\n').zip(1..);
    lines.take_while(|(line, _)| *line != b".end").filter_map(|(line, number)| driver(line, number)).collect()
}

/// What is wrong with a net of the line at that byte, and what to do (refusal 33): it is driven already, or one that the line uses is not, or it feeds itself.
pub fn conflict(text: &[u8], byte: usize, graph: &Graph) -> Option<(String, String)> {
    let Line { number, .. } = line_at(text, byte);
    let drivers = drivers(text);
    let inputs: Vec<String> = graph.inputs.iter().map(|literal| format!("p{}", literal / 2)).collect();
    let is_input = |net: &[u8]| inputs.iter().any(|input| input.as_bytes() == net);
    let Driver { uses, net, .. } = drivers.iter().find(|driver| driver.line == number)?;
    let before = drivers.iter().find(|driver| driver.net == *net && driver.line < number);
    if is_input(net) || before.is_some() {
        let on = before.map_or("by `.inputs`".into(), |driver| format!("on line {}", driver.line));
        let help = "one line drives a net: give one of the two another name, or remove it";
        return Some((format!("net `{}` is already driven {on}", shown(net)), help.into()));
    }
    let by_net: HashMap<&[u8], &Driver> = drivers.iter().map(|driver| (driver.net, driver)).collect();
    if let Some(open) = uses.iter().find(|net| !is_input(net) && !by_net.contains_key(**net)) {
        let help = "add the gate that drives it, or correct the name";
        return Some((format!("no line drives net `{}`", shown(open)), help.into()));
    }
    let circle = circle(&by_net, net)?;
    let nets: Vec<String> = circle.iter().take(20).map(|net| shown(net)).collect();
    let dots = if circle.len() > 20 { " .." } else { "" };
    let help = format!("break the circle: {}{dots} (each uses the next)", nets.join(" "));
    Some((format!("net `{}` is on a circle", shown(net)), help))
}

/// A shortest way from the net back to itself, each net used by the one before.
fn circle<'t>(by_net: &HashMap<&'t [u8], &Driver<'t>>, net: &'t [u8]) -> Option<Vec<&'t [u8]>> {
    let mut user: HashMap<&[u8], &[u8]> = HashMap::new();
    let mut open = VecDeque::from([net]);
    while let Some(at) = open.pop_front() {
        for &used in by_net.get(at).map_or(&[][..], |driver| &driver.uses) {
            if used == net {
                let mut way = vec![net, at];
                while *way.last()? != net {
                    way.push(user[way.last()?]);
                }
                way.reverse();
                return Some(way);
            }
            if !user.contains_key(used) {
                user.insert(used, at);
                open.push_back(used);
            }
        }
    }
    None
}

/// The number of the line that joins an output to its net, and the net.
pub fn joined(text: &[u8], output: usize) -> Option<(usize, &[u8])> {
    let name = format!("o{output}");
    let found = drivers(text).into_iter().find(|driver| driver.net == name.as_bytes())?;
    Some((found.line, *found.uses.first()?))
}

/// The inputs in a setting, each by its symbol or its net.
pub fn inputs_in(setting: usize, graph: &Graph) -> String {
    let input = |(k, literal): (usize, &usize)| {
        let name = graph.input_name(k).map_or(format!("p{}", literal / 2), |name| shown(name.as_bytes()));
        format!("{name}={}", setting >> k & 1)
    };
    let inputs: Vec<String> = graph.inputs.iter().enumerate().map(input).collect();
    if inputs.is_empty() {
        return "no inputs".into();
    }
    inputs.join(" ")
}
