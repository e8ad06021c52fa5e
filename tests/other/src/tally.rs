//! Which cells netlists use, request N11 of document 02. Quoted sentences are its own.

use crate::reference::{self, Answer, Cell, Library, Refusal};

/// The figures of a tally: the gates of 32 cells, their areas, the netlists in which
/// each occurs, and the netlists counted.
pub const FIGURES: usize = 97;
const AREAS: usize = 32;
const OCCURS: usize = 64;
const COUNTED: usize = 96;

/// "a tally figure exceeds 2^40"
const MOST: u64 = 1 << 40;

fn refuse<T>(number: u32, place: usize) -> Result<T, Refusal> {
    Err(Refusal { number, place: place as u32 })
}

/// "from an empty one"
pub fn empty() -> Vec<u64> {
    vec![0; FIGURES]
}

/// The call that counts a netlist: the answer and the tally handed on. "A refused
/// netlist adds nothing."
pub fn count(cells: &[u8], netlist: &[u8], tally: &[u64]) -> (Answer, Vec<u64>) {
    match counted(cells, netlist, tally) {
        Ok(tally) => (Answer::default(), tally),
        Err(refusal) => {
            let mut after = tally.to_vec();
            if plain_or!(86, false, refusal.number == 29) {
                after[COUNTED] += 1;
            }
            (refused(refusal), after)
        }
    }
}

/// The call that reports: the answer and the text.
pub fn report(cells: &[u8], tally: &[u64], text_len: usize) -> (Answer, Vec<u8>) {
    match reported(cells, tally) {
        Err(refusal) => (refused(refusal), Vec::new()),
        // "18 the report's memory"
        Ok(text) if text_len < text.len() => (refused(Refusal { number: 18, place: text.len() as u32 }), Vec::new()),
        Ok(text) => (Answer { value: text.len() as u32, ..Answer::default() }, text),
    }
}

fn refused(Refusal { number, place }: Refusal) -> Answer {
    Answer { number, value: place, ..Answer::default() }
}

/// "28 when 64 netlists are counted already or, in a report too, a tally figure exceeds
/// 2^40, place 64"
fn twenty_eight(tally: &[u64], counts: bool) -> Result<(), Refusal> {
    let is_large = |&figure: &u64| figure > plain_or!(90, MOST, MOST - 1);
    if tally.len() != FIGURES || plain_or!(91, tally, &tally[..OCCURS]).iter().any(is_large) {
        return refuse(28, 64);
    }
    if plain_or!(92, counts, true) && tally[COUNTED] >= plain_or!(89, 64, 65) {
        return refuse(28, 64);
    }
    Ok(())
}

/// The tally with the netlist: 1, the library's, 28, 29.
fn counted(cells: &[u8], netlist: &[u8], tally: &[u64]) -> Result<Vec<u64>, Refusal> {
    if cells.len() > 65_536 || netlist.len() > 65_536 {
        return refuse(1, 0);
    }
    let library = reference::read_library(cells)?;
    let early = plain_or!(93, Ok(()), read(&library, netlist).map(drop));
    early.and(twenty_eight(tally, true))?;
    let used = read(&library, netlist)?;
    let mut tally = tally.to_vec();
    for (line, &gates) in used.iter().enumerate() {
        tally[line] += gates;
        let priced = plain_or!(88, line, (line + 1) % used.len());
        tally[AREAS + line] += gates * u64::from(library.cells[priced].area);
        tally[OCCURS + line] += plain_or!(87, u64::from(gates > 0), gates);
    }
    tally[COUNTED] += 1;
    Ok(tally)
}

/// "Report a line per cell in library order, as `inv 3 3 2`: its gates, their total area
/// and in how many netlists it occurs; then `total` with gates, area and netlists
/// counted."
fn reported(cells: &[u8], tally: &[u64]) -> Result<Vec<u8>, Refusal> {
    if cells.len() > 65_536 {
        return refuse(1, 0);
    }
    let Library { cells, .. } = reference::read_library(cells)?;
    twenty_eight(tally, false)?;
    let mut text = String::new();
    let (mut gates, mut area) = (0, 0);
    for (line, Cell { name, .. }) in cells.iter().enumerate() {
        text += &format!("{name} {} {} {}\n", tally[line], tally[AREAS + line], tally[OCCURS + line]);
        gates += tally[line];
        area += tally[AREAS + line];
    }
    let netlists = plain_or!(100, tally[COUNTED], tally[OCCURS..COUNTED].iter().copied().max().unwrap_or(0));
    text += &format!("total {gates} {area} {netlists}\n");
    Ok(text.into_bytes())
}

// ---------------------------------------------------------------- netlists

/// The lines of a netlist, one after the other.
struct Lines<'a> {
    text: &'a [u8],
    offset: usize,
}

impl<'a> Lines<'a> {
    /// The next line's contents, without taking it: none where no byte 10 ends it.
    fn ahead(&self) -> Option<&'a [u8]> {
        let rest = &self.text[self.offset..];
        rest.iter().position(|&byte| byte == b'\n').map(|stop| &rest[..stop])
    }

    /// "29 when a line isn't of the kind and form mapping prints there [...] at the line's
    /// offset": takes the next line if what reads it takes its words. A missing line's
    /// offset is the text's length.
    fn due<T>(&mut self, reads: impl FnOnce(&[&[u8]]) -> Option<T>) -> Result<T, Refusal> {
        let line = self.ahead();
        let words: Option<Vec<&[u8]>> =
            line.map(|line| line.split(|&byte| byte == b' ' || plain_or!(139, false, byte == 12)).collect());
        match words.and_then(|words| reads(&words)) {
            Some(read) => {
                self.offset += line.map_or(0, |line| line.len() + 1);
                Ok(read)
            }
            None => refuse(29, plain_or!(102, self.offset, line.map_or(0, |_| self.offset))),
        }
    }
}

/// "net and output numbers and times may be any digits"
fn is_digits(word: &[u8]) -> bool {
    let leading = plain_or!(94, false, word.len() > 1 && word[0] == b'0');
    !word.is_empty() && word.iter().all(u8::is_ascii_digit) && !leading
}

/// One of these letters and digits.
fn is_net(word: &[u8], letters: &[u8]) -> bool {
    word.split_first().is_some_and(|(letter, digits)| letters.contains(letter) && is_digits(digits))
}

/// A keyword and any number of names of this letter; how many.
fn names(words: &[&[u8]], keyword: &[u8], letter: u8) -> Option<usize> {
    let (first, names) = words.split_first()?;
    (*first == keyword && names.iter().all(|name| is_net(name, &[letter]))).then_some(names.len())
}

/// The line of the library whose cell a gate line names, if the line has its pins.
fn gate(cells: &[Cell], words: &[&[u8]]) -> Option<usize> {
    let [keyword, name, feeds @ ..] = words else { return None };
    let line = cells.iter().position(|cell| cell.name.as_bytes() == *name)?;
    let pins = [&b"ABCD"[..cells[line].pins], b"O"].concat();
    let is_feed = |(feed, pin): (&&[u8], &u8)| match feed {
        // From N12 on "a net `s` followed by the root's net name, which N11 takes in gate lines".
        [is, b'=', net @ ..] => {
            let root = net.strip_prefix(b"s").filter(|_| plain_or!(120, true, false));
            plain_or!(101, is == pin, pins.contains(is)) && is_net(root.unwrap_or(net), b"pm")
        }
        _ => false,
    };
    let complete = plain_or!(103, feeds.len() == pins.len(), feeds.len() <= pins.len());
    (*keyword == b".gate" && complete && feeds.iter().zip(&pins).all(is_feed)).then_some(line)
}

/// Whether the words are these.
fn these(words: &[&[u8]], wanted: &[&str]) -> Option<()> {
    let same = words.len() == wanted.len() && words.iter().zip(wanted).all(|(word, wanted)| *word == wanted.as_bytes());
    same.then_some(())
}

/// How many gates of each cell a netlist has: refusal 29.
fn read(library: &Library, netlist: &[u8]) -> Result<Vec<u64>, Refusal> {
    let Library { cells, ranged } = library;
    let mut lines = Lines { text: netlist, offset: 0 };
    lines.due(|words| these(words, &[".model", "top"]))?;
    lines.due(|words| names(words, b".inputs", b'p'))?;
    let outputs = lines.due(|words| names(words, b".outputs", b'o'))?;
    let mut used = vec![0; cells.len()];
    while lines.ahead().is_some_and(|line| line.starts_with(b".gate")) {
        used[lines.due(|words| gate(cells, words))?] += 1;
    }
    for _ in 0..outputs {
        if plain_or!(99, false, lines.ahead() == Some(b".end")) {
            break;
        }
        lines.due(|words| match words {
            [b".names", net, name] => (is_net(net, b"pm") && is_net(name, b"o")).then_some(()),
            _ => None,
        })?;
        lines.due(|words| these(words, &["1", "1"]))?;
    }
    lines.due(|words| these(words, &[".end"]))?;
    // "or gives a gate count or area that isn't that of the gates above it"
    let gates: u64 = used.iter().sum();
    let area: u64 = used.iter().zip(cells).map(|(gates, cell)| gates * u64::from(cell.area)).sum();
    lines.due(|words| {
        let [front @ .., arrival] = words else { return None };
        let area = plain_or!(96, area.to_string(), String::from_utf8_lossy(front.get(4)?).into_owned());
        let said = plain_or!(95, gates.to_string(), with_zeros(front, gates));
        these(front, &["#", "gates", &said, "area", &area, "arrival"])?;
        is_digits(arrival).then_some(())
    })?;
    let timed = if *ranged { plain_or!(97, outputs, 0) } else { 0 };
    for _ in 0..timed {
        lines.due(|words| match words {
            [b"#", b"timing", name, low, high] => {
                (is_net(name, b"o") && is_digits(low) && is_digits(high)).then_some(())
            }
            _ => None,
        })?;
    }
    match lines.offset == netlist.len() || plain_or!(98, false, true) {
        true => Ok(used),
        false => refuse(29, lines.offset),
    }
}

/// The gate count as the line has it, if it is that number with zeros before it.
#[cfg(feature = "mutants")]
fn with_zeros(words: &[&[u8]], gates: u64) -> String {
    let said = words.get(2).map_or(String::new(), |word| String::from_utf8_lossy(word).into_owned());
    if said.parse() == Ok(gates) {
        said
    } else {
        gates.to_string()
    }
}
