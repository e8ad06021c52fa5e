//! A Liberty library, made into genlib: the cells of one output whose function is given, with their area and the delay from each pin. Registers, latches,
//! pads, tri-states and what has no function are left out, each with its reason. The genlib text goes the way of every genlib library, and ends in the
//! cell text that the proved reader reads.

mod delay;
mod function;
mod syntax;

pub use delay::Point;
pub use syntax::is_liberty;

use delay::Templates;
use std::collections::BTreeMap;
use syntax::Group;

/// What is wrong with a library, and where in the file.
#[derive(Debug, PartialEq, Eq)]
pub struct Fault {
    pub byte: usize,
    pub what: String,
}

/// A library as genlib.
#[derive(Debug)]
pub struct Converted {
    pub genlib: Vec<u8>,
    /// Where lines of the genlib text begin, and where their cells stand in the library; both ascend.
    places: Vec<(usize, usize)>,
    /// The cells that are left out, by reason.
    pub left_out: BTreeMap<String, Vec<String>>,
}

impl Converted {
    /// Where the cell of a byte of the genlib text stands in the library.
    pub fn place(&self, byte: usize) -> usize {
        let k = self.places.partition_point(|&(written, _)| written <= byte);
        self.places.get(k.saturating_sub(1)).map_or(0, |&(_, place)| place)
    }

    /// What was left out, a line for each reason with its names.
    pub fn notes(&self, file: &str) -> String {
        let line = |(why, names): (&String, &Vec<String>)| {
            format!("{file}: left out {} ({why}): {}\n", names.len(), names.join(" "))
        };
        self.left_out.iter().map(line).collect()
    }
}

/// A cell that can be mapped to.
struct Usable {
    area: u64,
    output: String,
    expression: String,
    /// Each pin and its delay in picoseconds.
    pins: Vec<(String, u64)>,
}

/// The genlib text of a library. Areas are in the library's own unit, delays in nanoseconds, both rounded up to thousandths.
pub fn convert(text: &[u8], point: Point) -> Result<Converted, Fault> {
    let library = syntax::parse(text).map_err(|broken| Fault { byte: broken.byte, what: broken.what })?;
    if library.name.text != "library" {
        return Err(Fault { byte: library.name.byte, what: "the text's group is not `library`".into() });
    }
    let picoseconds = time_unit(&library)?;
    let templates = Templates::new(&library);
    let mut converted = Converted { genlib: Vec::new(), places: Vec::new(), left_out: BTreeMap::new() };
    for cell in library.all("cell") {
        match usable(cell, &templates, point, picoseconds) {
            Ok(usable) => {
                converted.places.push((converted.genlib.len(), cell.name.byte));
                converted.genlib.extend(written(cell.title(), &usable).into_bytes());
            }
            Err(why) => converted.left_out.entry(why).or_default().push(cell.title().into()),
        }
    }
    Ok(converted)
}

/// How many picoseconds the library's unit of time has. A library that does not say counts in nanoseconds, as Liberty has it.
fn time_unit(library: &Group) -> Result<f64, Fault> {
    let Some(word) = library.value("time_unit") else { return Ok(1_000.0) };
    let digits = word.text.find(|c: char| !c.is_ascii_digit()).unwrap_or(word.text.len());
    let (count, unit) = word.text.split_at(digits);
    let scale = match unit.trim() {
        "ps" => Some(1.0),
        "ns" => Some(1_000.0),
        "us" => Some(1_000_000.0),
        _ => None,
    };
    let count = if count.is_empty() { Some(1.0) } else { count.parse::<f64>().ok() };
    let value = count.zip(scale).map(|(count, scale)| count * scale);
    value.ok_or_else(|| Fault {
        byte: word.byte,
        what: format!("`{}` is no unit of time such as 1ns or 10ps", word.text),
    })
}

/// The cell, or why it is left out.
fn usable(cell: &Group, templates: &Templates, point: Point, picoseconds: f64) -> Result<Usable, String> {
    const STATE: [(&str, &str); 7] = [
        ("ff", "register"),
        ("ff_bank", "register"),
        ("latch", "latch"),
        ("latch_bank", "latch"),
        ("statetable", "state table"),
        ("clock_gating_integrated_cell", "clock gate"),
        ("test_cell", "register"),
    ];
    if let Some((_, why)) = STATE.iter().find(|(group, _)| cell.has(group)) {
        return Err((*why).into());
    }
    if cell.is_true("pad_cell")
        || cell.is_true("auxiliary_pad_cell")
        || cell.all("pin").any(|pin| pin.is_true("is_pad"))
    {
        return Err("pad".into());
    }
    if cell.is_true("dont_use") {
        return Err("dont_use".into());
    }
    if cell.has("bus") || cell.has("bundle") {
        return Err("bus".into());
    }
    let outputs: Vec<&Group> = cell.all("pin").filter(|pin| !is_input(pin)).filter(|pin| !is_internal(pin)).collect();
    let [output] = outputs[..] else {
        return Err(if outputs.is_empty() { "no output".into() } else { "several outputs".into() });
    };
    if output.has("three_state") {
        return Err("tri-state".into());
    }
    if output.value("direction").is_some_and(|direction| direction.text == "inout") {
        return Err("bidirectional pin".into());
    }
    let Some(text) = output.value("function") else { return Err("no function".into()) };
    let function = function::read(&text.text).map_err(|why| format!("function `{}`: {why}", text.text))?;
    let names: Vec<&str> = cell
        .all("pin")
        .filter(|pin| is_input(pin))
        .flat_map(|pin| pin.arguments.iter().map(|name| name.text.as_str()))
        .collect();
    if let Some(unknown) = function.pins.iter().find(|pin| !names.contains(&pin.as_str())) {
        return Err(format!("its function names `{unknown}`, which is no input pin"));
    }
    // What genlib's readers would take for another word.
    let plain = |name: &str| {
        !name.is_empty()
            && name.bytes().all(|byte| byte.is_ascii_alphanumeric() || byte == b'_')
            && !matches!(name, "CONST0" | "CONST1")
    };
    if !cell.title().bytes().all(|byte| (b'!'..=b'~').contains(&byte) && byte != b'"') || cell.title().is_empty() {
        return Err("a name that genlib cannot have".into());
    }
    if !function.pins.iter().all(|pin| plain(pin)) {
        return Err("a pin's name that genlib cannot have".into());
    }
    let Some(expression) = function.genlib() else { return Err("more than four pins".into()) };
    let area = match cell.value("area") {
        None => 0,
        Some(word) => delay::number(&word.text)
            .and_then(|area| thousandths(area * 1_000.0))
            .ok_or("its area is not a number from 0")?,
    };
    let mut pins = Vec::new();
    for pin in function.pins {
        let mut delays = Vec::new();
        for timing in output.all("timing").filter(|timing| relates(timing, &pin)) {
            let delay = templates.delay(timing, point).map_err(|why| format!("no delay from pin {pin}: {why}"))?;
            delays.push(
                thousandths((delay * picoseconds).max(0.0))
                    .ok_or_else(|| format!("its delay from pin {pin} is too large"))?,
            );
        }
        let latest = delays.into_iter().max().ok_or_else(|| format!("no timing from pin {pin}"))?;
        pins.push((pin, latest));
    }
    let name = output.title();
    Ok(Usable { area, output: if plain(name) { name.into() } else { "O".into() }, expression, pins })
}

/// A figure rounded up to a whole number; what binary fractions add to a decimal one is not rounded up.
fn thousandths(figure: f64) -> Option<u64> {
    let up = (figure - 1e-6).ceil().max(0.0);
    (figure >= 0.0 && up <= 1e12).then_some(up as u64)
}

fn is_input(pin: &Group) -> bool {
    pin.value("direction").is_some_and(|direction| direction.text == "input")
}

fn is_internal(pin: &Group) -> bool {
    pin.value("direction").is_some_and(|direction| direction.text == "internal")
}

/// Whether a timing group is of a change at that pin.
fn relates(timing: &Group, pin: &str) -> bool {
    timing.value("related_pin").is_some_and(|word| word.text.split_whitespace().any(|name| name == pin))
}

fn written(name: &str, cell: &Usable) -> String {
    let figure = |n: u64| format!("{}.{:03}", n / 1_000, n % 1_000);
    let mut text = format!("GATE \"{name}\" {} {}={};\n", figure(cell.area), cell.output, cell.expression);
    for (pin, delay) in &cell.pins {
        let delay = figure(*delay);
        text += &format!("PIN {pin} UNKNOWN 1 999 {delay} 0 {delay} 0\n");
    }
    text
}

#[cfg(test)]
mod tests {
    use super::*;

    fn library(cells: &str) -> String {
        format!("library (l) {{ time_unit : \"100ps\";\n{cells}}}\n")
    }

    fn pin(name: &str) -> String {
        format!("pin ({name}) {{ direction : input; }}\n")
    }

    fn timing(pin: &str, rise: &str, fall: &str) -> String {
        format!("timing () {{ related_pin : \"{pin}\"; intrinsic_rise : {rise}; intrinsic_fall : {fall}; }}\n")
    }

    #[test]
    fn a_cell_with_its_area_function_and_delays() {
        let nand = format!(
            "cell (NAND2_X1) {{ area : 0.7981; {}{}pin (ZN) {{ direction : output; function : \"!(A1 & A2)\";\n{}{}{} }} }}\n",
            pin("A1"),
            pin("A2"),
            timing("A1", "0.11", "0.2"),
            timing("A1 A2", "0.105", "0.0"),
            timing("A2", "-3", "-4"),
        );
        let converted = convert(library(&nand).as_bytes(), Point::default()).expect("a library");
        // Delays in picoseconds, rounded up: 0.2 and 0.105 of 100 ps. A negative delay counts as 0.
        let expected = "GATE \"NAND2_X1\" 0.799 ZN=!A1*!A2+A1*!A2+!A1*A2;\n\
                        PIN A1 UNKNOWN 1 999 0.020 0 0.020 0\nPIN A2 UNKNOWN 1 999 0.011 0 0.011 0\n";
        assert_eq!(String::from_utf8_lossy(&converted.genlib), expected);
        assert_eq!(converted.place(40), library("").len() - 2);
    }

    #[test]
    fn what_is_no_gate_is_left_out_by_name() {
        let output = |words: &str| format!("pin (Q) {{ direction : output; {words} }}");
        let cells = [
            format!("cell (DFF) {{ ff (IQ, IQN) {{ }} {} }}", output("function : \"IQ\";")),
            format!("cell (LAT) {{ latch (IQ, IQN) {{ }} {} }}", output("function : \"IQ\";")),
            format!("cell (PAD) {{ pad_cell : true; {} }}", output("")),
            format!("cell (TBUF) {{ {}{} }}", pin("A"), output("function : \"A\"; three_state : \"B\";")),
            format!("cell (FILL) {{ }}"),
            format!(
                "cell (HA) {{ {}{}pin (S) {{ direction : output; function : \"A\"; }} }}",
                pin("A"),
                output("function : \"A\";")
            ),
            format!("cell (ANT) {{ {} }}", output("")),
            format!("cell (BAD) {{ {}{} }}", pin("A"), output("function : \"A+\";")),
            format!("cell (LOST) {{ {}{} }}", pin("A"), output("function : \"A\";")),
            format!("cell (FREE) {{ {} }}", output("function : \"Z\";")),
            format!("cell (\"a\\\"b\") {{ {} }}", output("function : \"1\";")),
            format!("cell (TIE) {{ area : 1; {} }}", output("function : \"1\";")),
        ];
        let converted = convert(library(&cells.join("\n")).as_bytes(), Point::default()).expect("a library");
        assert_eq!(String::from_utf8_lossy(&converted.genlib), "GATE \"TIE\" 1.000 Q=CONST1;\n");
        let expected = [
            ("a name that genlib cannot have", "a\"b"),
            ("function `A+`: it ends where a pin, a constant, `!` or `(` is expected", "BAD"),
            ("its function names `Z`, which is no input pin", "FREE"),
            ("latch", "LAT"),
            ("no function", "ANT"),
            ("no output", "FILL"),
            ("no timing from pin A", "LOST"),
            ("pad", "PAD"),
            ("register", "DFF"),
            ("several outputs", "HA"),
            ("tri-state", "TBUF"),
        ];
        let found: Vec<(&str, String)> =
            converted.left_out.iter().map(|(why, names)| (why.as_str(), names.join(" "))).collect();
        assert_eq!(found, expected.map(|(why, name)| (why, name.to_string())));
    }

    #[test]
    fn the_unit_of_time() {
        let of = |unit: &str| {
            time_unit(&syntax::parse(format!("library (l) {{ time_unit : \"{unit}\"; }}").as_bytes()).expect("in form"))
        };
        assert_eq!((of("1ns"), of("10ps"), of("1us")), (Ok(1_000.0), Ok(10.0), Ok(1_000_000.0)));
        assert!(of("1 hour").is_err());
        assert_eq!(convert(b"library (l) { }", Point::default()).map(|converted| converted.genlib.len()), Ok(0));
        assert_eq!(
            convert(b"cells (l) { }", Point::default()).map(drop),
            Err(Fault { byte: 0, what: "the text's group is not `library`".into() })
        );
    }
}
