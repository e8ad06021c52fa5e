//! The reader of genlib against the sentences of request N6, the making of texts
//! and a second reader.

use other::gen::Rng;
use other::genlib_checks::{self as checks, outcome};
use other::genlib_gen::expression_for_abc;
use other::{genlib, reference};
use std::process::Command;

fn passes(check: other::checks::Check) {
    match check {
        Ok(counts) => println!("{counts}"),
        Err(wrong) => panic!("{wrong}"),
    }
}

#[test]
fn edges() {
    passes(checks::edges());
}

#[test]
fn good() {
    passes(checks::good(4_000, 1));
}

#[test]
fn faults() {
    passes(checks::faults(20_000, 1));
}

#[test]
fn damage() {
    passes(checks::damage(20_000, 1));
}

/// The longer run: `cargo test -- --ignored`.
#[test]
#[ignore = "takes minutes"]
fn longer() {
    passes(checks::good(40_000, 2));
    passes(checks::faults(200_000, 2));
    passes(checks::damage(200_000, 2));
}

/// Runs where GRAPHS_DIR names a folder with genlibs.
#[test]
fn real() {
    match std::env::var_os("GRAPHS_DIR") {
        Some(folder) => passes(checks::real(folder.as_ref())),
        None => println!("no GRAPHS_DIR"),
    }
}

/// Where ABC is installed, it finds gates with random expressions equal to the
/// tables written for them.
#[test]
fn abc_reads_the_same_tables() {
    let found = ["berkeley-abc", "abc"].into_iter().find(|name| Command::new(name).arg("-h").output().is_ok());
    let Some(abc) = found else {
        println!("there is no ABC: neither berkeley-abc nor abc is on the path; nothing is compared with it");
        return;
    };
    const GATES: usize = 300;
    let mut rng = Rng::new(1);
    // ABC reads a netlist only with an inverter and a buffer beside it.
    let mut genlib =
        String::from("GATE inv 1 O=!a;\nPIN * INV 1 999 1 0 1 0\nGATE buf 1 O=a;\nPIN * INV 1 999 1 0 1 0\n");
    let ends = (0..GATES).map(|gate| format!(" y{gate}")).collect::<String>();
    let head = format!(".model top\n.inputs x_a x_b x_c x_d\n.outputs{ends}\n");
    let (mut gates, mut tables) = (head.clone(), head);
    for gate in 0..GATES {
        // ABC ends on a gate with pins whose value is always the same.
        let (expression, lines, count, table) = loop {
            let expression = expression_for_abc(&mut rng);
            let lines = format!("GATE g{gate} 1 O={expression};\n{PIN}");
            let cell = cells(&lines);
            let words: Vec<&str> = cell.split(' ').collect();
            let pins: usize = words[1].parse().expect("a number of pins");
            let table = u32::from_str_radix(words[2], 16).expect("a table");
            if table > 0 && table + 1 < 1 << (1 << pins) {
                break (expression, lines, pins, table);
            }
        };
        genlib += &lines;
        let mut pins: Vec<char> = Vec::new();
        for pin in expression.chars().filter(char::is_ascii_lowercase) {
            if !pins.contains(&pin) {
                pins.push(pin);
            }
        }
        let fed: String = pins.iter().map(|pin| format!(" {pin}=x_{pin}")).collect();
        gates += &format!(".gate g{gate}{fed} O=y{gate}\n");
        assert_eq!(pins.len(), count);
        let named: String = pins.iter().map(|pin| format!(" x_{pin}")).collect();
        tables += &format!(".names{named} y{gate}\n");
        for row in (0..1 << pins.len()).filter(|row| table >> row & 1 == 1) {
            let bits: String = (0..pins.len()).map(|pin| if row >> pin & 1 == 1 { '1' } else { '0' }).collect();
            tables += &format!("{bits} 1\n");
        }
    }
    let folder = std::env::temp_dir().join(format!("genlib-{}", std::process::id()));
    std::fs::create_dir_all(&folder).expect("a folder");
    for (name, text) in [("g.genlib", genlib), ("gates.blif", gates + ".end\n"), ("tables.blif", tables + ".end\n")] {
        std::fs::write(folder.join(name), text).expect("a text");
    }
    let script = "read_genlib g.genlib; read_blif gates.blif; cec tables.blif";
    let told = Command::new(abc).args(["-s", "-c", script]).current_dir(&folder).output().expect("ABC runs");
    let said = String::from_utf8_lossy(&told.stdout).into_owned() + &String::from_utf8_lossy(&told.stderr);
    assert!(said.contains("Networks are equivalent"), "texts in {}\n{said}", folder.display());
    std::fs::remove_dir_all(&folder).expect("the folder goes");
    println!("{abc} reads {GATES} expressions as the tables written");
}

/// The cell lines after the names line.
fn cells(text: &str) -> String {
    let written = outcome(text.as_bytes()).unwrap_or_else(|refusal| panic!("{refusal:?}: {text:?}"));
    let written = String::from_utf8(written).expect("text");
    written.strip_prefix("cell pins table area d0 d1 d2 d3\n").expect("the names line").to_string()
}

fn refused(text: &str) -> (u32, usize) {
    outcome(text.as_bytes()).expect_err(text)
}

/// The cell line of a gate `g` of area 1 with this expression and `PIN *` of 2.
fn of(expression: &str) -> String {
    cells(&format!("GATE g 1 O={expression};\n{PIN}"))
}

const PIN: &str = "PIN * INV 1 999 2 0 2 0\n";

/// "Read GATE and PIN lines and write our cell text."
#[test]
fn gate_and_pin_lines() {
    let genlib = "GATE inv 1 O=!A;\nPIN A INV 1 999 10 0 10 0\nGATE nand2 2 O=!(A*B);\nPIN A INV 1 999 20 0 20 0\nPIN B INV 1 999 20 0 20 0\n";
    assert_eq!(cells(genlib), "inv 1 0001 1000 10000 0 0 0\nnand2 2 0007 2000 20000 20000 0 0\n");
    assert_eq!(cells(""), "", "an empty text writes the names line alone");
    for line in ["LATCH l 1 Q=D;\n", "# remark\n", "INPUT a\n", "gate g 1 O=A;\n", "GATES\n"] {
        assert_eq!(refused(line), (22, 0));
        assert_eq!(refused(&format!("GATE t 1 O=CONST0;\n{line}")), (22, 0));
    }
}

/// "A GATE line has name, area, output, `=`, expression, `;`"
#[test]
fn a_gate_line() {
    assert_eq!(cells("GATE t 1 O=CONST0;\n"), "t 0 0000 1000 0 0 0 0\n");
    for line in [
        "GATE 1 O=CONST0;",
        "GATE t O=CONST0;",
        "GATE t 1 =CONST0;",
        "GATE t 1 O CONST0;",
        "GATE t 1 O=;",
        "GATE t 1 O=CONST0",
        "GATE t 1 O=CONST0;;",
        "GATE t 1 O=CONST0; PIN * INV 1 1 1 1 1 1",
        "GATE t 1 O=CONST0;#",
        "GATE t 1 O P=CONST0;",
        "GATE t 1 2 O=CONST0;",
        "GATE t x O=CONST0;",
        "GATE",
        "GATE=",
        "GATE.t 1 O=CONST0;",
    ] {
        assert_eq!(refused(&format!("{line}\n")), (22, 0), "{line}");
    }
    // The output may have any name, a pin's too.
    assert_eq!(cells(&format!("GATE t 1 a=a;\n{PIN}")), "t 1 0002 1000 2000 0 0 0\n");
    assert_eq!(cells("GATE t 1 CONST1=CONST0;\n"), "t 0 0000 1000 0 0 0 0\n");
}

/// "a PIN line name, phase, two loads, then block and fanout delay for rise, then
/// for fall"
#[test]
fn a_pin_line() {
    let with = |line: &str| outcome(format!("GATE b 1 O=A;\n{line}\n").as_bytes());
    assert_eq!(cells("GATE b 1 O=A;\nPIN A NONINV 1 2 3 4 5 6\n"), "b 1 0002 1000 5000 0 0 0\n");
    assert_eq!(cells("GATE b 1 O=A;\nPIN A NONINV 1 2 5 4 3 6\n"), "b 1 0002 1000 5000 0 0 0\n");
    for line in [
        "PIN A NONINV 1 2 3 4 5",
        "PIN A NONINV 1 2 3 4 5 6 7",
        "PIN A 1 2 3 4 5 6",
        "PIN NONINV 1 2 3 4 5 6",
        "PIN A NONINV 1 2 3 4 5 x",
        "PIN A NONINV 1 2 3 4 5 6;",
        "PIN A B NONINV 1 2 3 4 5 6",
        "PIN A * 1 2 3 4 5 6",
    ] {
        assert_eq!(with(line), Err((22, 0)), "{line}");
    }
    assert!(with("PIN A 7 1 2 3 4 5 6").is_ok(), "the phase is any name");
}

/// "The expression has any number of `!` before a factor and of `'` after it, `*`,
/// `+`, brackets, CONST0 and CONST1"
#[test]
fn signs() {
    assert_eq!(of("a"), "g 1 0002 1000 2000 0 0 0\n");
    assert_eq!((of("!a"), of("a'")), (of("a'"), of("!!!a")));
    assert_eq!((of("!!a"), of("a''"), of("!a'")), (of("a"), of("a"), of("a")));
    assert_eq!(of("!a*b"), "g 2 0004 1000 2000 2000 0 0\n", "`!` is the factor's");
    assert_eq!(of("a*b'"), "g 2 0002 1000 2000 2000 0 0\n", "`'` is the factor's");
    assert_eq!(of("(a*b)'"), "g 2 0007 1000 2000 2000 0 0\n");
    assert_eq!((of("CONST0"), of("CONST1")), ("g 0 0000 1000 0 0 0 0\n".into(), "g 0 0001 1000 0 0 0 0\n".into()));
    assert_eq!(of("a*CONST1"), of("a"));
    assert_eq!(of("CONST2"), of("a"), "every other name is a pin");
    assert_eq!((of("0"), of("1"), of("const0")), (of("a"), of("a"), of("a")));
}

/// "a sum is made of products, a product of factors, and a bracketed factor of a
/// sum again"
#[test]
fn sums_products_factors() {
    assert_eq!(of("a+b*c"), "g 3 00ea 1000 2000 2000 2000 0\n");
    assert_eq!(of("(a+b)*c"), "g 3 00e0 1000 2000 2000 2000 0\n");
    assert_eq!(of("a*b+c*d"), "g 4 f888 1000 2000 2000 2000 2000\n");
    assert_eq!(of("!(a+!(b*(c+d')))"), "g 4 4044 1000 2000 2000 2000 2000\n");
    for broken in ["a b", "a(b)", "(a)(b)", "()", "a+", "*a", "a'b", "(a", "a)", "!", "a!b"] {
        assert_eq!(refused(&format!("GATE g 1 O={broken};\n{PIN}")), (22, 0), "{broken}");
    }
}

/// "Pins take their order of first appearance."
#[test]
fn order_of_pins() {
    let pins = "PIN a X 1 1 1 1 1 1\nPIN b X 1 1 2 1 2 1\nPIN c X 1 1 3 1 3 1\n";
    assert_eq!(cells(&format!("GATE g 1 O=c*!a+b;\n{pins}")), "g 3 00f2 1000 3000 1000 2000 0\n");
    assert_eq!(cells(&format!("GATE g 1 O=b+c*!a;\n{pins}")), "g 3 00ae 1000 2000 3000 1000 0\n");
    assert_eq!(cells(&format!("GATE g 1 O=a*a*a;\n{pins}")), "g 1 0002 1000 1000 0 0 0\n");
    // In the expression: the output's name comes first in the line and is none.
    assert_eq!(cells(&format!("GATE g 1 c=b*c;\n{pins}")), "g 2 0008 1000 2000 3000 0 0\n");
}

/// "`PIN *` fits all pins; the first that fits counts."
#[test]
fn the_first_that_fits() {
    let with = |lines: &[&str]| {
        let lines: String = lines.iter().map(|line| format!("PIN {line} 0\n")).collect();
        cells(&format!("GATE g 1 O=a*b;\n{lines}"))
    };
    let (star, a, b) = ("* X 1 1 9 0 9", "a X 1 1 1 0 1", "b X 1 1 2 0 2");
    assert_eq!(with(&[star]), "g 2 0008 1000 9000 9000 0 0\n");
    assert_eq!(with(&[a, star]), "g 2 0008 1000 1000 9000 0 0\n");
    assert_eq!(with(&[star, a, b]), "g 2 0008 1000 9000 9000 0 0\n");
    assert_eq!(with(&[b, star, a]), "g 2 0008 1000 9000 2000 0 0\n");
    assert_eq!(with(&[b, a, "a X 1 1 7 0 7", "b X 1 1 7 0 7"]), "g 2 0008 1000 1000 2000 0 0\n");
    // The star is a sign: blanks beside it are free.
    assert_eq!(with(&["*X 1 1 9 0 9"]), with(&[star]));
    assert_eq!(cells("GATE g 1 O=a;\nPIN*INV 1 1 1 1 1 1\n"), "g 1 0002 1000 1000 0 0 0\n");
}

/// "A pin's delay is the larger of its rise and fall block delays; it and the area
/// are in thousandths"
#[test]
fn delays_and_area() {
    let with = |rise: &str, fall: &str| cells(&format!("GATE g 1.5 O=a;\nPIN a X 1 1 {rise} 7 {fall} 8\n"));
    assert_eq!(with("1.25", "0.999"), "g 1 0002 1500 1250 0 0 0\n");
    assert_eq!(with("1.25", "1.251"), "g 1 0002 1500 1251 0 0 0\n");
    assert_eq!(with("0", "0"), "g 1 0002 1500 0 0 0 0\n");
    assert_eq!(with("12", "0012.000"), "g 1 0002 1500 12000 0 0 0\n");
}

/// "the phase (any name), other figures and PIN lines that count for no pin are
/// unused"
#[test]
fn unused_figures() {
    let large = "99999999999999999999.99999";
    let text = format!("GATE g 1 O=a;\nPIN z P {large} {large} {large} {large} {large} {large}\nPIN a P {large} {large} 1 {large} 1 {large}\nPIN * P 1 1 {large} 1 {large} 1\n");
    assert_eq!(cells(&text), "g 1 0002 1000 1000 0 0 0\n");
    let tie = format!("GATE t 1 O=CONST1;\nPIN * P 1 1 {large} 1 {large} 1\n");
    assert_eq!(cells(&tie), "t 0 0001 1000 0 0 0 0\n", "a gate without pins");
    // Unused, but in form.
    assert_eq!(refused("GATE t 1 O=CONST1;\nPIN * P 1 1 1. 1 1 1\n"), (22, 0));
}

/// "Names are of letters, digits and underscores, figures of digits with or without
/// a point and more digits."
#[test]
fn names_and_figures() {
    assert_eq!(cells(&format!("GATE 9_z 01.50 _=_1;\n{PIN}")), "9_z 1 0002 1500 2000 0 0 0\n");
    assert_eq!(cells("GATE GATE 1 PIN=CONST0;\n"), "GATE 0 0000 1000 0 0 0 0\n");
    for figure in ["1.", ".5", ".", "1.2.3", "-1", "+1", "1e3", "1,5", "1_0"] {
        assert_eq!(refused(&format!("GATE g {figure} O=CONST0;\n")), (22, 0), "{figure}");
    }
    for name in ["a.b", "a-b", "a[0]", "a/b", "\u{e9}"] {
        assert_eq!(refused(&format!("GATE {name} 1 O=CONST0;\n")), (22, 0), "{name}");
        assert_eq!(refused(&format!("GATE g 1 O={name};\n{PIN}")), (22, 0), "{name}");
    }
    // Names of any length and any number of gates; 3 to 6 come when the text is read.
    let many = format!("GATE a_name_of_19_bytes 1 O=CONST0;\n{}", "GATE a 1 O=CONST0;\n".repeat(40));
    let written = outcome(many.as_bytes()).expect("written");
    assert_eq!(reference::read_library(&written).map_err(|refusal| refusal.number), Err(4));
    let same = outcome("GATE a 1 O=CONST0;\n".repeat(40).as_bytes()).expect("written");
    assert_eq!(reference::read_library(&same).map_err(|refusal| refusal.number), Err(5));
}

/// "Spaces or tabs part words and may stand beside signs and at a line's ends;
/// lines end as in N5."
#[test]
fn blanks_and_line_ends() {
    let plain = cells("GATE g 1 O=!a*(b+c');\nPIN * X 1 1 1 1 1 1\n");
    let spaced = " \tGATE\t g  1\tO = ! a * ( b + c ' ) ; \t\r\n\tPIN\t*\tX 1 1 1 1 1 1\t\n";
    assert_eq!(cells(spaced), plain);
    assert_eq!(cells("GATE g 1 O=!a*(b+c');\r\nPIN*X 1 1 1 1 1 1\r\n"), plain);
    for text in [
        "GATE g1 O=CONST0;\n",
        "GATEg 1 O=CONST0;\n",
        "GATE g 1O=CONST0;\n",
        "GATE\u{b}g 1 O=CONST0;\n",
        "GATE g 1 O=CONST0;\r\r\n",
        "GATE g 1 O=CONST0;\r",
        "GATE g 1 O=CONST0;",
        "GATE g\r1 O=CONST0;\n",
        "GATE g 1 O=CONST0;\n\r\n",
        "GATE g 1 O=CONST0;\n\r",
    ] {
        assert_eq!(refused(text), (22, 0), "{text:?}");
    }
}

/// "The written table must equal the expression in its 2^pins rows and be 0 above,
/// like absent pins' delays."
#[test]
fn tables() {
    assert_eq!(of("CONST1"), "g 0 0001 1000 0 0 0 0\n");
    assert_eq!(of("a+a'"), "g 1 0003 1000 2000 0 0 0\n");
    assert_eq!(of("a+a'+b"), "g 2 000f 1000 2000 2000 0 0\n");
    assert_eq!(of("a+a'+b+c"), "g 3 00ff 1000 2000 2000 2000 0\n");
    assert_eq!(of("a+a'+b+c+d"), "g 4 ffff 1000 2000 2000 2000 2000\n");
}

/// "1 to 6 are tried when the written text is read, not here." "1 is tried first,
/// on the genlib text"
#[test]
fn one_is_tried_first() {
    let text = |length: usize| format!("GATE t 1 O=CONST0;{}\n", " ".repeat(length - 19));
    assert_eq!(cells(&text(65_536)), "t 0 0000 1000 0 0 0 0\n");
    assert_eq!(refused(&text(65_537)), (1, 0));
    assert_eq!(refused(&"x".repeat(65_537)), (1, 0));
    assert_eq!(refused(&"x".repeat(65_536)), (22, 0));
    // The written text may be longer than 65,536 bytes.
    let grows = "GATE a 9 O=CONST1;\n".repeat(3_400);
    let written = outcome(grows.as_bytes()).expect("written");
    assert!(grows.len() < 65_536 && written.len() > 65_536);
}

/// "18 last for this memory; a refusal leaves it unchanged. Success, here and for
/// later written texts, returns 0 and the length"
#[test]
fn eighteen_last() {
    let good = b"GATE t 1 O=CONST0;\n";
    let length = 33 + 22;
    let answer = |genlib: &[u8], memory| {
        let (answer, text) = genlib::cells(genlib, memory);
        (answer.number, answer.value, text.len())
    };
    assert_eq!(answer(good, length), (0, length as u32, length));
    assert_eq!(answer(good, length + 9), (0, length as u32, length));
    assert_eq!(answer(good, length - 1), (18, length as u32, 0));
    assert_eq!(answer(b"", 33), (0, 33, 33));
    assert_eq!(answer(b"", 32), (18, 33, 0));
    assert_eq!(answer(b"GATE t 66 O=CONST0;\n", 0), (24, 0, 0));
    assert_eq!(answer(b"\n", 0), (22, 0, 0));
}

/// "22 when a line, even an empty one, breaks this form, a PIN line precedes every
/// GATE or a pin has no PIN line"
#[test]
fn twenty_two() {
    let tie = "GATE t 1 O=CONST0;\n";
    assert_eq!(refused("\n"), (22, 0));
    assert_eq!(refused(&format!("{tie}\n")), (22, 0));
    assert_eq!(refused(&format!("{tie}{tie} \t\n{tie}")), (22, 19));
    assert_eq!(refused(&format!("PIN * X 1 1 1 1 1 1\n{tie}")), (22, 0));
    assert_eq!(refused(&format!("{tie}GATE g 1 O=a;\n")), (22, 19));
    assert_eq!(refused(&format!("{tie}GATE g 1 O=a*b;\nPIN a X 1 1 1 1 1 1\n{tie}")), (22, 19));
    // A PIN line of another gate doesn't count.
    assert_eq!(refused("GATE g 1 O=a;\nGATE h 1 O=a;\nPIN a X 1 1 1 1 1 1\n"), (22, 0));
    // A line without its end, in its own group if it begins one.
    assert_eq!(refused(&format!("{tie}GATE g 1 O=CONST0;")), (22, 19));
    assert_eq!(refused(&format!("{tie}GATE")), (22, 19));
    assert_eq!(refused(&format!("{tie}GAT")), (22, 0));
    assert_eq!(refused(&format!("{tie}PIN * X 1 1 1 1 1 1")), (22, 0));
    assert_eq!(refused(&format!("{tie}  GATE")), (22, 19), "its blanks belong to the line");
}

/// "23 when a gate has over four pins or brackets over 16 deep"
#[test]
fn twenty_three() {
    let brackets = |times: usize| format!("{}a{}", "(".repeat(times), ")".repeat(times));
    let gate = |expression: &str| format!("GATE t 1 O=CONST0;\nGATE g 1 O={expression};\n{PIN}");
    assert!(outcome(gate("a*b*c*d").as_bytes()).is_ok());
    assert_eq!(refused(&gate("a*b*c*d*e")), (23, 19));
    assert!(outcome(gate(&brackets(16)).as_bytes()).is_ok());
    assert_eq!(refused(&gate(&brackets(17))), (23, 19));
    assert_eq!(refused(&gate(&brackets(20_000))), (23, 19));
    // 22 first, at any depth and any number of pins.
    assert_eq!(refused(&gate(&(brackets(17) + "*"))), (22, 19));
    assert_eq!(refused("GATE g 1 O=a*b*c*d*e;\nPIN a X 1 1 1 1 1 1\n"), (22, 0));
    assert_eq!(refused(&(gate(&brackets(17)) + "\n")), (22, 19));
}

/// "24 when a used figure has over three decimals or exceeds 65.535"
#[test]
fn twenty_four() {
    let area = |figure: &str| outcome(format!("GATE t {figure} O=CONST0;\n").as_bytes()).map_err(|(number, _)| number);
    assert!(area("65.535").is_ok() && area("0.001").is_ok() && area("000000065.535").is_ok());
    for figure in ["65.536", "66", "65.5350", "0.0000", "1000", "0.0001", "99999999999999999999999999999999999999999"] {
        assert_eq!(area(figure), Err(24), "{figure}");
    }
    for (rise, fall) in [("66", "1"), ("1", "66"), ("1.0000", "1"), ("1", "1.0000")] {
        assert_eq!(refused(&format!("GATE g 1 O=a;\nPIN a X 1 1 {rise} 1 {fall} 1\n")), (24, 0));
    }
    // After 22 and 23.
    assert_eq!(refused(&format!("GATE g 66 O=a*b*c*d*e;\n{PIN}")), (23, 0));
    assert_eq!(refused("GATE g 66 O=a;\n"), (22, 0));
}

/// "tried in this order, gate by gate with the lines up to the next GATE, at the
/// GATE line's offset (a line before the first, its own)"
#[test]
fn gate_by_gate() {
    let (large, wide, broken) = ("GATE a 66 O=CONST0;\n", format!("GATE b 1 O=a+b+c+d+e;\n{PIN}"), "GATE c 1 O=;\n");
    assert_eq!(refused(&format!("GATE t 1 O=CONST0;\r\n{large}{wide}{broken}")), (24, 20));
    assert_eq!(refused(&format!("{wide}{large}{broken}")), (23, 0));
    assert_eq!(refused(&format!("GATE t 1 O=CONST0;\n{broken}{large}{wide}")), (22, 19));
    // The place is the GATE line's, also for a fault in a later line of its own.
    assert_eq!(refused("GATE t 1 O=CONST0;\nGATE g 1 O=a;\nPIN a X 1 1 66 1 1 1\n"), (24, 19));
    assert_eq!(refused("GATE t 1 O=CONST0;\n\tGATE g 1 O=a;\nPIN a X 1 1 1 1 1 1\nx\n"), (22, 19));
    assert_eq!(refused("x\nGATE t 66 O=CONST0;\n"), (22, 0));
}
