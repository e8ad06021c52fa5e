//! Cells as genlib, for ABC, and as Verilog, for yosys and simulators.

use crate::cells::{pin, Cell};
use std::{cmp::Reverse, fmt::Write};

/// A gate without area and delay, for the `.names` lines of a netlist. No cell of a library has so long a name.
const WIRE: &str = "GATE netlist_wire 0 O=A;\nPIN A NONINV 1 999 0 0 0 0\n";

/// The cells as genlib: figures as they are, or as thousandths, as foundries give them; with the gate for `.names` lines, or without.
pub fn genlib(cells: &[Cell], thousandths: bool, wire: bool) -> String {
    let figure = |n: u32| match thousandths {
        true => format!("{}.{:03}", n / 1_000, n % 1_000),
        false => n.to_string(),
    };
    let mut text = String::new();
    for cell in cells {
        let _ = writeln!(text, "GATE {} {} O={};", cell.name, figure(cell.area), expression(cell));
        for (k, &delay) in cell.delays.iter().enumerate() {
            let delay = figure(delay);
            let _ = writeln!(text, "PIN {} UNKNOWN 1 999 {delay} 0 {delay} 0", pin(k));
        }
    }
    if wire {
        text.push_str(WIRE);
    }
    text
}

/// The cells as Verilog modules, with pins `A` to `D` and output `O`, as in the netlist.
pub fn verilog(cells: &[Cell]) -> String {
    let module = |cell: &Cell| {
        let pins: Vec<String> = (0..cell.pins()).map(|k| pin(k).to_string()).collect();
        verilog_module(&cell.name, &pins, "O", cell.table)
    };
    cells.iter().map(module).collect()
}

/// A cell as a Verilog module. Its name is escaped: `buf` is a word of Verilog; a pin's, where it is no plain one.
pub fn verilog_module(name: &str, pins: &[String], output: &str, table: u16) -> String {
    let plain = |name: &str| {
        let letters = name.bytes().all(|byte| byte.is_ascii_alphanumeric() || byte == b'_');
        // Words of Verilog are of small letters.
        let no_word = name.bytes().next().is_some_and(|first| first.is_ascii_uppercase());
        if letters && no_word {
            name.to_string()
        } else {
            format!("\\{name} ")
        }
    };
    let pins: Vec<String> = pins.iter().map(|pin| plain(pin)).collect();
    let inputs: String = pins.iter().map(|pin| format!("input {pin}, ")).collect();
    let (output, words) = (plain(output), verilog_expression(table, &pins));
    format!("module \\{name} ({inputs}output {output});\n    assign {output} = {words};\nendmodule\n")
}

/// An expression for a table as a person writes it, as `~(A & B)`: of a sum of products, a product of sums and the complements of such, the one with the
/// fewest complements. All prime products stand in it: then a simulator gives x just where the value depends on a pin that is x, and a change of one pin
/// that does not change the value shows none.
fn verilog_expression(table: u16, pins: &[String]) -> String {
    let all = (((1u32 << (1 << pins.len())) - 1) & 0xffff) as u16;
    match table & all {
        0 => return "1'b0".into(),
        table if table == all => return "1'b1".into(),
        _ => {}
    }
    let (on, off) = (primes(table, pins.len()), primes(!table & all, pins.len()));
    let letters = |words: &String| words.chars().filter(char::is_ascii_uppercase).count();
    let forms = forms(&on, &off).into_iter();
    let Some(shortest) = forms.min_by_key(|words| (words.matches('!').count(), letters(words))) else {
        return String::new();
    };
    let mut words = String::new();
    for sign in shortest.chars() {
        match sign {
            '*' => words.push_str(" & "),
            '+' => words.push_str(" | "),
            '!' => words.push('~'),
            letter if letter.is_ascii_uppercase() => words.push_str(&pins[letter as usize - 'A' as usize]),
            bracket => words.push(bracket),
        }
    }
    words
}

/// A product of pins: those that it has, and those of them that it takes as they are.
#[derive(Clone, Copy, PartialEq, Eq)]
struct Product {
    pins: usize,
    plain: usize,
}

impl Product {
    fn holds(self, row: usize) -> bool {
        (row ^ self.plain) & self.pins == 0
    }
}

/// The products that hold in rows of the table alone.
fn implicants(table: u16, pins: usize) -> Vec<Product> {
    let rows = 1 << pins;
    let on = |row: usize| table >> row & 1 == 1;
    (0..rows)
        .flat_map(|set| (0..rows).filter(move |plain| plain & !set == 0).map(move |plain| Product { pins: set, plain }))
        .filter(|product| (0..rows).all(|row| on(row) || !product.holds(row)))
        .collect()
}

/// Those of them that hold in more rows than any with a pin more.
fn primes(table: u16, pins: usize) -> Vec<Product> {
    let good = implicants(table, pins);
    let wider = |one: &Product, other: &Product| {
        other != one && other.pins & !one.pins == 0 && other.plain == one.plain & other.pins
    };
    let mut primes: Vec<Product> =
        good.iter().filter(|one| !good.iter().any(|other| wider(one, other))).copied().collect();
    in_their_order(&mut primes);
    primes
}

/// Those with the first pins first.
fn in_their_order(products: &mut [Product]) {
    products.sort_by_key(|product| Reverse(product.pins.reverse_bits()));
}

/// Products that together hold in just the rows of the table: first those with the fewest pins.
fn products(table: u16, pins: usize) -> Vec<Product> {
    let rows = 1 << pins;
    let mut good = implicants(table, pins);
    good.sort_by_key(|product| product.pins.count_ones());
    let mut chosen: Vec<Product> = Vec::new();
    // Of the products with the fewest pins, the one that holds in the most rows still open, until none is open.
    while let Some(best) = {
        let open = |product: &Product| {
            (0..rows).filter(|&row| product.holds(row) && !chosen.iter().any(|other| other.holds(row))).count()
        };
        good.iter().rev().max_by_key(|product| open(product)).copied().filter(|product| open(product) > 0)
    } {
        chosen.push(best);
    }
    in_their_order(&mut chosen);
    chosen
}

/// The products with `*` between pins and `+` between products; or, exchanged and each pin complemented, the complement of that.
fn joined(products: &[Product], exchanged: bool) -> String {
    let (inner, outer) = if exchanged { ('+', "*") } else { ('*', "+") };
    let term = |product: &Product| {
        let plain = if exchanged { !product.plain } else { product.plain };
        let pins: Vec<String> = (0..4)
            .filter(|k| product.pins >> k & 1 == 1)
            .map(|k| format!("{}{}", if plain >> k & 1 == 1 { "" } else { "!" }, pin(k)))
            .collect();
        let bracketed = exchanged && pins.len() > 1 && products.len() > 1;
        let term = pins.join(&inner.to_string());
        if bracketed {
            format!("({term})")
        } else {
            term
        }
    };
    products.iter().map(term).collect::<Vec<_>>().join(outer)
}

/// A sum of products, a product of sums and the complements of such, of the products of a table and of its complement; the one with the fewest `!` first.
fn forms(on: &[Product], off: &[Product]) -> Vec<String> {
    let complement = |words: String| if words.len() == 1 { format!("!{words}") } else { format!("!({words})") };
    let mut forms =
        vec![joined(on, false), complement(joined(off, false)), complement(joined(on, true)), joined(off, true)];
    forms.sort_by_key(|words| (words.matches('!').count(), words.len()));
    forms
}

/// Every pin stands in it, and they stand first in the order of the alphabet: readers of genlib take the order of pins from there.
fn in_order(words: &str, pins: usize) -> bool {
    let mut seen = Vec::new();
    for letter in words.chars().filter(char::is_ascii_uppercase) {
        if !seen.contains(&letter) {
            seen.push(letter);
        }
    }
    seen == (0..pins).map(pin).collect::<Vec<_>>()
}

/// An expression for the cell's table: of a sum of products, a product of sums and the complements of such, the one with the fewest `!`; or
/// else the sum of its rows.
pub fn expression(cell: &Cell) -> String {
    let pins = cell.pins();
    let all = (((1u32 << (1 << pins)) - 1) & 0xffff) as u16;
    if pins == 0 {
        return format!("CONST{}", cell.table & 1);
    }
    let every: Vec<String> = (0..pins).map(|k| pin(k).to_string()).collect();
    if cell.table == 0 {
        return format!("!A*{}", every.join("*"));
    }
    if cell.table == all {
        return format!("!A+{}", every.join("+"));
    }
    let mut forms = forms(&products(cell.table, pins), &products(!cell.table & all, pins));
    let rows = (0..1usize << pins).filter(|row| cell.table >> row & 1 == 1);
    forms.push(joined(&rows.map(|row| Product { pins: (1 << pins) - 1, plain: row }).collect::<Vec<_>>(), false));
    forms.into_iter().find(|words| in_order(words, pins)).unwrap_or_default()
}

#[cfg(test)]
mod tests {
    use super::*;

    /// The value of an expression in a row, and what is left behind it.
    fn sum(mut words: &str, row: usize) -> (bool, &str) {
        let mut value = false;
        loop {
            let (mut product, mut rest) = factor(words, row);
            while let Some(next) = rest.strip_prefix('*') {
                let (value, after) = factor(next, row);
                (product, rest) = (product & value, after);
            }
            value |= product;
            match rest.strip_prefix('+') {
                Some(next) => words = next,
                None => return (value, rest),
            }
        }
    }

    fn factor(words: &str, row: usize) -> (bool, &str) {
        if let Some(rest) = words.strip_prefix('!') {
            let (value, rest) = factor(rest, row);
            (!value, rest)
        } else if let Some(rest) = words.strip_prefix('(') {
            let (value, rest) = sum(rest, row);
            (value, rest.strip_prefix(')').expect("a closing bracket"))
        } else {
            (row >> (words.as_bytes()[0] - b'A') & 1 == 1, &words[1..])
        }
    }

    #[test]
    fn every_table_has_its_expression() {
        for pins in 1..=4 {
            for table in 0..1u32 << (1 << pins) {
                let cell = Cell { name: "c".into(), table: table as u16, area: 0, delays: vec![0; pins] };
                let words = expression(&cell);
                assert!(in_order(&words, pins), "{pins} {table:04x} {words}");
                for row in 0..1 << pins {
                    assert_eq!(sum(&words, row), (table >> row & 1 == 1, ""), "{pins} {table:04x} {words}");
                }
            }
        }
    }

    /// The value of a Verilog expression where pins may be x.
    fn value(words: &str, pins: &[Option<bool>]) -> Option<bool> {
        // Of an expression that is in the same signs the value in every row of the open pins, by its own signs' rules for x.
        fn total(words: &mut &str, pins: &[Option<bool>]) -> Option<bool> {
            let mut value = product(words, pins);
            while let Some(rest) = words.strip_prefix('|') {
                *words = rest;
                value = match (value, product(words, pins)) {
                    (Some(true), _) | (_, Some(true)) => Some(true),
                    (Some(false), Some(false)) => Some(false),
                    _ => None,
                };
            }
            value
        }
        fn product(words: &mut &str, pins: &[Option<bool>]) -> Option<bool> {
            let mut value = one(words, pins);
            while let Some(rest) = words.strip_prefix('&') {
                *words = rest;
                value = match (value, one(words, pins)) {
                    (Some(false), _) | (_, Some(false)) => Some(false),
                    (Some(true), Some(true)) => Some(true),
                    _ => None,
                };
            }
            value
        }
        fn one(words: &mut &str, pins: &[Option<bool>]) -> Option<bool> {
            if let Some(rest) = words.strip_prefix('~') {
                *words = rest;
                return one(words, pins).map(|value| !value);
            }
            if let Some(rest) = words.strip_prefix('(') {
                *words = rest;
                let value = total(words, pins);
                *words = words.strip_prefix(')').expect("a closing bracket");
                return value;
            }
            let letter = words.as_bytes()[0];
            *words = &words[1..];
            pins[usize::from(letter - b'A')]
        }
        match words {
            "1'b0" => Some(false),
            "1'b1" => Some(true),
            _ => total(&mut words.replace(' ', "").as_str(), pins),
        }
    }

    #[test]
    fn a_model_is_x_where_its_value_is_open_and_nowhere_else() {
        for pins in 1..=4usize {
            let names: Vec<String> = (0..pins).map(|k| pin(k).to_string()).collect();
            for table in (0..1u32 << (1 << pins)).step_by(if pins == 4 { 251 } else { 1 }) {
                let words = verilog_expression(table as u16, &names);
                for setting in 0..3usize.pow(pins as u32) {
                    let digit = |k: usize| setting / 3usize.pow(k as u32) % 3;
                    let open: Vec<Option<bool>> =
                        (0..pins).map(|k| [Some(false), Some(true), None][digit(k)]).collect();
                    let fits = |row: usize| (0..pins).all(|k| open[k].is_none_or(|bit| bit == (row >> k & 1 == 1)));
                    let rows: Vec<bool> =
                        (0..1 << pins).filter(|row| fits(*row)).map(|row| table >> row & 1 == 1).collect();
                    let due = rows.iter().all(|row| *row == rows[0]).then(|| rows[0]);
                    assert_eq!(value(&words, &open), due, "{pins} {table:04x} {words} {open:?}");
                }
            }
        }
    }

    #[test]
    fn models_read_as_a_person_writes_them() {
        let of = |pins: &[&str], table| {
            verilog_expression(table, &pins.iter().map(|pin| pin.to_string()).collect::<Vec<_>>())
        };
        assert_eq!(of(&["A"], 0x0001), "~A");
        assert_eq!(of(&["A1", "\\b[0] "], 0x0007), "~(A1 & \\b[0] )");
        assert_eq!(of(&["A", "B", "C"], 0x001f), "~((A | B) & C)");
        assert_eq!(of(&["A", "B", "C"], 0x00e2), "A & ~B | A & C | B & C");
    }

    #[test]
    fn expressions_read_as_cells_do() {
        let of = |pins, table| expression(&Cell { name: "c".into(), table, area: 0, delays: vec![0; pins] });
        assert_eq!(of(0, 1), "CONST1");
        assert_eq!(of(1, 0x0001), "!A");
        assert_eq!(of(1, 0x0002), "A");
        assert_eq!(of(2, 0x0007), "!(A*B)");
        assert_eq!(of(2, 0x0001), "!(A+B)");
        assert_eq!(of(2, 0x0006), "A*!B+!A*B");
        assert_eq!(of(3, 0x001f), "!((A+B)*C)");
        assert_eq!(of(3, 0x00e8), "A*B+A*C+B*C");
    }
}
