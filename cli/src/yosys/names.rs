//! Names that a library may have and Verilog may not.

use crate::{foundry::Gate, lines::shown};

/// Why a library's names cannot stand in Verilog, in words.
pub fn unfit(gates: &[Gate]) -> Option<String> {
    gates.iter().find_map(|gate| {
        let cell = shown(gate.name.as_bytes());
        if gate.pins.contains(&gate.output) {
            let pin = shown(gate.output.as_bytes());
            return Some(format!("cell `{cell}`: its output `{pin}` has the name of its input `{pin}`: rename one of them"));
        }
        let all = [&gate.name, &gate.output].into_iter().chain(&gate.pins);
        let bad = all.into_iter().find(|name| !is_name(name))?;
        let bad = shown(bad.as_bytes());
        Some(format!("cell `{cell}`: no Verilog reader takes the name `{bad}`: rename it without blanks, `\\`, `#`, `=` and a first `$`"))
    })
}

/// A word that Verilog takes behind a backslash, and that the BLIF between yosys and ABC takes too.
fn is_name(name: &str) -> bool {
    let good = |byte: u8| byte.is_ascii_graphic() && !matches!(byte, b'\\' | b'#' | b'=');
    !name.is_empty() && !name.starts_with('$') && name.bytes().all(good)
}

#[cfg(test)]
mod tests {
    use super::*;

    #[test]
    fn unfit_names_are_named() {
        let gate = |name: &str, pin: &str, output: &str| Gate {
            cell: "c".into(),
            name: name.into(),
            pins: vec![pin.into()],
            output: output.into(),
            table: Some(1),
            byte: 0,
        };
        assert_eq!(unfit(&[gate("nand2", "a[0]", "Y"), gate("\"x;", "A", "O")]), None);
        for (name, pin, output, words) in [
            ("nand 2", "A", "O", "`nand 2`"),
            ("g", "A", "A", "its output `A` has the name of its input `A`"),
            ("g", "#", "O", "`#`"),
            ("$g", "A", "O", "`$g`"),
        ] {
            let told = unfit(&[gate(name, pin, output)]).unwrap_or_default();
            assert!(told.starts_with(&format!("cell `{name}`")) && told.contains(words), "{told}");
        }
    }
}
