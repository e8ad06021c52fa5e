//! What the proved reader refuses of a gate, told by the word at fault. It is the reader that refuses: this is asked afterwards, and before a gate is
//! left out.

use super::{expression::DEEPEST, figure, parts::Part, words::Word, Fault, Wish};
use crate::lines::{counted, shown};

/// The first of 22, 23 and 24 that applies to a gate whose words are in form.
pub fn fault(gate: &Part, wish: &Wish) -> Option<Fault> {
    unpinned(gate).or_else(|| too_large(gate)).or_else(|| too_fine(gate).filter(|_| !wish.measure))
}

/// A pin that no PIN fits.
fn unpinned(gate: &Part) -> Option<Fault> {
    let pin = gate.expression.pins.iter().find(|pin| gate.pin(pin).is_none())?;
    let name = shown(pin.bytes);
    let help = match name.as_str() {
        "0" | "1" => format!("`{name}` is read as a pin's name: the constant is CONST{name}"),
        _ => format!("add `PIN {name} ..` behind the gate, or `PIN * ..` for all its pins: no delay is made up"),
    };
    Some(Fault { help, ..Fault::form(pin.byte, format!("pin `{name}` of {} has no PIN", gate.title())) })
}

/// Over four pins, or brackets too deep.
fn too_large(gate: &Part) -> Option<Fault> {
    let (word, what) = match (gate.expression.pins.get(4), gate.expression.too_deep) {
        (Some(pin), _) => {
            let pins = counted(gate.expression.pins.len(), "pin", "pins");
            (*pin, format!("{} has {pins}: `{}` is the fifth", gate.title(), shown(pin.bytes)))
        }
        (None, Some(bracket)) => (bracket, format!("the brackets of {} are more than {DEEPEST} deep", gate.title())),
        (None, None) => return None,
    };
    Some(Fault { number: 23, byte: word.byte, what, help: "leave the gate out: a cell has up to four pins".into() })
}

/// A used figure with over three decimals, or over 65.535.
fn too_fine(gate: &Part) -> Option<Fault> {
    let (k, word) = gate.used().into_iter().enumerate().find(|(_, word)| !is_used(word))?;
    let figure = shown(word.bytes);
    let written = figure::written(word.bytes);
    let decimals = figure::parts(&written).map_or(0, |(_, broken)| broken.len());
    let what = if decimals > 3 {
        format!("{figure} has {decimals} decimals, and three are read")
    } else {
        format!("{figure} exceeds 65.535")
    };
    let which = if k == 0 { "the area" } else { "a block delay" };
    Some(Fault {
        number: 24,
        byte: word.byte,
        what: format!("{which} of {}: {what}", gate.title()),
        help: "give areas and delays in another unit, throughout: they are read in thousandths, up to 65.535".into(),
    })
}

fn is_used(word: &Word) -> bool {
    let written = figure::written(word.bytes);
    let Some((whole, broken)) = figure::parts(&written) else { return false };
    let digits = whole.iter().skip_while(|&&byte| byte == b'0').count();
    let thousandths = whole.iter().chain(broken).chain(&b"000"[broken.len().min(3)..]);
    broken.len() <= 3 && digits <= 2 && thousandths.fold(0u32, |sum, byte| sum * 10 + u32::from(byte - b'0')) <= 65_535
}
