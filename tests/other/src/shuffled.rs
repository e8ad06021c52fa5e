//! Shuffled libraries, request N13 of document 02: the same cell lines in other orders,
//! and what two answers over them must agree on. Quoted sentences are its own.

use crate::gen::Rng;
use crate::reference::Answer;

/// "the same cell lines in any orders": the lines after the names line reversed, rotated
/// by one and by chance, and shuffled.
pub fn orders(rng: &mut Rng, cells: &[u8]) -> Vec<Vec<u8>> {
    let mut lines: Vec<&[u8]> = cells.split_inclusive(|&byte| byte == b'\n').collect();
    if lines.len() < 3 {
        return Vec::new();
    }
    let names = lines.remove(0);
    let text = |lines: &[&[u8]]| [names, &lines.concat()].concat();
    let mut reversed = lines.clone();
    reversed.reverse();
    let mut texts = vec![text(&reversed)];
    for by in [1, rng.below(lines.len())] {
        let mut rotated = lines.clone();
        rotated.rotate_left(by);
        texts.push(text(&rotated));
    }
    rng.shuffle(&mut lines);
    texts.push(text(&lines));
    texts
}

/// "agree [...] on whether 16 or 17 occurs and its place, and, where both print, on the
/// printed arrival. Gate choice, area, low arrivals and 18 may differ." A refusal of the
/// graph or the arrivals before 16 is the same too.
pub fn agree(one: &Answer, other: &Answer) -> bool {
    let prints = |answer: &Answer| [0, 18].contains(&answer.number);
    match prints(one) && prints(other) {
        true => one.number + other.number > 0 || one.arrival == other.arrival,
        false => (one.number, one.value) == (other.number, other.value),
    }
}
