//! Two channels, request N8 of document 02: "maps two graphs in one call over one
//! cell list and one work memory, with a text memory each". Quoted sentences are
//! its own.

use crate::reference::{self, Answer, Printed, Refusal};

/// A channel's own texts.
#[derive(Clone, Copy, Debug)]
pub struct Channel<'a> {
    pub graph: &'a [u8],
    pub arrivals: &'a [u8],
}

/// A netlist, whatever text memory is lent, or the refusal before 18.
pub type Outcome = Result<Printed, Refusal>;

/// What the call answers and leaves, for each channel.
#[derive(Clone, Debug, PartialEq, Eq)]
pub struct Two {
    pub answers: [Answer; 2],
    /// What each text memory begins with; its other bytes stay.
    pub netlists: [Vec<u8>; 2],
    /// Whether every word of work memory is 0; otherwise it is unchanged.
    pub zeroes: bool,
}

/// The whole call, with so many words of work memory and bytes of each text memory.
pub fn map_two(cells: &[u8], channels: [Channel; 2], words: usize, bytes: [usize; 2]) -> Two {
    map_two_with(cells, channels, words, bytes, false)
}

/// The same where the call wants pairs of cells for both channels.
pub fn map_two_with(cells: &[u8], channels: [Channel; 2], words: usize, bytes: [usize; 2], pairs: bool) -> Two {
    answers(together(alone(cells, channels, pairs), channels.map(need), words), bytes)
}

/// "A channel's netlist or refusal depends on the library, its own graph, arrivals
/// and text length": each channel as if work memory had no end.
pub fn alone(cells: &[u8], channels: [Channel; 2], pairs: bool) -> [Outcome; 2] {
    let [first, second] = channels;
    let second = plain_or!(70, second, Channel { arrivals: first.arrivals, ..second });
    [first, second].map(|channel| reference::print_with(cells, channel.graph, channel.arrivals, usize::MAX, pairs))
}

/// The words that 10 wants for a channel. A header that doesn't read is refused before.
pub fn need(channel: Channel) -> usize {
    reference::words_needed(channel.graph).unwrap_or(0)
}

/// The refusal tried before 10 that a channel has by its own texts.
pub fn early(outcome: &Outcome) -> Option<Refusal> {
    outcome.as_ref().err().copied().filter(|refusal| reference::leaves_work_memory(refusal.number))
}

/// "except that 10, once neither channel has an earlier refusal, compares the lent
/// words with the sum of both needs, and that where a refusal tried up to 10 applies
/// to either, both return that number and place (the first channel's, if both have
/// one), neither is mapped [...]. Any other refusal in one leaves the other mapped
/// as if alone."
pub fn together(alone: [Outcome; 2], needs: [usize; 2], words: usize) -> [Outcome; 2] {
    let [first, second] = alone.each_ref().map(early);
    let both = |refusal: Refusal| [Err(refusal), Err(refusal)];
    let ten = both(Refusal { number: 10, place: 0 });
    if plain_or!(68, false, first.is_none() && words < needs[0]) {
        return ten;
    }
    let earlier = plain_or!(67, first.or(second), second.or(first));
    match plain_or!(66, earlier, first) {
        Some(refusal) => both(refusal),
        None if words < plain_or!(64, needs[0] + needs[1], needs[0].max(needs[1])) => ten,
        None => plain_or!(65, alone.clone(), [alone[0].clone(), alone[0].clone().and(alone[1].clone())]),
    }
}

/// "with a text memory each": 18 by a channel's own. "neither is mapped and work
/// memory is unchanged", or else it is "all zero after a later one and after success".
pub fn answers(outcomes: [Outcome; 2], bytes: [usize; 2]) -> Two {
    let [first, second] = outcomes;
    let (first, netlist) = reference::answer(first, bytes[0]);
    let (second, other_netlist) = reference::answer(second, plain_or!(69, bytes[1], bytes[0]));
    let answers = [first, second];
    let mapped = plain_or!(
        71,
        answers.iter().any(|answer| !reference::leaves_work_memory(answer.number)),
        answers.iter().any(|answer| answer.number == 0)
    );
    Two { answers, netlists: [netlist, other_netlist], zeroes: mapped }
}
