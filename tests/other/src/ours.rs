//! The boundary to the mapper under test: functions on byte texts and lent memories.

#[cfg(feature = "ours")]
pub use archive::*;
#[cfg(not(feature = "ours"))]
pub use stand_in::*;

/// Runs a call with a mistake of MUTANTS.md on, where the features build them in: it is on
/// behind the boundary alone.
pub fn behind<T>(mutant: u32, call: impl FnOnce() -> T) -> T {
    #[cfg(feature = "mutants")]
    crate::mutants::switch(mutant);
    let answer = call();
    #[cfg(feature = "mutants")]
    crate::mutants::switch(0);
    let _ = mutant;
    answer
}

/// The static library, through bindings/rust. It asks nothing of what it is lent.
#[cfg(feature = "ours")]
mod archive {
    use crate::reference::Answer;
    use crate::two::Channel;

    fn answered(arraymap::Answer { number, value, gates, area, arrival }: arraymap::Answer) -> Answer {
        Answer { number: number as u32, value: value as u32, gates, area, arrival }
    }

    fn both(arraymap::AnswerTwo { first, second }: arraymap::AnswerTwo) -> [Answer; 2] {
        [first, second].map(answered)
    }

    pub fn map(cells: &[u8], graph: &[u8], arrivals: &[u8], work: &mut [u16], text: &mut [u8]) -> Answer {
        answered(arraymap::call(cells, graph, arrivals, work, text))
    }

    pub fn map_pairs(cells: &[u8], graph: &[u8], arrivals: &[u8], work: &mut [u16], text: &mut [u8]) -> Answer {
        answered(arraymap::call_pairs(cells, graph, arrivals, work, text))
    }

    pub fn map_two(cells: &[u8], channels: [Channel; 2], work: &mut [u16], texts: [&mut [u8]; 2]) -> [Answer; 2] {
        let [first, second] = channels.map(|Channel { graph, arrivals }| arraymap::Channel { graph, arrivals });
        let [text1, text2] = texts;
        both(arraymap::call_two(cells, first, second, work, text1, text2))
    }

    pub fn map_two_pairs(cells: &[u8], channels: [Channel; 2], work: &mut [u16], texts: [&mut [u8]; 2]) -> [Answer; 2] {
        let [first, second] = channels.map(|Channel { graph, arrivals }| arraymap::Channel { graph, arrivals });
        let [text1, text2] = texts;
        both(arraymap::call_two_pairs(cells, first, second, work, text1, text2))
    }

    pub fn cells(genlib: &[u8], text: &mut [u8]) -> Answer {
        answered(arraymap::call_cells(genlib, text))
    }

    pub fn count(cells: &[u8], netlist: &[u8], tally: &mut [u64]) -> Answer {
        answered(arraymap::call_count(cells, netlist, tally))
    }

    pub fn report(cells: &[u8], tally: &[u64], text: &mut [u8]) -> Answer {
        answered(arraymap::call_report(cells, tally, text))
    }

    /// The verdict and its two numbers.
    pub fn check(cells: &[u8], graph: &[u8], netlist: &[u8], work: &mut [u16]) -> [u64; 3] {
        let arraymap::AnswerChecked { verdict, first, second } = arraymap::call_check(cells, graph, netlist, work);
        [verdict, first, second]
    }
}

/// The reference in its place, with the memories that the documents promise.
#[cfg(not(feature = "ours"))]
mod stand_in {
    use crate::reference::{self, Answer};
    use crate::two::{self, Channel};
    use crate::{check, genlib, tally};

    fn left(answer: &Answer, netlist: &[u8], work: &mut [u16], text: &mut [u8]) {
        text[..netlist.len()].copy_from_slice(netlist);
        if !reference::leaves_work_memory(answer.number) {
            work.fill(0);
        }
    }

    pub fn map(cells: &[u8], graph: &[u8], arrivals: &[u8], work: &mut [u16], text: &mut [u8]) -> Answer {
        let (answer, netlist) = reference::map(cells, graph, arrivals, work.len(), text.len());
        left(&answer, &netlist, work, text);
        answer
    }

    pub fn map_pairs(cells: &[u8], graph: &[u8], arrivals: &[u8], work: &mut [u16], text: &mut [u8]) -> Answer {
        let (answer, netlist) = reference::map_pairs(cells, graph, arrivals, work.len(), text.len());
        left(&answer, &netlist, work, text);
        answer
    }

    pub fn map_two(cells: &[u8], channels: [Channel; 2], work: &mut [u16], texts: [&mut [u8]; 2]) -> [Answer; 2] {
        two_by(cells, channels, work, texts, false)
    }

    pub fn map_two_pairs(cells: &[u8], channels: [Channel; 2], work: &mut [u16], texts: [&mut [u8]; 2]) -> [Answer; 2] {
        two_by(cells, channels, work, texts, true)
    }

    fn two_by(
        cells: &[u8],
        channels: [Channel; 2],
        work: &mut [u16],
        texts: [&mut [u8]; 2],
        pairs: bool,
    ) -> [Answer; 2] {
        let bytes = texts.each_ref().map(|text| text.len());
        let two = two::map_two_with(cells, channels, work.len(), bytes, pairs);
        for (text, netlist) in texts.into_iter().zip(&two.netlists) {
            text[..netlist.len()].copy_from_slice(netlist);
        }
        if two.zeroes {
            work.fill(0);
        }
        two.answers
    }

    pub fn cells(genlib: &[u8], text: &mut [u8]) -> Answer {
        let (answer, cells) = genlib::cells(genlib, text.len());
        text[..cells.len()].copy_from_slice(&cells);
        answer
    }

    pub fn count(cells: &[u8], netlist: &[u8], tally: &mut [u64]) -> Answer {
        let (answer, after) = tally::count(cells, netlist, tally);
        tally.copy_from_slice(&after);
        answer
    }

    pub fn report(cells: &[u8], tally: &[u64], text: &mut [u8]) -> Answer {
        let (answer, lines) = tally::report(cells, tally, text.len());
        text[..lines.len()].copy_from_slice(&lines);
        answer
    }

    pub fn check(cells: &[u8], graph: &[u8], netlist: &[u8], work: &mut [u16]) -> [u64; 3] {
        let verdict = check::check(cells, graph, netlist, work.len());
        if !verdict.leaves_work_memory() {
            work.fill(0);
        }
        verdict.numbers()
    }
}
