//! The calls of the static library, as include/arraymap.h has them.

/// The five values that a call answers, on success and after a refusal.
#[repr(C)]
#[derive(Clone, Copy, Debug, PartialEq, Eq)]
pub struct Answer {
    /// 0, or the refusal's number.
    pub number: u64,
    /// The netlist's length, or the refusal's place.
    pub value: u64,
    pub gates: u32,
    pub area: u32,
    pub arrival: u32,
}

/// The answers for both channels of one call.
#[repr(C)]
#[derive(Clone, Copy, Debug, PartialEq, Eq)]
pub struct AnswerTwo {
    pub first: Answer,
    pub second: Answer,
}

/// The three values that a check answers.
#[repr(C)]
#[derive(Clone, Copy, Debug, PartialEq, Eq)]
pub struct AnswerChecked {
    /// 0 accepted, 1 differs, 2 refused.
    pub verdict: u64,
    /// The setting, or the refusal's number.
    pub first: u64,
    /// The output, or the refusal's place.
    pub second: u64,
}

/// A channel's own texts: its graph, and the arrivals of its inputs, empty for none.
#[derive(Clone, Copy, Debug)]
pub struct Channel<'a> {
    pub graph: &'a [u8],
    pub arrivals: &'a [u8],
}

extern "C" {
    fn arraymap_map(
        cells: *const u8,
        cells_len: usize,
        graph: *const u8,
        graph_len: usize,
        arrivals: *const u8,
        arrivals_len: usize,
        work: *mut u16,
        work_len: usize,
        text: *mut u8,
        text_len: usize,
    ) -> Answer;

    fn arraymap_map_pairs(
        cells: *const u8,
        cells_len: usize,
        graph: *const u8,
        graph_len: usize,
        arrivals: *const u8,
        arrivals_len: usize,
        work: *mut u16,
        work_len: usize,
        text: *mut u8,
        text_len: usize,
    ) -> Answer;

    fn arraymap_cells(genlib: *const u8, genlib_len: usize, text: *mut u8, text_len: usize) -> Answer;

    fn arraymap_count(
        cells: *const u8,
        cells_len: usize,
        netlist: *const u8,
        netlist_len: usize,
        tally: *mut u64,
        tally_len: usize,
    ) -> Answer;

    fn arraymap_report(
        cells: *const u8,
        cells_len: usize,
        tally: *const u64,
        tally_len: usize,
        text: *mut u8,
        text_len: usize,
    ) -> Answer;

    fn arraymap_map_two(
        cells: *const u8,
        cells_len: usize,
        graph1: *const u8,
        graph1_len: usize,
        arrivals1: *const u8,
        arrivals1_len: usize,
        graph2: *const u8,
        graph2_len: usize,
        arrivals2: *const u8,
        arrivals2_len: usize,
        work: *mut u16,
        work_len: usize,
        text1: *mut u8,
        text1_len: usize,
        text2: *mut u8,
        text2_len: usize,
    ) -> AnswerTwo;

    fn arraymap_map_two_pairs(
        cells: *const u8,
        cells_len: usize,
        graph1: *const u8,
        graph1_len: usize,
        arrivals1: *const u8,
        arrivals1_len: usize,
        graph2: *const u8,
        graph2_len: usize,
        arrivals2: *const u8,
        arrivals2_len: usize,
        work: *mut u16,
        work_len: usize,
        text1: *mut u8,
        text1_len: usize,
        text2: *mut u8,
        text2_len: usize,
    ) -> AnswerTwo;

    fn arraymap_check(
        cells: *const u8,
        cells_len: usize,
        graph: *const u8,
        graph_len: usize,
        netlist: *const u8,
        netlist_len: usize,
        work: *mut u16,
        work_len: usize,
    ) -> AnswerChecked;
}

/// The call itself, answered as C has it. It asks nothing of what the slices hold.
pub fn call(cells: &[u8], graph: &[u8], arrivals: &[u8], work: &mut [u16], text: &mut [u8]) -> Answer {
    call_by(false, cells, graph, arrivals, work, text)
}

/// The same with pairs of cells.
pub fn call_pairs(cells: &[u8], graph: &[u8], arrivals: &[u8], work: &mut [u16], text: &mut [u8]) -> Answer {
    call_by(true, cells, graph, arrivals, work, text)
}

pub(crate) fn call_by(
    pairs: bool,
    cells: &[u8],
    graph: &[u8],
    arrivals: &[u8],
    work: &mut [u16],
    text: &mut [u8],
) -> Answer {
    let map = if pairs { arraymap_map_pairs } else { arraymap_map };
    // Each pointer comes with the length of its own slice; the two that are written overlap nothing.
    unsafe {
        map(
            cells.as_ptr(),
            cells.len(),
            graph.as_ptr(),
            graph.len(),
            arrivals.as_ptr(),
            arrivals.len(),
            work.as_mut_ptr(),
            work.len(),
            text.as_mut_ptr(),
            text.len(),
        )
    }
}

/// The reading of a genlib text, answered as C has it; the figures are 0.
pub fn call_cells(genlib: &[u8], text: &mut [u8]) -> Answer {
    // As above.
    unsafe { arraymap_cells(genlib.as_ptr(), genlib.len(), text.as_mut_ptr(), text.len()) }
}

/// A netlist counted into a tally, answered as C has it; the figures are 0.
pub fn call_count(cells: &[u8], netlist: &[u8], tally: &mut [u64]) -> Answer {
    // As above.
    unsafe {
        arraymap_count(cells.as_ptr(), cells.len(), netlist.as_ptr(), netlist.len(), tally.as_mut_ptr(), tally.len())
    }
}

/// The report of a tally, answered as C has it; the figures are 0.
pub fn call_report(cells: &[u8], tally: &[u64], text: &mut [u8]) -> Answer {
    // As above.
    unsafe { arraymap_report(cells.as_ptr(), cells.len(), tally.as_ptr(), tally.len(), text.as_mut_ptr(), text.len()) }
}

/// A netlist checked against its graph, answered as C has it.
pub fn call_check(cells: &[u8], graph: &[u8], netlist: &[u8], work: &mut [u16]) -> AnswerChecked {
    // As above, of the one that is written.
    unsafe {
        arraymap_check(
            cells.as_ptr(),
            cells.len(),
            graph.as_ptr(),
            graph.len(),
            netlist.as_ptr(),
            netlist.len(),
            work.as_mut_ptr(),
            work.len(),
        )
    }
}

/// The call on two channels over one work memory, with a text memory each, answered as C has it.
pub fn call_two(
    cells: &[u8],
    first: Channel,
    second: Channel,
    work: &mut [u16],
    text1: &mut [u8],
    text2: &mut [u8],
) -> AnswerTwo {
    call_two_by(false, cells, [first, second], work, [text1, text2])
}

/// The same with pairs of cells.
pub fn call_two_pairs(
    cells: &[u8],
    first: Channel,
    second: Channel,
    work: &mut [u16],
    text1: &mut [u8],
    text2: &mut [u8],
) -> AnswerTwo {
    call_two_by(true, cells, [first, second], work, [text1, text2])
}

pub(crate) fn call_two_by(
    pairs: bool,
    cells: &[u8],
    [first, second]: [Channel; 2],
    work: &mut [u16],
    [text1, text2]: [&mut [u8]; 2],
) -> AnswerTwo {
    let map = if pairs { arraymap_map_two_pairs } else { arraymap_map_two };
    // As above, of the three that are written.
    unsafe {
        map(
            cells.as_ptr(),
            cells.len(),
            first.graph.as_ptr(),
            first.graph.len(),
            first.arrivals.as_ptr(),
            first.arrivals.len(),
            second.graph.as_ptr(),
            second.graph.len(),
            second.arrivals.as_ptr(),
            second.arrivals.len(),
            work.as_mut_ptr(),
            work.len(),
            text1.as_mut_ptr(),
            text1.len(),
            text2.as_mut_ptr(),
            text2.len(),
        )
    }
}
