//! The checks of the call on two channels, each a sentence of request N8 or some
//! thousand pairs against the loose reader and the mapper of one graph.

use crate::checks::Check;
use crate::gen::{self, Rng};
use crate::reference::{self, Answer};
use crate::two::{self, Channel, Two};
use crate::{judge, two_gen, WORDS_EACH};

macro_rules! ensure {
    ($condition:expr, $($message:tt)*) => {
        if !$condition {
            return Err(format!($($message)*));
        }
    };
}

/// Case B, of 4 variables and 1 output, and one of 2 variables and 2 outputs.
const B: &str = "aag 3 2 0 1 1\n2\n4\n6\n6 2 4\n";
const TWICE: &str = "aag 1 1 0 2 0\n2\n2\n3\n";
const B_WORDS: usize = WORDS_EACH * 4 + 1;
const TWICE_WORDS: usize = WORDS_EACH * 2 + 2;

/// Graphs refused early, with the number: the place is 0.
const EARLY: [(u32, &str); 4] =
    [(7, "aag 1\n"), (8, "aag 1 0 1 0 0\n"), (9, "aag 1 2 0 0 0\n2\n4\n"), (19, "aig 9 2 0 0 1\n\x01\x01")];

/// Graph, arrivals, and the refusal tried after 10.
const LATE: [(&str, &str, (u32, u32)); 9] = [
    ("aag 1 1 0 1 0\n2\n", "", (11, 16)),
    ("aag 1 1 0 1 0\n2\n4\n", "", (12, 16)),
    ("aag 1 1 0 0 0\n3\n", "", (12, 14)),
    ("aag 2 2 0 0 0\n2\n2\n", "", (13, 16)),
    ("aag 2 1 0 1 0\n2\n4\n", "", (14, 16)),
    ("aag 2 0 0 0 2\n2 4 4\n4 2 2\n", "", (15, 1)),
    ("aag 0 0 0 1 0\n1\n", "", (17, 0)),
    (B, "input arrival\n0 5", (25, 14)),
    (B, "input arrival\n2 5\n", (26, 14)),
];

fn cells() -> Vec<u8> {
    gen::library_text(&gen::small_library())
}

fn channel<'a>(graph: &'a str, arrivals: &'a str) -> Channel<'a> {
    Channel { graph: graph.as_bytes(), arrivals: arrivals.as_bytes() }
}

/// With bytes enough.
fn map_two(first: Channel, second: Channel, words: usize) -> Two {
    two::map_two(&cells(), [first, second], words, [10_000; 2])
}

fn numbers(two: &Two) -> [(u32, u32); 2] {
    two.answers.map(|Answer { number, value, .. }| (number, value))
}

/// "neither is mapped and work memory is unchanged", with zero figures.
fn both_refused(two: &Two, number: u32, place: u32) -> Result<(), String> {
    let refused = Answer { number, value: place, ..Answer::default() };
    ensure!(two.answers == [refused; 2], "wanted {number} {place} twice: {:?}", two.answers);
    ensure!(two.netlists == [vec![], vec![]] && !two.zeroes, "{number}: a memory is changed");
    Ok(())
}

/// "10, once neither channel has an earlier refusal, compares the lent words with the
/// sum of both needs".
pub fn sum_of_both_needs() -> Check {
    let pairs = [(B, TWICE, B_WORDS + TWICE_WORDS), (TWICE, B, TWICE_WORDS + B_WORDS), (B, B, 2 * B_WORDS)];
    for (first, second, sum) in pairs {
        let (first, second) = (channel(first, ""), channel(second, ""));
        for words in [sum, sum + 1, 2 * sum] {
            let two = map_two(first, second, words);
            ensure!(two.answers.iter().all(|answer| answer.number == 0), "{words} words: {:?}", two.answers);
            ensure!(two.zeroes, "{words} words: work memory isn't zero");
        }
        for words in [sum - 1, B_WORDS, B_WORDS - 1, TWICE_WORDS, TWICE_WORDS - 1, 0] {
            both_refused(&map_two(first, second, words), 10, 0)?;
        }
    }
    // A late refusal in one has its need all the same.
    for (graph, arrivals, _) in LATE {
        let late = channel(graph, arrivals);
        let sum = B_WORDS + two::need(late);
        for [first, second] in [[channel(B, ""), late], [late, channel(B, "")]] {
            both_refused(&map_two(first, second, sum - 1), 10, 0)?;
            let numbers = numbers(&map_two(first, second, sum));
            ensure!(numbers.iter().all(|&(number, _)| number != 10), "{sum} words: {numbers:?}");
        }
    }
    Ok("10".into())
}

/// "where a refusal tried up to 10 applies to either, both return that number and
/// place", whatever the other has and however many words are lent.
pub fn early_in_either() -> Check {
    let long = " ".repeat(65_537);
    let long_graph = B.to_string() + &long;
    let mut early: Vec<(u32, Channel)> = EARLY.map(|(number, graph)| (number, channel(graph, ""))).to_vec();
    early.extend([(1, channel(&long_graph, "")), (1, channel(B, &long))]);
    let mut others = vec![channel(B, ""), channel(TWICE, "")];
    others.extend(LATE.map(|(graph, arrivals, _)| channel(graph, arrivals)));
    for &(number, refused) in &early {
        for &other in &others {
            // "once neither channel has an earlier refusal": with no words too.
            for words in [0, two::need(other), 100_000] {
                both_refused(&map_two(refused, other, words), number, 0)?;
                both_refused(&map_two(other, refused, words), number, 0)?;
            }
        }
        // "(the first channel's, if both have one)"
        for &(_, second) in &early {
            for words in [0, 100_000] {
                both_refused(&map_two(refused, second, words), number, 0)?;
            }
        }
    }
    Ok(format!("{} early", early.len()))
}

/// The library is each channel's: 2 to 6 of it stand before a graph's 7 to 9, but
/// after 1 of a channel's own texts.
pub fn library_of_both() -> Check {
    let cells = [&cells()[..], b"bad\n"].concat();
    let place = cells.len() as u32 - 4;
    let long = " ".repeat(65_537);
    let good = channel(B, "");
    let texts = [good, channel("", ""), channel(EARLY[1].1, ""), channel(LATE[5].0, "")];
    for first in texts {
        for second in texts {
            both_refused(&two::map_two(&cells, [first, second], 0, [0; 2]), 4, place)?;
        }
    }
    let too_long = channel(B, &long);
    both_refused(&two::map_two(&cells, [good, too_long], 100_000, [0; 2]), 4, place)?;
    both_refused(&two::map_two(&cells, [too_long, good], 100_000, [0; 2]), 1, 0)?;
    Ok("the library".into())
}

/// "Any other refusal in one leaves the other mapped as if alone": 11 to 17, 20, 21,
/// 25 and 26, in one and in both.
pub fn late_in_one() -> Check {
    let (alone, netlist) = reference::map(&cells(), B.as_bytes(), b"", B_WORDS, 10_000);
    ensure!(alone.number == 0 && !netlist.is_empty(), "B: {alone:?}");
    let binary = ["aig 3 2 0 0 1\n\x00\x00", "aig 3 2 0 0 1\n\x02"];
    let mut late: Vec<(Channel, (u32, u32))> =
        LATE.map(|(graph, arrivals, refusal)| (channel(graph, arrivals), refusal)).to_vec();
    late.extend([(channel(binary[0], ""), (21, 14)), (channel(binary[1], ""), (20, 15))]);
    for &(refused, (number, place)) in &late {
        let answer = Answer { number, value: place, ..Answer::default() };
        let two = map_two(refused, channel(B, ""), 100_000);
        ensure!(two.answers == [answer, alone], "{:?}", two.answers);
        ensure!(two.netlists == [vec![], netlist.clone()] && two.zeroes, "{number} in the first");
        let two = map_two(channel(B, ""), refused, 100_000);
        ensure!(two.answers == [alone, answer], "{:?}", two.answers);
        ensure!(two.netlists == [netlist.clone(), vec![]] && two.zeroes, "{number} in the second");
        for &(other, refusal) in &late {
            let two = map_two(refused, other, 100_000);
            ensure!(numbers(&two) == [(number, place), refusal], "{:?}", two.answers);
            ensure!(two.zeroes, "{number} and {}: work memory isn't zero", refusal.0);
        }
    }
    Ok(format!("{} late", late.len()))
}

/// "with a text memory each": 18 by its own length, and only there.
pub fn a_text_memory_each() -> Check {
    let graphs = [B, TWICE];
    let [b, twice] = graphs.map(|graph| reference::map(&cells(), graph.as_bytes(), b"", 100_000, 10_000));
    let [long, short] = [b.0.value as usize, twice.0.value as usize];
    ensure!(long > short, "{long} {short}");
    let run = |bytes| two::map_two(&cells(), graphs.map(|graph| channel(graph, "")), 100_000, bytes);
    let refused = |length: usize| Answer { number: 18, value: length as u32, ..Answer::default() };
    let all = [
        ([long, short], [b.0, twice.0]),
        ([long - 1, short], [refused(long), twice.0]),
        ([long, short - 1], [b.0, refused(short)]),
        ([short, long], [refused(long), twice.0]),
        ([long - 1, short - 1], [refused(long), refused(short)]),
        ([0, 0], [refused(long), refused(short)]),
        ([0, 10_000], [refused(long), twice.0]),
        ([10_000, 0], [b.0, refused(short)]),
    ];
    for (bytes, answers) in all {
        let two = run(bytes);
        ensure!(two.answers == answers && two.zeroes, "{bytes:?}: {:?}", two.answers);
        for ((got, netlist), answer) in two.netlists.iter().zip([&b.1, &twice.1]).zip(answers) {
            let wanted = if answer.number == 0 { netlist } else { &[][..] };
            ensure!(got == wanted, "{bytes:?}: a text memory");
        }
    }
    Ok(format!("{} lengths", all.len()))
}

/// "A channel's netlist or refusal depends on [...] its own graph, arrivals [...] and
/// nothing of the other's".
pub fn own_arrivals() -> Check {
    let arrival = |first, second| {
        map_two(channel(B, first), channel(B, second), 100_000).answers.map(|answer| (answer.number, answer.arrival))
    };
    let late = "input arrival\n1 5\n";
    for (first, second, wanted) in [("", late, [30, 35]), (late, "", [35, 30]), (late, late, [35, 35])] {
        let got = arrival(first, second);
        ensure!(got == wanted.map(|arrival| (0, arrival)), "{first:?} {second:?}: {got:?}");
    }
    Ok("arrivals".into())
}

/// M and O of a header, read loosely.
fn need(graph: &[u8]) -> usize {
    let line = graph.split(|&byte| byte == 10).next().unwrap_or(&[]);
    let words: Vec<usize> =
        String::from_utf8_lossy(line).split_whitespace().skip(1).map(|word| word.parse().unwrap_or(0)).collect();
    WORDS_EACH * words[0] + WORDS_EACH + words[3]
}

/// Pairs by chance: the loose reader says what each channel has early, and the mapper
/// of one graph what it has alone.
pub fn pairs(count: usize, seed: u64) -> Check {
    let mut rng = Rng::new(seed);
    let mut kinds = Kinds::default();
    for number in 0..count {
        let pair = two_gen::pair(&mut rng);
        let texts = pair.texts();
        let judged = texts.map(|Channel { graph, arrivals }| judge::judge(&pair.cells, graph, arrivals, usize::MAX));
        let early = judged.map(|judged| judged.filter(|&(number, _)| number < 11 || [19, 27, 30].contains(&number)));
        for (made, judged) in pair.channels.iter().zip(judged) {
            let is_read = |number: u32| !matches!(number, 15..=17);
            let expected = made.expected.filter(|&(number, _)| is_read(number));
            ensure!(expected.is_none() || expected == judged, "pair {number}, {}: judged {judged:?}", made.what);
        }
        let bytes = [200 + rng.below(2_000), 200 + rng.below(2_000)];
        for words in pair.words(&mut rng) {
            let two = two::map_two(&pair.cells, texts, words, bytes);
            kinds.count(early.map(|early| early.map(|(number, _)| number)), &two);
            let told = || format!("pair {number}, {words} words: {two:?}");
            let wanted = match early {
                [Some(refusal), _] | [None, Some(refusal)] => Some(refusal),
                _ if words < need(texts[0].graph) + need(texts[1].graph) => Some((10, 0)),
                _ => None,
            };
            if let Some((number, place)) = wanted {
                both_refused(&two, number, place as u32).map_err(|wrong| format!("{wrong}\n{}", told()))?;
                continue;
            }
            for side in 0..2 {
                let Channel { graph, arrivals } = texts[side];
                let (answer, netlist) = reference::map(&pair.cells, graph, arrivals, need(graph), bytes[side]);
                ensure!(two.answers[side] == answer && two.netlists[side] == netlist, "{side}: {answer:?}, {}", told());
            }
            ensure!(two.zeroes, "work memory isn't zero, {}", told());
        }
    }
    kinds.every()
}

/// How often each combination comes.
#[derive(Default)]
pub struct Kinds([usize; 8]);

const KINDS: [&str; 8] = [
    "two netlists",
    "a netlist and a refusal",
    "a refusal and a netlist",
    "two refusals after 10",
    "10",
    "an early refusal in the first",
    "in the second",
    "in both",
];

impl Kinds {
    /// A call, with what each channel has early.
    pub fn count(&mut self, early: [Option<u32>; 2], two: &Two) {
        let kind = match (early.map(|early| early.is_some()), two.answers.map(|answer| answer.number)) {
            ([true, false], _) => 5,
            ([false, true], _) => 6,
            ([true, true], _) => 7,
            (_, [10, _]) => 4,
            (_, [first, second]) => 2 * usize::from(first != 0) + usize::from(second != 0),
        };
        self.0[kind] += 1;
    }

    /// The counts, if no combination is missing.
    pub fn every(&self) -> Check {
        let told: Vec<String> = KINDS.iter().zip(self.0).map(|(kind, count)| format!("{kind}: {count}")).collect();
        ensure!(self.0.iter().all(|&count| count > 0), "a combination never comes: {}", told.join(", "));
        Ok(format!("{} calls, {}", self.0.iter().sum::<usize>(), told.join(", ")))
    }
}
