//! The switch for the deliberate mistakes in the reference. MUTANTS.md lists
//! them; `tests/mutants.rs` shows that the checks catch every one.

use std::cell::Cell;

thread_local! {
    static MUTANT: Cell<u32> = const { Cell::new(0) };
}

/// Switches one mutant on for this thread; 0 is none.
pub fn switch(mutant: u32) {
    MUTANT.with(|cell| cell.set(mutant));
}

pub fn is_on(mutant: u32) -> bool {
    MUTANT.with(|cell| cell.get() == mutant)
}

/// The one that is on.
pub fn which() -> u32 {
    MUTANT.with(Cell::get)
}

/// Number and what is wrong.
pub const LIST: [(u32, &str); 64] = [
    (1, "an AND with one cut too many is accepted"),
    (2, "a tie between cell and inverter goes to the inverter"),
    (3, "the evaluation of a cut's function continues below a leaf whose operands are leaves too"),
    (4, "topological ordering continues upwards instead of restarting at the lowest variable"),
    (5, "only unions of at most three leaves are kept"),
    (6, "cuts are listed by leaves first, not by size"),
    (7, "the cell line takes precedence over the cut in the choice"),
    (8, "of equal inverters the last line is chosen"),
    (9, "the arrival is that of the latest phase, not of the latest output"),
    (10, "the area of one-pin cells is left out"),
    (11, "refusal 15 names the highest unordered AND"),
    (12, "leading zeros are accepted"),
    (13, "a cell matches only where a pin is fed from the cut's last leaf"),
    (14, "the mask's phase is dropped from the fed net"),
    (15, "a pin gets the delay of the pin with its leaf's index"),
    (16, "text memory of exactly the needed length is refused"),
    (17, "I + A = M is refused"),
    (18, "inputs are printed by number, not in the file's order"),
    (19, "an ignored pin's delay is left out of the arrival"),
    (20, "a repeated name is tried after the absent pins"),
    (21, "a binary header's M may exceed I + A"),
    (22, "19 is tried after 10"),
    (23, "both differences of an AND are read before 21 is tried"),
    (24, "a second difference is subtracted from the left literal"),
    (25, "a second difference of 0 is refused"),
    (26, "the groups of a difference are read highest first"),
    (27, "a difference padded with a group of zeros is refused"),
    (28, "an output's `.names` line has the next output's net"),
    (29, "the names of outputs count from 1"),
    (30, "`1 0` is printed in place of `1 1`"),
    (31, "outputs on one net share a name"),
    (32, "the 13 at a line's end stays in its last field"),
    (33, "bytes 13, 13 and 10 end a line"),
    (34, "after 13 and 10 the next line begins at the 10"),
    (35, "positions do not count the 13s before them"),
    (36, "a binary header may end in 13 and 10"),
    (37, "a binary text's output lines may end in 13 and 10"),
    (38, "a lone 13 ends a line"),
    (39, "the names line must end in 10 alone"),
    (54, "an arrival is assigned to the variable of that number, not to the input of that index"),
    (55, "the choice treats all inputs as arriving at 0"),
    (56, "26 of a line is tried before 25 of an earlier one"),
    (57, "25 and 26 are tried before 11 to 14, 20 and 21"),
    (58, "25 and 26 are tried after 15"),
    (59, "an index listed with arrival 0 may be repeated"),
    (60, "index I is accepted"),
    (61, "an inverter that an input feeds adds its delay to 0"),
    (62, "any first line is accepted in the arrivals text"),
    (63, "1 does not cover the arrivals text"),
    (72, "a minimum arrival is computed from the `d` delays"),
    (73, "a minimum arrival is that of the earliest pin"),
    (74, "27 is tried before 6 of its line"),
    (75, "27 is tried after the faults of later lines"),
    (76, "6 does not check the lowest delay of an absent pin"),
    (77, "a minimum arrival follows the pins that decide the maximum one"),
    (78, "a minimum arrival treats all inputs as arriving at 0"),
    (79, "the choice uses the lowest delays"),
    (80, "without cells there are no timing lines"),
    (81, "a cell line may omit its lowest delays"),
    (82, "the shorter names line adds timing lines too"),
    (83, "the position of 18 leaves out the timing lines"),
    (84, "a lowest delay that equals its `d` is refused"),
    (85, "a timing line has the latest output's maximum arrival"),
    (138, "byte 12 separates two fields as a space does"),
];

/// Those of the reader of genlib.
pub const GENLIB: [(u32, &str); 15] = [
    (40, "the `'` after a product's last factor apply to the whole product"),
    (41, "the last PIN line that fits is used"),
    (42, "a pin's delay is its rise block delay"),
    (43, "the table repeats above row 2^pins"),
    (44, "23 is tried before 22"),
    (45, "pins are ordered by name"),
    (46, "the `!` before a product's first factor apply to the whole product"),
    (47, "trailing zeros are not counted as decimals"),
    (48, "the position is that of the line at fault"),
    (49, "figures of PIN lines that are used for no pin count"),
    (50, "brackets may be 17 deep"),
    (51, "24 is tried after 22 and 23 of all gates"),
    (52, "text memory of exactly the needed length is refused"),
    (53, "empty lines are skipped"),
    (137, "byte 12 is a blank"),
];

/// Those of the call on two channels.
pub const TWO: [(u32, &str); 8] = [
    (64, "10 compares the available words with the larger need only"),
    (65, "the second channel is refused because the first is"),
    (66, "the second channel's early refusal does not stop the first"),
    (67, "if both have an early refusal, the second's is returned"),
    (68, "10 is tried on the first need before the second channel's earlier refusals"),
    (69, "the second channel's 18 depends on the first's text memory"),
    (70, "the second channel uses the first's arrivals"),
    (71, "work memory is unchanged if both channels are refused after 10"),
];

/// Those of the calls that count and report.
pub const TALLY: [(u32, &str); 20] = [
    (86, "a refused netlist is counted"),
    (87, "gates are counted instead of the netlists in which a cell occurs"),
    (88, "the area is that of the next line's cell"),
    (89, "a 65th netlist is counted"),
    (90, "a figure of 2^40 is refused"),
    (91, "28 does not check the numbers of netlists in which cells occur"),
    (92, "a report is refused if 64 netlists are counted"),
    (93, "28 is tried after 29"),
    (94, "leading zeros are refused in nets and times"),
    (95, "leading zeros are accepted in the gate count"),
    (96, "any area is accepted"),
    (97, "timing lines are not part of the netlist"),
    (98, "what follows the last line is not read"),
    (99, "`.names` pairs before `.end` may be omitted"),
    (100, "the number of netlists counted is that of the cell that occurs in most"),
    (101, "pins are accepted in any order"),
    (102, "a missing line's position is 0"),
    (103, "a gate line may omit its last pins"),
    (120, "an `s` before a net is refused in gate lines"),
    (139, "byte 12 separates two words as a space does"),
];

/// Those of pairs of cells.
pub const PAIRS: [(u32, &str); 14] = [
    (104, "the inner's pins come after the root's"),
    (105, "an inner pin's delay omits the fed pin's"),
    (106, "a pair is dropped if a listed cell has its table"),
    (107, "pairs are ordered by root, then inner, then pin"),
    (108, "an inner pin's delay includes that of the root's first pin"),
    (110, "the root is printed before the inner"),
    (111, "256 cells and pairs are refused"),
    (112, "30 is tried after 10"),
    (114, "cells without pins are inner cells too"),
    (115, "pairs have at most three pins"),
    (116, "an inner pin's lowest delay omits the fed pin's"),
    (117, "30 counts only the pairs"),
    (118, "no cell is paired with itself"),
    (119, "the net between has only the variable after `s`"),
];

/// Those that make arrivals depend on the order of lines.
pub const SHUFFLED: [(u32, &str); 2] = [
    (121, "the inverter is that of the first line, whatever its delay"),
    (122, "a cell is left out if an earlier line has its table"),
];

/// Those of the call that checks a netlist.
pub const CHECK: [(u32, &str); 15] = [
    (123, "10 counts only the bytes 10 up to `.end`"),
    (124, "13 inputs are accepted"),
    (125, "net names may have nine letters"),
    (126, "a gate may drive an input's net"),
    (127, "nets used by gates that nothing uses are not checked"),
    (128, "a net that depends on a cycle is taken for one on it"),
    (129, "the first input is the highest bit of an assignment"),
    (130, "the last wrong output is returned"),
    (131, "assignment 0 is left out"),
    (132, "the highest assignment that differs is returned"),
    (133, "a cycle at an earlier line is returned before a net that no line drives"),
    (134, "pins may have any letter, in the file's order"),
    (135, "the nets of `.names` lines may be driven by no line"),
    (136, "pins may be in any order, each by its letter"),
    (140, "byte 12 separates two words of a gate line as a space does"),
];
