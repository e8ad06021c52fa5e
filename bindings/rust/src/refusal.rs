//! What is turned back, and where.

use std::{error::Error, fmt};

/// The number and the place of document 01, and of document 02 from 19 on.
#[derive(Clone, Copy, Debug, PartialEq, Eq)]
pub struct Refusal {
    pub number: u32,
    pub place: usize,
}

/// What a refusal's place counts.
#[derive(Clone, Copy, Debug, PartialEq, Eq)]
pub enum Place {
    /// Nothing: a text as a whole, or the lent memory.
    Whole,
    /// A byte of the cell library, from 0.
    Cells(usize),
    /// A byte of a genlib library, from 0.
    Genlib(usize),
    /// A byte of the graph, from 0; its length where what is due there is missing.
    Graph(usize),
    /// A byte of the arrivals, from 0.
    Arrivals(usize),
    /// A byte of a netlist, from 0; its length where a line is missing.
    Netlist(usize),
    /// A variable of the graph.
    Variable(usize),
    /// An output, from 0.
    Output(usize),
    /// The bytes of text memory that the netlist takes.
    Length(usize),
}

impl Refusal {
    pub fn place(&self) -> Place {
        match self.number {
            2..=6 | 27 => Place::Cells(self.place),
            7..=9 | 11..=14 | 19..=21 | 31 => Place::Graph(self.place),
            22..=24 => Place::Genlib(self.place),
            25 | 26 => Place::Arrivals(self.place),
            29 | 32 | 33 => Place::Netlist(self.place),
            15 | 16 => Place::Variable(self.place),
            17 => Place::Output(self.place),
            18 => Place::Length(self.place),
            _ => Place::Whole,
        }
    }

    /// What is wrong, in the words of docs/GUIDE.md.
    pub fn what(&self) -> &'static str {
        match self.number {
            1 => "a text is longer than 65,536 bytes",
            2 => "the first line isn't the names line",
            3 => "a thirty-third cell line",
            4 => "not a cell line",
            5 => "a cell name is repeated",
            6 => "a table bit at or above row 2^pins, or a delay or lowest delay of an absent pin, isn't 0",
            7 => "not an AIGER header",
            8 => "the graph has latches",
            9 => "M exceeds 4,095, O exceeds 4,096, or I + A exceeds M",
            10 => "too few words of work memory",
            11 => "a due line breaks its form or is missing",
            12 => "a literal exceeds 2M+1, or an input or left literal is odd or 0",
            13 => "an input or left variable is already defined",
            14 => "an undefined variable is used",
            15 => "an AND waits, directly or not, for itself",
            16 => "an AND has more than 18 cuts",
            17 => "an output has no cover",
            18 => "text memory is shorter than the netlist",
            19 => "a binary header's M isn't I + A",
            20 => "a difference takes more than two bytes, or the text ends before its end",
            21 => "a first difference is 0, or a difference exceeds what it is taken from",
            22 => "a GATE or PIN line breaks its form, a PIN line precedes every GATE, or a pin has no PIN line",
            23 => "a gate has more than four pins, or brackets more than 16 deep",
            24 => "an area or block delay has more than three decimals or exceeds 65.535",
            25 => "a line of the arrivals breaks its form",
            26 => "an arrival's input is I or more, or is repeated",
            27 => "a pin's lowest delay exceeds its delay",
            28 => "64 netlists are counted already, or a figure of the tally exceeds 2^40",
            29 => "a line isn't one that mapping prints there, or its cell or figures aren't the netlist's",
            30 => "there are more than 256 cells and pairs of cells",
            31 => "a graph to check a netlist against has more than 12 inputs",
            32 => "a line breaks its form, names no listed cell, or has other inputs or outputs than the graph",
            33 => "a line drives a net already driven, uses a net that no line drives, or drives a net on a circle",
            _ => "a refusal that docs/GUIDE.md does not list",
        }
    }
}

impl fmt::Display for Refusal {
    fn fmt(&self, f: &mut fmt::Formatter) -> fmt::Result {
        write!(f, "refused {}", self.number)?;
        match self.place() {
            Place::Whole => {}
            Place::Cells(byte) => write!(f, " at byte {byte} of the cells")?,
            Place::Genlib(byte) => write!(f, " at byte {byte} of the genlib text")?,
            Place::Graph(byte) => write!(f, " at byte {byte} of the graph")?,
            Place::Arrivals(byte) => write!(f, " at byte {byte} of the arrivals")?,
            Place::Netlist(byte) => write!(f, " at byte {byte} of the netlist")?,
            Place::Variable(variable) => write!(f, " at variable {variable}")?,
            Place::Output(output) => write!(f, " at output {output}")?,
            Place::Length(length) => write!(f, ", {length} bytes needed")?,
        }
        write!(f, ": {}", self.what())
    }
}

impl Error for Refusal {}
