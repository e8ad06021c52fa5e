//! CELLS: a cell text, or a genlib or Liberty library and the cell text that the proved reader writes of it.

use crate::{
    files::Source,
    foundry::{self, Fault, Normal, Wish},
    liberty::{self, Converted, Point},
    lines::{line_at, shown},
};
use arraymap::{Refusal, TEXT_LIMIT};

/// What is asked of a library that is no cell text.
#[derive(Clone, Copy, Debug, Default)]
pub struct Reading {
    /// Gates whose names no cell can have get others.
    pub rename: bool,
    /// Gates that can be no cell are left out, and of more than 32 those that matter most are kept, under names that a cell can have.
    pub fit: bool,
    /// Where the delay tables of a Liberty library are read.
    pub point: Point,
}

/// The cells of a cell text at most.
const MOST_CELLS: usize = 32;

pub struct Library {
    pub file: Source,
    /// A Liberty library as genlib.
    liberty: Option<Converted>,
    written: Option<Vec<u8>>,
    /// The genlib in the proved reader's form.
    normal: Option<Normal>,
    /// What is wrong with a genlib library that is refused.
    pub fault: Option<Fault>,
}

impl Library {
    /// A text whose first word is GATE or LATCH is genlib, one whose first word is `library` Liberty.
    pub fn read(file: Source) -> (Library, Result<(), Refusal>) {
        Library::read_by(file, &Reading::default())
    }

    /// The same, with what is asked.
    pub fn read_by(file: Source, reading: &Reading) -> (Library, Result<(), Refusal>) {
        let mut library = Library { file, liberty: None, written: None, normal: None, fault: None };
        if !foundry::is_genlib(&library.file.text) && !liberty::is_liberty(&library.file.text) {
            return (library, Ok(()));
        }
        let read = library.read_foundry(reading).map_err(|fault| {
            let refusal = Refusal { number: fault.number, place: fault.byte };
            library.fault = Some(fault);
            refusal
        });
        (library, read)
    }

    /// Reads a foundry's library. A place in the genlib text of a Liberty library is that of the cell in the file.
    fn read_foundry(&mut self, reading: &Reading) -> Result<(), Fault> {
        if !liberty::is_liberty(&self.file.text) {
            return self.read_genlib(&self.file.text.clone(), reading);
        }
        let form =
            |fault: liberty::Fault| Fault { number: 22, byte: fault.byte, what: fault.what, help: String::new() };
        let converted = liberty::convert(&self.file.text, reading.point).map_err(form)?;
        let read = self.read_genlib(&converted.genlib, reading);
        if let Some(normal) = &mut self.normal {
            normal.gates.iter_mut().for_each(|gate| gate.byte = converted.place(gate.byte));
            normal.left_out.iter_mut().for_each(|part| part.byte = converted.place(part.byte));
        }
        let read = read.map_err(|fault| Fault { byte: converted.place(fault.byte), ..fault });
        self.liberty = Some(converted);
        read
    }

    /// What the proved reader takes as it is, is read as it is; the rest in its form.
    fn read_genlib(&mut self, text: &[u8], reading: &Reading) -> Result<(), Fault> {
        let plain = arraymap::cells(text);
        let rename = reading.rename || reading.fit;
        let normal =
            foundry::normalise_by(text, &Wish { rename, most: reading.fit.then_some(MOST_CELLS), measure: false });
        // A longer text is read as it is written by the normaliser, without remarks and blanks.
        if let Ok(normal) = &normal {
            if normal.text.len() > TEXT_LIMIT {
                let what = format!("longer than {TEXT_LIMIT} bytes");
                return Err(Fault { number: 1, byte: 0, what, help: String::new() });
            }
        }
        self.written = match (plain, &normal) {
            (Ok(cells), _) if !rename => Some(cells),
            (_, Ok(normal)) => Some(arraymap::cells(&normal.text).map_err(|refusal| normal.fault(refusal))?),
            _ => None,
        };
        match normal {
            Ok(normal) => self.normal = Some(normal),
            Err(fault) if self.written.is_none() => return Err(fault),
            Err(_) => {}
        }
        Ok(())
    }

    /// The cell text.
    pub fn text(&self) -> &[u8] {
        self.written.as_deref().unwrap_or(&self.file.text)
    }

    pub fn is_written(&self) -> bool {
        self.written.is_some()
    }

    /// The number of the line with that gate, from 0.
    pub fn gate_line(&self, gate: usize) -> Option<usize> {
        let gate = self.normal.as_ref()?.gates.get(gate)?;
        Some(line_at(&self.file.text, gate.byte).number)
    }

    /// What a genlib library calls a cell.
    pub fn own_name(&self, cell: &str) -> Option<&str> {
        self.normal.as_ref()?.gate(cell).map(|gate| gate.name.as_str())
    }

    /// What of a foundry's library was left out, for standard error.
    pub fn notes(&self) -> String {
        let (file, text) = (&self.file.name, &self.file.text);
        let no_gates = self.liberty.as_ref().map(|converted| converted.notes(file)).unwrap_or_default();
        no_gates + &self.normal.as_ref().map(|normal| normal.notes(file, text)).unwrap_or_default()
    }

    /// Comment lines for behind a netlist: for each of its cells that has another name in the library, that name, and the library's names of its pins.
    pub fn names(&self, netlist: &str) -> String {
        let Some(normal) = &self.normal else { return String::new() };
        let used: std::collections::HashSet<&str> =
            netlist.lines().filter_map(|line| line.strip_prefix(".gate ")?.split(' ').next()).collect();
        let renamed = normal.gates.iter().filter(|gate| gate.cell != gate.name && used.contains(gate.cell.as_str()));
        renamed
            .map(|gate| {
                let pins = gate.pins.iter().enumerate().map(|(k, pin)| (crate::cells::pin(k), pin));
                let pins = pins.chain([('O', &gate.output)]);
                let pins: String = pins.map(|(letter, pin)| format!(" {letter}={}", shown(pin.as_bytes()))).collect();
                format!("# cell {} is {}{pins}\n", gate.cell, shown(gate.name.as_bytes()))
            })
            .collect()
    }
}
