//! A genlib text as words and signs, whatever its lines are: blanks, line ends and remarks only part them.

/// The signs of an expression, and those around it.
const SIGNS: &[u8] = b"=;!'*+()&|^";

#[derive(Clone, Copy, Debug, PartialEq, Eq)]
pub enum Kind {
    /// Bytes between blanks and signs.
    Plain,
    /// Bytes between two quotation marks, without them.
    Quoted,
    Sign,
    /// A quotation mark that no other one on its line closes.
    Open,
}

#[derive(Clone, Copy, Debug)]
pub struct Word<'t> {
    pub kind: Kind,
    pub bytes: &'t [u8],
    /// Where it stands in the text, its quotation mark included.
    pub byte: usize,
    /// Nothing but blanks stands before it on its line.
    pub leads: bool,
}

impl Word<'_> {
    pub fn is(&self, word: &str) -> bool {
        self.kind == Kind::Plain && self.bytes == word.as_bytes()
    }

    pub fn is_sign(&self, sign: u8) -> bool {
        self.kind == Kind::Sign && self.bytes == [sign]
    }

    /// It can be a name.
    pub fn names(&self) -> bool {
        matches!(self.kind, Kind::Plain | Kind::Quoted)
    }

    pub fn text(&self) -> String {
        String::from_utf8_lossy(self.bytes).into_owned()
    }
}

/// The words and signs of a text. A `#` outside quotation marks begins a remark, up to the line's end.
pub fn words(text: &[u8]) -> Vec<Word<'_>> {
    let mut words = Vec::new();
    let (mut at, mut leads) = (0, true);
    while let Some(&byte) = text.get(at) {
        let rest = &text[at..];
        let line = rest.iter().position(|&byte| byte == b'\n').unwrap_or(rest.len());
        if is_blank(byte) {
            leads |= byte == b'\n';
            at += 1;
            continue;
        }
        if byte == b'#' {
            at += line;
            continue;
        }
        let (kind, bytes, length) = if byte == b'"' {
            match rest[1..line].iter().position(|&byte| byte == b'"') {
                Some(end) => (Kind::Quoted, &rest[1..=end], end + 2),
                None => (Kind::Open, &rest[..line], line),
            }
        } else if SIGNS.contains(&byte) {
            (Kind::Sign, &rest[..1], 1)
        } else {
            let ends = |&byte: &u8| is_blank(byte) || byte == b'"' || byte == b'#' || SIGNS.contains(&byte);
            let end = rest.iter().position(ends).unwrap_or(rest.len());
            (Kind::Plain, &rest[..end], end)
        };
        words.push(Word { kind, bytes, byte: at, leads });
        leads = false;
        at += length;
    }
    words
}

fn is_blank(byte: u8) -> bool {
    matches!(byte, b' ' | b'\t' | b'\r' | b'\n' | 11 | 12)
}

/// The first word is GATE or LATCH: a cell text begins otherwise.
pub fn is_genlib(text: &[u8]) -> bool {
    words_of_start(text).is_some_and(|word| word.is("GATE") || word.is("LATCH"))
}

/// The beginning of a text that is genlib, or has nothing but remarks so far.
pub fn may_be_genlib(start: &[u8]) -> bool {
    is_genlib(start) || (start.contains(&b'#') && words_of_start(start).is_none())
}

/// The first word of a text, without reading the rest of it.
fn words_of_start(text: &[u8]) -> Option<Word<'_>> {
    let mut at = 0;
    while let Some(&byte) = text.get(at) {
        match byte {
            b'#' => at += text[at..].iter().position(|&byte| byte == b'\n').unwrap_or(text.len() - at),
            _ if is_blank(byte) => at += 1,
            _ => break,
        }
    }
    let line = text[at..].iter().position(|&byte| byte == b'\n').map_or(text.len(), |k| at + k);
    words(&text[at..line]).first().copied()
}
