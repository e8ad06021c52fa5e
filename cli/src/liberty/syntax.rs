//! Liberty's grammar: groups, attributes, strings, comments and continued lines. What the words mean is not known here.

/// A word of the text: a name or number as it stands, or a string without its quotation marks.
#[derive(Clone, Debug, PartialEq, Eq)]
pub struct Word {
    pub text: String,
    /// Where it stands in the file.
    pub byte: usize,
}

/// `name (arguments) { statements }`, `name (arguments);` or `name : value;`. An attribute has no statements.
#[derive(Clone, Debug)]
pub struct Group {
    pub name: Word,
    pub arguments: Vec<Word>,
    pub statements: Vec<Group>,
}

impl Group {
    /// The statements of that name.
    pub fn all<'g>(&'g self, name: &'g str) -> impl Iterator<Item = &'g Group> {
        self.statements.iter().filter(move |statement| statement.name.text == name)
    }

    pub fn has(&self, name: &str) -> bool {
        self.all(name).next().is_some()
    }

    /// The value of an attribute. Of repeated ones the last counts, as in other readers.
    pub fn value(&self, name: &str) -> Option<&Word> {
        self.statements.iter().rfind(|statement| statement.name.text == name)?.arguments.first()
    }

    pub fn is_true(&self, name: &str) -> bool {
        self.value(name).is_some_and(|value| value.text == "true")
    }

    /// The first argument: the name of a cell or pin.
    pub fn title(&self) -> &str {
        self.arguments.first().map_or("", |word| &word.text)
    }
}

/// What breaks the grammar, and where.
#[derive(Debug, PartialEq, Eq)]
pub struct Broken {
    pub byte: usize,
    pub what: String,
}

#[derive(Clone, Debug, PartialEq, Eq)]
enum Token {
    Word(Word),
    Sign(u8, usize),
    /// A line ends: it ends an attribute whose `;` was forgotten, and means nothing elsewhere.
    LineEnd(usize),
}

impl Token {
    fn byte(&self) -> usize {
        match self {
            Token::Word(word) => word.byte,
            Token::Sign(_, byte) | Token::LineEnd(byte) => *byte,
        }
    }

    fn shown(&self) -> String {
        match self {
            Token::Word(word) => format!("`{}`", crate::lines::shown(word.text.as_bytes())),
            Token::Sign(sign, _) => format!("`{}`", *sign as char),
            Token::LineEnd(_) => "the line's end".into(),
        }
    }
}

const SIGNS: &[u8] = b"(){}:;,";

/// The text from the first `/*` or `//` on that is no comment; `None` where a comment is not closed.
fn past_comment(text: &[u8]) -> Option<Option<usize>> {
    if text.starts_with(b"/*") {
        return Some(Some(2 + text[2..].windows(2).position(|pair| pair == b"*/")? + 2));
    }
    if text.starts_with(b"//") {
        return Some(Some(text.iter().position(|&byte| byte == b'\n').unwrap_or(text.len())));
    }
    Some(None)
}

fn tokens(text: &[u8]) -> Result<Vec<Token>, Broken> {
    let (mut tokens, mut at) = (Vec::new(), 0);
    while let Some(&byte) = text.get(at) {
        let rest = &text[at..];
        match past_comment(rest) {
            None => return Err(Broken { byte: at, what: "the comment is not closed".into() }),
            Some(Some(length)) => {
                at += length;
                continue;
            }
            Some(None) => {}
        }
        if byte == b'\n' {
            tokens.push(Token::LineEnd(at));
            at += 1;
        } else if byte == b'\\' {
            // A continued line: the backslash, blanks and the line's end count for nothing.
            let blanks = rest[1..].iter().take_while(|&&byte| byte != b'\n' && byte.is_ascii_whitespace()).count();
            at += 1 + blanks + usize::from(rest.get(1 + blanks) == Some(&b'\n'));
        } else if byte.is_ascii_whitespace() {
            at += 1;
        } else if byte == b'"' {
            let (text, length) = string(rest, at)?;
            tokens.push(Token::Word(Word { text, byte: at }));
            at += length;
        } else if SIGNS.contains(&byte) {
            tokens.push(Token::Sign(byte, at));
            at += 1;
        } else {
            let ends =
                |&byte: &u8| byte.is_ascii_whitespace() || byte == b'"' || byte == b'\\' || SIGNS.contains(&byte);
            let length = rest.iter().position(ends).unwrap_or(rest.len());
            tokens.push(Token::Word(Word { text: String::from_utf8_lossy(&rest[..length]).into_owned(), byte: at }));
            at += length;
        }
    }
    Ok(tokens)
}

/// A string at the start of the text, and its length with its quotation marks. A backslash keeps the character behind it, and continues a line.
fn string(text: &[u8], byte: usize) -> Result<(String, usize), Broken> {
    let (mut bytes, mut at) = (Vec::new(), 1);
    loop {
        match text.get(at) {
            None => return Err(Broken { byte, what: "the quotation mark is not closed".into() }),
            Some(b'"') => return Ok((String::from_utf8_lossy(&bytes).into_owned(), at + 1)),
            Some(b'\\') => {
                let behind = &text[at + 1..];
                let blanks = behind.iter().take_while(|&&byte| matches!(byte, b' ' | b'\t' | b'\r')).count();
                if behind.get(blanks) == Some(&b'\n') {
                    at += blanks + 2;
                } else {
                    bytes.extend(behind.first());
                    at += 2;
                }
            }
            Some(&other) => {
                bytes.push(other);
                at += 1;
            }
        }
    }
}

/// Groups are not nested deeper in any library.
const DEEPEST: usize = 100;

struct Parser {
    tokens: Vec<Token>,
    at: usize,
    end: usize,
}

impl Parser {
    /// The next token that is no line's end.
    fn next(&mut self) -> Option<Token> {
        while let Some(token) = self.tokens.get(self.at) {
            self.at += 1;
            if !matches!(token, Token::LineEnd(_)) {
                return Some(token.clone());
            }
        }
        None
    }

    fn peek(&self) -> Option<&Token> {
        self.tokens[self.at.min(self.tokens.len())..].iter().find(|token| !matches!(token, Token::LineEnd(_)))
    }

    fn takes(&mut self, sign: u8) -> bool {
        let found = matches!(self.peek(), Some(Token::Sign(next, _)) if *next == sign);
        if found {
            self.next();
        }
        found
    }

    fn wrong(&self, found: Option<&Token>, expected: &str) -> Broken {
        match found {
            Some(token) => {
                Broken { byte: token.byte(), what: format!("{} where {expected} is expected", token.shown()) }
            }
            None => Broken { byte: self.end, what: format!("the text ends where {expected} is expected") },
        }
    }

    /// A group or an attribute.
    fn statement(&mut self, depth: usize) -> Result<Group, Broken> {
        let name = match self.next() {
            Some(Token::Word(name)) => name,
            found => return Err(self.wrong(found.as_ref(), "a group or an attribute")),
        };
        if depth > DEEPEST {
            return Err(Broken { byte: name.byte, what: format!("groups are nested more than {DEEPEST} deep") });
        }
        match self.next() {
            Some(Token::Sign(b':', _)) => {
                let value = self.simple_value()?;
                Ok(Group { name, arguments: vec![value], statements: Vec::new() })
            }
            Some(Token::Sign(b'(', _)) => {
                let arguments = self.arguments()?;
                let mut group = Group { name, arguments, statements: Vec::new() };
                if self.takes(b'{') {
                    while !self.takes(b'}') {
                        if !self.takes(b';') {
                            group.statements.push(self.statement(depth + 1)?);
                        }
                    }
                }
                self.takes(b';');
                Ok(group)
            }
            found => Err(self.wrong(found.as_ref(), &format!("`:` or `(`, behind `{}`,", name.text))),
        }
    }

    /// The value of a simple attribute, up to its `;` or to the line's end. An expression such as `VDD + 0.5` is one word.
    fn simple_value(&mut self) -> Result<Word, Broken> {
        let mut value: Option<Word> = None;
        while let Some(token) = self.tokens.get(self.at).cloned() {
            match token {
                Token::Word(word) => match &mut value {
                    None => value = Some(word),
                    Some(value) => value.text = format!("{} {}", value.text, word.text),
                },
                Token::Sign(b';', _) | Token::LineEnd(_) if value.is_some() => {
                    self.at += 1;
                    break;
                }
                Token::Sign(b'}', _) if value.is_some() => break,
                Token::LineEnd(_) => {}
                // Brackets and the like in an expression of voltages.
                Token::Sign(b'(' | b')' | b',' | b':', _) if value.is_some() => {}
                other => return Err(self.wrong(Some(&other), "a value")),
            }
            self.at += 1;
        }
        value.ok_or_else(|| self.wrong(None, "a value"))
    }

    /// The words up to `)`, parted by commas or blanks.
    fn arguments(&mut self) -> Result<Vec<Word>, Broken> {
        let mut arguments = Vec::new();
        loop {
            match self.next() {
                Some(Token::Sign(b')', _)) => return Ok(arguments),
                Some(Token::Sign(b',' | b':', _)) => {}
                Some(Token::Word(word)) => arguments.push(word),
                found => return Err(self.wrong(found.as_ref(), "an argument or `)`")),
            }
        }
    }
}

/// The library group of a text.
pub fn parse(text: &[u8]) -> Result<Group, Broken> {
    let mut parser = Parser { tokens: tokens(text)?, at: 0, end: text.len() };
    let library = parser.statement(0)?;
    match parser.next() {
        None => Ok(library),
        found => Err(parser.wrong(found.as_ref(), "the end of the text, behind the library group,")),
    }
}

/// The first word, behind blanks and comments, is `library`, with a bracket behind it.
pub fn is_liberty(text: &[u8]) -> bool {
    let mut rest = text;
    while let Some(&byte) = rest.first() {
        match past_comment(rest) {
            Some(Some(length)) => rest = &rest[length..],
            Some(None) if byte.is_ascii_whitespace() => rest = &rest[1..],
            _ => break,
        }
    }
    let behind = rest.strip_prefix(b"library").unwrap_or_default();
    behind.iter().find(|byte| !byte.is_ascii_whitespace()) == Some(&b'(')
}

#[cfg(test)]
mod tests {
    use super::*;

    #[test]
    fn groups_attributes_strings_comments_and_continued_lines() {
        let text = b"/* a */ library ( \"one\" ) { // b\n time_unit : \"1ns\" ;\n no_semicolon : 3\n values ( \"1, 2\", \\\n \"3\" );\n\
                     cell(A){area:1.5;pin(\"B\\\"\"){direction : input}}\n voltage : VDD + 0.5 ;\n}\n";
        let library = parse(text).expect("in form");
        assert_eq!((library.name.text.as_str(), library.title()), ("library", "one"));
        assert_eq!(library.value("no_semicolon").map(|word| word.text.as_str()), Some("3"));
        let values: Vec<&str> =
            library.all("values").flat_map(|group| group.arguments.iter().map(|word| word.text.as_str())).collect();
        assert_eq!(values, ["1, 2", "3"]);
        let cell = library.all("cell").next().expect("a cell");
        assert_eq!(cell.value("area").map(|word| word.text.as_str()), Some("1.5"));
        assert_eq!(cell.all("pin").next().map(Group::title), Some("B\""));
        assert_eq!(library.value("voltage").map(|word| word.text.as_str()), Some("VDD + 0.5"));
        assert!(
            is_liberty(text) && is_liberty(b"\n//x\nlibrary(a)") && !is_liberty(b"GATE a") && !is_liberty(b"library x")
        );
    }

    #[test]
    fn what_is_broken_is_named() {
        let cases: [(&[u8], usize, &str); 7] = [
            (b"library (a) { x ", 16, "the text ends where `:` or `(`, behind `x`, is expected"),
            (b"library (a) {", 13, "the text ends where a group or an attribute is expected"),
            (b"library (a) { x : ; }", 18, "`;` where a value is expected"),
            (b"library (a { }", 11, "`{` where an argument or `)` is expected"),
            (b"library (a) { /* }", 14, "the comment is not closed"),
            (b"library (a) { x : \"1; }", 18, "the quotation mark is not closed"),
            (b"library (a) { } }", 16, "`}` where the end of the text, behind the library group, is expected"),
        ];
        for (text, byte, what) in cases {
            assert_eq!(parse(text).map(drop), Err(Broken { byte, what: what.into() }));
        }
        let deep = ["library (a) { ".to_string(), "g () { ".repeat(200)].concat();
        assert_eq!(
            parse(deep.as_bytes()).map(drop).map_err(|broken| broken.what),
            Err("groups are nested more than 100 deep".into())
        );
    }
}
