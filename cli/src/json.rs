//! Objects of JSON, one a line.

use std::fmt::Write;

/// An object, field by field in the order in which they are given.
#[derive(Clone)]
pub struct Object(String);

/// A string of JSON.
fn quoted(words: &str) -> String {
    let mut text = String::from("\"");
    for letter in words.chars() {
        match letter {
            '"' | '\\' => text.extend(['\\', letter]),
            _ if letter < ' ' || letter == '\x7f' => {
                let _ = write!(text, "\\u{:04x}", u32::from(letter));
            }
            _ => text.push(letter),
        }
    }
    text + "\""
}

impl Object {
    /// Of some kind: the field that every object begins with.
    pub fn of(kind: &str) -> Object {
        Object::default().text("kind", Some(kind))
    }

    fn field(mut self, name: &str, value: &str) -> Object {
        let comma = if self.0.is_empty() { "" } else { ", " };
        let _ = write!(self.0, "{comma}{}: {value}", quoted(name));
        self
    }

    /// Words, or `null`.
    pub fn text(self, name: &str, words: Option<&str>) -> Object {
        self.field(name, &words.map_or("null".into(), quoted))
    }

    /// A number, or `null`.
    pub fn number(self, name: &str, number: impl Into<Option<u64>>) -> Object {
        self.field(name, &number.into().map_or("null".into(), |number| number.to_string()))
    }

    pub fn truth(self, name: &str, value: bool) -> Object {
        self.field(name, &value.to_string())
    }

    /// A list of words.
    pub fn texts<'w>(self, name: &str, words: impl Iterator<Item = &'w str>) -> Object {
        let all: Vec<String> = words.map(quoted).collect();
        self.field(name, &format!("[{}]", all.join(", ")))
    }

    pub fn objects(self, name: &str, objects: impl Iterator<Item = Object>) -> Object {
        let all: Vec<String> = objects.map(|object| format!("{{{}}}", object.0)).collect();
        self.field(name, &format!("[{}]", all.join(", ")))
    }

    pub fn line(self) -> String {
        format!("{{{}}}\n", self.0)
    }
}

/// An object without fields.
impl Default for Object {
    fn default() -> Object {
        Object(String::new())
    }
}

#[cfg(test)]
mod tests {
    use super::*;

    #[test]
    fn any_words_are_a_string() {
        let object = Object::of("a").text("b", Some("\"\\\n\x1b\0ü")).text("c", None).number("d", 7).number("e", None);
        let object = object.objects("f", [Object::default().truth("g", true)].into_iter());
        let due = r#"{"kind": "a", "b": "\"\\\u000a\u001b\u0000ü", "c": null, "d": 7, "e": null, "f": [{"g": true}]}"#;
        assert_eq!(object.line(), due.to_string() + "\n");
    }
}
