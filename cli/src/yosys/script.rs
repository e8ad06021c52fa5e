//! The script that yosys writes for ABC: which block is read and written, with which library, and by when it is to arrive. The rest is ABC's recipe, which
//! is not followed.

/// What the script asks for.
#[derive(Clone, Debug, Default, PartialEq, Eq)]
pub struct Script {
    pub read: String,
    pub written: String,
    pub library: String,
    /// Behind `-D`, as it stands there.
    pub due: Option<String>,
    /// What was asked for and is not done, in words.
    pub notes: Vec<String>,
}

/// The words of each command. A word in quotation marks is one word; nothing else in it has a meaning.
fn commands(text: &str) -> Vec<Vec<String>> {
    let (mut all, mut words) = (Vec::new(), Vec::new());
    let (mut word, mut quoted, mut begun) = (String::new(), false, false);
    for sign in text.chars().chain(['\n']) {
        match sign {
            '"' => (quoted, begun) = (!quoted, true),
            '\n' | ';' | ' ' | '\t' | '\r' if !quoted || sign == '\n' => {
                if begun {
                    words.push(std::mem::take(&mut word));
                }
                begun = false;
                if matches!(sign, ';' | '\n') {
                    quoted = false;
                    all.push(std::mem::take(&mut words));
                }
            }
            _ => {
                word.push(sign);
                begun = true;
            }
        }
    }
    all.retain(|words| words.first().is_some_and(|first| first != "echo"));
    all
}

/// Reads the script, or says in words what of it cannot be served.
pub fn read(text: &str) -> Result<Script, String> {
    let mut script = Script::default();
    for words in commands(text) {
        // A path that yosys does not put in quotation marks may have blanks.
        let path = || words[1..].iter().filter(|word| !word.starts_with('-')).cloned().collect::<Vec<_>>().join(" ");
        match words[0].as_str() {
            "read_blif" => script.read = path(),
            "read_library" | "read_genlib" => script.library = path(),
            "write_blif" => script.written = path(),
            "read_lib" => {
                return Err("`-liberty` gives a Liberty library: give the cells as genlib, `abc -exe arraymap-abc -genlib CELLS.genlib`".into())
            }
            "read_lut" | "read_box" => {
                return Err("`-lut` and `-luts` ask for tables and not for cells: leave them out, and give `-genlib CELLS.genlib`".into())
            }
            "read_constr" => script.notes.push("`-constr` is not followed: loads and driving cells are not counted".into()),
            "source" => return Err("`-script` with `source` is not followed: leave it out".into()),
            _ => {}
        }
        let due = words.iter().position(|word| word == "-D").and_then(|at| words.get(at + 1));
        if let Some(due) = due {
            script.due = Some(due.clone());
        }
    }
    if script.library.is_empty() {
        return Err("no library: yosys is to be told `abc -exe arraymap-abc -genlib CELLS.genlib`".into());
    }
    if script.read.is_empty() || script.written.is_empty() {
        return Err("the script has no `read_blif` or no `write_blif`".into());
    }
    Ok(script)
}

#[cfg(test)]
mod tests {
    use super::*;

    #[test]
    fn a_script_of_yosys_is_read() {
        let text = "echo + read_blif \"/tmp/y/input.blif\";\nread_blif \"/tmp/y/input.blif\";\nread_library \"a b;touch x.genlib\";\nstrash;\n&nf -D 500;\nwrite_blif /tmp/y z/output.blif\n";
        let script = read(text).expect("it is served");
        assert_eq!((script.read.as_str(), script.library.as_str()), ("/tmp/y/input.blif", "a b;touch x.genlib"));
        assert_eq!((script.written.as_str(), script.due.as_deref()), ("/tmp/y z/output.blif", Some("500")));
    }

    #[test]
    fn what_cannot_be_served_is_named() {
        let told = |text: &str| read(text).expect_err("it is not served");
        assert!(told("read_lib -w \"l.lib\"\n").contains("`-liberty`"));
        assert!(told("read_lut /tmp/l\n").contains("`-lut`"));
        assert!(told("read_blif a\nwrite_blif b\n").contains("-genlib"));
        assert!(told("read_library c\n").contains("read_blif"));
        let notes = read("read_blif a\nread_library c\nread_constr -v \"x\"\nwrite_blif b\n").expect("served").notes;
        assert!(notes[0].contains("`-constr`"));
    }
}
