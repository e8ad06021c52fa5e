//! Which tree and which kit the program was built of.

/// The package's version, the commit, and the identity of the kit that proved the calls; build.rs asks for both.
pub fn version(program: &str) -> String {
    let commit = match env!("ARRAYMAP_COMMIT") {
        "" => String::new(),
        commit => format!(" ({commit})"),
    };
    let kit = match env!("ARRAYMAP_KIT") {
        "" => "of a kit that did not say its name when this was built",
        kit => kit,
    };
    format!("{program} {}{commit}\nthe calls are proved by {kit}\n", env!("CARGO_PKG_VERSION"))
}
