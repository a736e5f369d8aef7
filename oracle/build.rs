//! Takes the Rust text as it stands, appends observers of private fields, and
//! writes the list of modules that the crate root includes; and the channel
//! tables of each size that can be made.

use std::path::{Path, PathBuf};
use std::{env, fs, process};

/// The files of the Rust text, and whether `observers/` has a part to append.
const FILES: [(&str, bool); 10] = [
    ("agentstore", false),
    ("cap", true),
    ("capslots", true),
    ("held", false),
    ("ipc", true),
    ("irqcap", true),
    ("manifest", false),
    ("paging", false),
    ("runqueue", false),
    ("taskcap", true),
];

/// Sizes that the examples of the documents ask for, and nothing that is drawn.
const EXAMPLES: [[usize; 3]; 1] = [[4, 8, 2]];

fn main() {
    let here = PathBuf::from(env::var("CARGO_MANIFEST_DIR").unwrap());
    let out = PathBuf::from(env::var("OUT_DIR").unwrap());
    println!("cargo::rerun-if-env-changed=HARBOR_SRC");
    let from = match env::var_os("HARBOR_SRC") {
        Some(folder) => PathBuf::from(folder),
        None => here.join("../../shared/docs/src"),
    };
    let mut list = String::new();
    for (name, observed) in FILES {
        let mut text = read(&source(&from, name));
        if observed {
            text += "\n// Appended by the oracle.\n\n";
            text += &read(&here.join(format!("observers/{name}.rs")));
        }
        let path = out.join(format!("{name}.rs"));
        fs::write(&path, text).unwrap();
        list += &format!("#[allow(dead_code)]\n#[path = {path:?}]\npub mod {name};\n");
    }
    fs::write(out.join("harbor.rs"), list).unwrap();
    fs::write(out.join("sizes.rs"), tables(&sizes(), &EXAMPLES)).unwrap();
}

/// The sizes that are compiled, since all 17,160 would be too many: every small
/// table; every number of endpoints with the mailboxes that they serve, at a
/// depth that goes round; every depth at the greatest sizes.
fn sizes() -> Vec<[usize; 3]> {
    let mut list = Vec::new();
    for m in 0..=3 {
        for e in 0..=6 {
            list.extend((1..=2).map(|d| [m, e, d]));
        }
    }
    list.extend((0..=64).map(|e| [e / 2, e, 1 + e % 8]));
    list.extend((1..=8).map(|d| [32, 64, d]));
    list.sort_unstable();
    list.dedup();
    list
}

/// `SIZES` and `EXAMPLES`, and `fresh`, which makes a table of one of them.
fn tables(sizes: &[[usize; 3]], examples: &[[usize; 3]]) -> String {
    let arms: String = sizes
        .iter()
        .chain(examples)
        .map(|[m, e, d]| format!("[{m}, {e}, {d}] => Box::new(Table::<{m}, {e}, {d}>::new()),\n"))
        .collect();
    format!(
        "pub const SIZES: [[usize; 3]; {}] = {sizes:?};
        pub const EXAMPLES: [[usize; 3]; {}] = {examples:?};\n
        fn fresh(sizes: [usize; 3]) -> Option<Box<dyn Channels>> {{
            Some(match sizes {{\n{arms}_ => return None,\n}})\n}}\n",
        sizes.len(),
        examples.len()
    )
}

/// A file of the Rust text, under the name that the documents give it or its own.
fn source(from: &Path, name: &str) -> PathBuf {
    let listed = from.join(format!("src--crates--kernel-core--src--{name}.rs.txt"));
    let plain = from.join(format!("{name}.rs"));
    if !listed.exists() && !plain.exists() {
        stop(&format!(
            "the Rust text is not at {}: no file for {name}. Set HARBOR_SRC to the folder that has it.",
            from.display()
        ));
    }
    if listed.exists() { listed } else { plain }
}

fn read(path: &Path) -> String {
    println!("cargo::rerun-if-changed={}", path.display());
    fs::read_to_string(path).unwrap_or_else(|e| stop(&format!("{}: {e}", path.display())))
}

fn stop(why: &str) -> ! {
    println!("cargo::error={why}");
    process::exit(1)
}
