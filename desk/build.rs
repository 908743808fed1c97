//! Links libplanner.a from the folder PLANNER_LIB (crates/planner/out if it is not set), and takes from the C header its
//! numbers and which of the later functions it has.

use std::{env, fs, path::Path};

/// Functions that came after the first delivery: where the header has one, its verb is compiled.
const LATER: [&str; 2] = ["planner_find", "planner_page"];

/// Numbers that the header gives names to, without their PLANNER_.
const NUMBERS: [&str; 16] = [
    "LEVELS_MOST",
    "ACTIONS_MOST",
    "OLD_MODEL_BYTES_MOST",
    "TO_NEW_MODEL_BYTES",
    "NODES_MOST",
    "NODE_WORDS",
    "WORK_WORDS",
    "STAGE_WORDS",
    "PEAK_WORDS",
    "MODEL_BYTES_MOST",
    "NAME_LETTERS_MOST",
    "STACK_BYTES_A_NODE",
    "STACK_BYTES_BESIDE",
    "VALUE_BYTES",
    "PRUNE_BYTES",
    "TOTAL_BYTES",
];

/// The first number behind the name in its `#define`.
fn number(header: &str, name: &str) -> u64 {
    let defined = format!("#define PLANNER_{name}");
    let line = header.lines().find(|line| line.strip_prefix(&defined).is_some_and(|rest| rest.starts_with([' ', '('])));
    let rest = line.unwrap_or_else(|| panic!("the header has no PLANNER_{name}")).strip_prefix(&defined).unwrap();
    let rest = rest.replace("size_t", "").replace("(nodes)", "");
    let digits: String = rest.chars().skip_while(|c| !c.is_ascii_digit()).take_while(char::is_ascii_digit).collect();
    digits.parse().unwrap_or_else(|_| panic!("PLANNER_{name} has no number"))
}

fn main() {
    let here = env::var("CARGO_MANIFEST_DIR").unwrap();
    let root = Path::new(&here).parent().unwrap();
    let path = root.join("include/planner.h");
    println!("cargo::rerun-if-changed={}", path.display());
    let header = fs::read_to_string(&path).expect("include/planner.h");
    for name in LATER {
        println!("cargo::rustc-check-cfg=cfg({name})");
        if header.contains(&format!("{name}(")) {
            println!("cargo::rustc-cfg={name}");
        }
    }
    let numbers = NUMBERS.map(|name| format!("pub const {name}: usize = {};\n", number(&header, name)));
    fs::write(Path::new(&env::var("OUT_DIR").unwrap()).join("header.rs"), numbers.concat()).unwrap();
    println!("cargo::rerun-if-env-changed=PLANNER_LIB");
    let folder = env::var("PLANNER_LIB").unwrap_or_else(|_| root.join("crates/planner/out").display().to_string());
    println!("cargo::rerun-if-changed={folder}/libplanner.a");
    println!("cargo::rustc-link-search=native={folder}");
    println!("cargo::rustc-link-lib=static=planner");
}
