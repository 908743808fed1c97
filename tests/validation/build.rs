//! Links libplanner.a, which `rt lib` in crates/planner writes to out/ there.

fn main() {
    let folder = format!("{}/../../crates/planner/out", env!("CARGO_MANIFEST_DIR"));
    println!("cargo::rerun-if-changed={folder}/libplanner.a");
    println!("cargo::rustc-link-search=native={folder}");
    println!("cargo::rustc-link-lib=static=planner");
}
