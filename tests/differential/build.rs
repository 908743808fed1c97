//! With PLANNER_LIB set to the folder of libplanner.a, links it; without, the mock stands in for it.

fn main() {
    println!("cargo::rerun-if-env-changed=PLANNER_LIB");
    println!("cargo::rustc-check-cfg=cfg(linked)");
    if let Ok(folder) = std::env::var("PLANNER_LIB") {
        println!("cargo::rerun-if-changed={folder}/libplanner.a");
        println!("cargo::rustc-cfg=linked");
        println!("cargo::rustc-link-search=native={folder}");
        println!("cargo::rustc-link-lib=static=planner");
    }
}
