//! The model files of `examples/`, which are made from the texts there, are what is written here, and those of `examples/old`
//! their old form.

use models::{chain, corner, dry_inlet, old_form, pond, pond_kept, rain};

fn example(name: &str) -> Vec<u8> {
    let path = format!("{}/../../examples/{name}.model", env!("CARGO_MANIFEST_DIR"));
    std::fs::read(&path).expect("an example")
}

#[test]
fn examples_are_written_here() {
    for (name, model) in [("pond", pond()), ("pond_kept", pond_kept()), ("rain", rain())] {
        assert_eq!(example(name), model, "{name}");
        assert_eq!(example(&format!("old/{name}")), old_form(&model), "old {name}");
    }
    // Later than the old form; command 13 has none.
    for (name, model) in [("dry_inlet", dry_inlet()), ("corner", corner()), ("chain", chain(3))] {
        assert_eq!(example(name), model, "{name}");
    }
}
