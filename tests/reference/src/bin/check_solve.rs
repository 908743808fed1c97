//! What `crates/check_solve` has to print, worked out by the second program.

use reference::check_hex::bytes;
use reference::widths::{Form, New, LEVELS, NODE_WORDS, PEAK_WORDS, STAGES, WORK_WORDS};
use reference::{solve, value, Reading, State};

/// Nodes that the lent tables have room for.
const ROOM: usize = 256;

/// A numerator for each level, 0 for those that are not named.
fn levels(named: &[i32]) -> [i32; LEVELS] {
    std::array::from_fn(|i| named.get(i).copied().unwrap_or(0))
}

struct Tables {
    nodes: Vec<i64>,
    stages: Vec<u32>,
}

impl Tables {
    fn solved(&mut self, label: &str, model: &[u8], horizon: u32, n: usize, words: usize) -> usize {
        let done = solve(model, horizon, NODE_WORDS * n, words, WORK_WORDS * n, PEAK_WORDS);
        if !done.is_untouched() {
            self.nodes[..NODE_WORDS * n].fill(0);
            self.nodes[..done.nodes.len()].copy_from_slice(&done.nodes);
            self.stages[..].copy_from_slice(&done.stages);
        }
        print!("{label}, horizon {horizon} room {n} : {} {} peak {} roots ", done.number, done.place, done.peak);
        self.stages[..words].iter().for_each(|root| print!("{root} "));
        println!();
        done.peak as usize
    }

    fn all_horizons(&mut self, label: &str, model: &[u8]) {
        for horizon in 1..=8 {
            let peak = self.solved(label, model, horizon, ROOM, STAGES);
            self.solved(label, model, horizon, peak - 1, 8);
            self.solved(label, model, horizon, peak, 8);
        }
    }

    fn all_steps(&self, label: &str, model: &[u8], mask: u32, level: i32, d: i32) {
        for steps in 0..=9 {
            self.read(label, model, steps, mask, levels(&[level]), d, (self.nodes.len(), 8));
        }
    }

    #[rustfmt::skip]
    fn read(&self, label: &str, model: &[u8], steps: u32, mask: u32, nums: [i32; LEVELS], d: i32, lent: (usize, usize)) {
        let Reading { number, place, action, low, high } =
            value(model, &self.nodes[..lent.0], &self.stages[..lent.1], steps, State { mask, nums, d });
        let sign = if high < 0 { "below 0" } else { "" };
        println!("{label}, steps {steps} : {number} {place} action {action} {low} {sign}");
    }

    fn refused_values(&self, model: &[u8]) {
        let all = (self.nodes.len(), 8);
        self.read("D 0", model, 2, 0, levels(&[20]), 0, all);
        self.read("mask 1 of no condition", model, 2, 1, levels(&[20]), 1, all);
        self.read("level 2 of 1", model, 2, 0, levels(&[20, 1]), 1, all);
        self.read("level 4 of 1, no stage", model, 3, 0, levels(&[20, 0, 0, 1]), 1, all);
        self.read("no stage", model, 3, 0, levels(&[20]), 1, all);
        self.read("no table", model, 2, 0, levels(&[20]), 1, (0, 8));
        self.read("no stage words", model, 2, 0, levels(&[20]), 1, (all.0, 0));
    }
}

fn main() {
    let pond = bytes(
        "S 01 00 02A 01 P 20 01A 10 01000000 OOOKO 22 01A 01 10 OOOOK 32000000 10 OOOOK ffffffff 12 ffffffff OOOK 0a000000
        20 02A 10 01000000 OOOK f6ffffff 10 01000000 OOOKO 12 ffffffff OOOK 0a000000 22 02A 01 ff",
    );
    let rain = bytes(
        "S 01 01 01A 0a 10 01000000 OOOKO 20 01A 10 OOOOK 07000000 21 01A 01 10 01000000 OOOK 6affffff
        10 01000000 OOOK ceffffff 11 05 22 01A 01 ff",
    );
    let weights = bytes(
        "S 01 04 01A 64 10 01000000 OOOKO 20 01A 10 OOOOK 32000000 21 01A 01 10 OOOOK 64000000 21 01A 02 P 21 01A 03
        10 OOOOK 01000000 21 01A 04 10 01000000 OOOKO 22 01A 01 ff",
    );
    let mut lent = Tables { nodes: vec![-1; NODE_WORDS * ROOM], stages: vec![7; STAGES] };
    lent.all_horizons("pond", &pond);
    lent.all_steps("at 20", &pond, 0, 20, 1);
    lent.all_steps("at 39/2", &pond, 0, 39, 2);
    lent.all_steps("at -5", &pond, 0, -5, 1);
    for n in 0..=21 {
        lent.solved("pond", &pond, 2, n, 8);
    }
    lent.all_horizons("rain", &rain);
    lent.all_steps("at 200, dry", &rain, 0, 200, 1);
    lent.all_steps("at 200, rain", &rain, 1, 200, 1);
    lent.all_steps("at -1000/3, rain", &rain, 1, -1000, 3);
    lent.solved("pond", &pond, 2, ROOM, STAGES);
    lent.solved("no step", &pond, 0, ROOM, STAGES);
    lent.solved("nine steps", &pond, 9, ROOM, STAGES);
    lent.solved("no model", &[], 2, ROOM, STAGES);
    lent.solved("262,145 bytes", &[0; New::MODEL_BYTES + 1], 9, ROOM, STAGES);
    lent.solved("seven stage words", &pond, 9, ROOM, STAGES - 1);
    lent.refused_values(&pond);
    for horizon in [2, 3, 8] {
        lent.solved("weights of 100", &weights, horizon, ROOM, STAGES);
    }
    let ended = [&pond[..pond.len() - 1], &bytes("10 01000000 OOOKO 23 ff")].concat();
    for horizon in [1, 2, 8] {
        lent.solved("pond with an end worth", &ended, horizon, ROOM, STAGES);
    }
    lent.all_steps("at 20, end worth", &ended, 0, 20, 1);
    lent.all_steps("at 39/2, end worth", &ended, 0, 39, 2);
    lent.all_steps("at -5, end worth", &ended, 0, -5, 1);
    println!("240 of 240 as in new tables");
}
