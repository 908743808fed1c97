//! Compares every outcome of libplanner.a with the second program: numbers, places, all lent words, peaks too, values,
//! names and actions found by them, listings, pages, models of the other form and from text, paths cut off, totals of two
//! sites, plain working, and whether actions are sure. See tests/README.md for the link line.

mod conversion;
mod expected;
mod importing;
mod meter;
#[cfg(not(linked))]
#[path = "mock.rs"]
mod planner;
#[cfg(linked)]
mod planner;
mod pruning;
mod speed;
mod totals;

use models::{
    chain, damaged, deep, dry_inlet, mixed, near_limit, of_length, pond, pond_kept, rain, rain_tanks_kept, random,
    releases, reservoirs, settings, staircases, steep_end, wet_reservoirs, Rng, MODEL_BYTES,
};
use reference::widths::{CONDITIONS, LEVELS, NODES_MOST, NODE_WORDS, NUMBERS, PEAK_WORDS, STAGES, WORK_WORDS};
use reference::{solve_with_room, validate, with_deep_stack, Outcome, State};
use std::fmt::Debug;
use std::time::Instant;

const USAGE: &str = "differential random [COUNT [SEED]]      random models, tables, states, damage
differential endurance [COUNT [SEED]]   the same tables and buffer for one model after another
differential large                      the large models and texts, with times, their other form, and long paths
differential speed                      the README's figures, library and second program in one run
differential time MODEL HORIZON         the time of both to solve the model of a file";

/// Success and the refusals 1 to 26 of both documents.
const NUMBERS_GIVEN: usize = 27;

/// What a call was made with, kept for the report of a difference.
struct Calls {
    by_number: [u64; NUMBERS_GIVEN],
    /// Values and worths that were none.
    none: u64,
    /// Paths that were cut off.
    cut: u64,
    /// Actions that were sure.
    sure: u64,
    /// Totals of two sites that were not none.
    together: u64,
    model: Vec<u8>,
    round: u64,
}

impl Calls {
    fn check<T: PartialEq + Debug + ?Sized>(
        &self,
        function: &str,
        what: &str,
        theirs: &T,
        ours: &T,
        arguments: &dyn Debug,
    ) {
        if theirs != ours {
            let path = std::env::temp_dir().join("differential-model");
            let saved = std::fs::write(&path, &self.model).map_or("not saved".into(), |()| path.display().to_string());
            println!("DIFFERENT {function} in round {}: {what}", self.round);
            println!("arguments {arguments:?}\nmodel {saved}");
            println!("library   {}\nreference {}", short(theirs), short(ours));
            std::process::exit(1);
        }
    }

    fn count(&mut self, number: u32) {
        self.by_number[number as usize] += 1;
    }

    /// The same of a value or a worth; one without an action is none.
    fn count_reading(&mut self, number: u32, out: &[u8]) {
        self.count(number);
        self.none += u64::from(number == 0 && out[4..8] == [0; 4]);
    }
}

fn short(value: &(impl Debug + ?Sized)) -> String {
    format!("{value:?}").chars().take(2_000).collect()
}

/// The lent tables of a solve.
#[derive(Clone, PartialEq, Debug)]
struct Tables {
    nodes: Vec<i64>,
    stages: Vec<u32>,
    work: Vec<u32>,
    peaks: Vec<u32>,
}

impl Tables {
    /// The lengths are those of nodes, stages, work and peaks.
    fn full_of_anything(rng: &mut Rng, lengths: [usize; 4]) -> Tables {
        let [nodes, stages, work, peaks] = lengths.map(|length| (0..length).map(|_| rng.word()).collect::<Vec<u64>>());
        let narrow = |words: Vec<u64>| words.into_iter().map(|word| word as u32).collect();
        Tables {
            nodes: nodes.into_iter().map(|word| word as i64).collect(),
            stages: narrow(stages),
            work: narrow(work),
            peaks: narrow(peaks),
        }
    }
}

fn bytes(rng: &mut Rng, length: usize) -> Vec<u8> {
    (0..length).map(|_| rng.word() as u8).collect()
}

/// An `out` for an answer of so many bytes: often longer, now and then too short.
fn out(rng: &mut Rng, answer: usize) -> Vec<u8> {
    let length = if rng.once_in(30) { rng.below(answer) } else { answer + rng.pick(&[0, 0, 1, 9]) };
    bytes(rng, length)
}

fn compare_solve(calls: &mut Calls, rng: &mut Rng, horizon: u32, mut tables: Tables) -> (u32, Tables) {
    let model = calls.model.clone();
    let mut ours = tables.clone();
    let mut out = out(rng, 8);
    let mut our_out = out.clone();
    let Tables { nodes, stages, work, peaks } = &mut tables;
    let arguments = (horizon, nodes.len(), stages.len(), work.len(), peaks.len(), out.len());
    let number = planner::solve(&model, horizon, nodes, stages, work, peaks, &mut out);
    let Tables { nodes, stages, work, peaks } = &mut ours;
    let our_number = expected::solved(&model, horizon, nodes, stages, work, peaks, &mut our_out);
    calls.check("solve", "number", &number, &our_number, &arguments);
    calls.check("solve", "place, peak", &out, &our_out, &arguments);
    calls.check("solve", "peaks", &tables.peaks, &ours.peaks, &arguments);
    calls.check("solve", "tables", &tables, &ours, &arguments);
    calls.count(number);
    (number, tables)
}

/// Value and plain working at one state; their words are the same where both answer (decision 79).
fn compare_state(calls: &mut Calls, rng: &mut Rng, tables: &Tables, steps: u32, is_solved: bool) {
    let model = calls.model.clone();
    let state = state(rng, &model);
    let mut from_tables = out(rng, 24);
    let mut ours = from_tables.clone();
    let arguments = (&tables.stages, tables.nodes.len(), steps, state, ours.len());
    let number = planner::value(&model, &tables.nodes, &tables.stages, steps, state, &mut from_tables);
    let our_number = expected::valued(&model, &tables.nodes, &tables.stages, steps, state, &mut ours);
    calls.check("value", "number", &number, &our_number, &arguments);
    calls.check("value", "answer", &from_tables, &ours, &arguments);
    calls.count_reading(number, &from_tables);
    if cost(&model, steps) > 20_000 {
        return;
    }
    let mut from_model = out(rng, 24);
    let mut ours = from_model.clone();
    let other_number = planner::worth(&model, steps, state, &mut from_model);
    let our_number = expected::worked(&model, steps, state, &mut ours);
    calls.check("worth", "number", &other_number, &our_number, &arguments);
    calls.check("worth", "answer", &from_model, &ours, &arguments);
    calls.count_reading(other_number, &from_model);
    if is_solved && number == 0 && other_number == 0 {
        calls.check("value and worth", "answer", &from_tables[..24].to_vec(), &from_model[..24].to_vec(), &arguments);
    }
}

/// Whether the best action of a state is sure: for an e around where that turns, and for any other.
fn compare_sure(calls: &mut Calls, rng: &mut Rng, steps: u32) {
    let model = calls.model.clone();
    if cost(&model, steps) > 20_000 {
        return;
    }
    let state = state(rng, &model);
    let turn = (0..31).fold(0, |e, bit| {
        let more = e | 1 << (30 - bit);
        if reference::sure(&model, steps, state, more) == Ok(true) {
            more
        } else {
            e
        }
    });
    let any = rng.word() as i32 >> rng.below(32);
    let e = rng.pick(&[0, 0, turn, turn, turn.saturating_add(1), turn / 2, any, i32::MAX, -1, i32::MIN]);
    let mut out = out(rng, 8);
    let mut ours = out.clone();
    let arguments = (steps, state, e, out.len());
    let number = planner::sure(&model, steps, state, e, &mut out);
    let our_number = expected::assured(&model, steps, state, e, &mut ours);
    calls.check("sure", "number", &number, &our_number, &arguments);
    calls.check("sure", "answer", &out, &ours, &arguments);
    calls.count(number);
    calls.sure += u64::from(number == 0 && out[4] == 1);
}

/// Next states that plain working meets, about.
fn cost(model: &[u8], steps: u32) -> u64 {
    if validate(model).0 != 0 || steps > STAGES as u32 {
        return 0;
    }
    (u64::from(actions(model)) << model[2]).saturating_pow(steps)
}

/// The actions of a model's site, 8 where there is none.
fn actions(model: &[u8]) -> u16 {
    model.get(3..5).map_or(8, |bytes| u16::from_le_bytes([bytes[0], bytes[1]]))
}

/// The levels and conditions of a model's site, as far as there can be so many.
fn site(model: &[u8]) -> (usize, u32) {
    let number = |place: usize, most: usize| model.get(place).map_or(most, |&number| most.min(number.into()));
    (number(1, LEVELS), number(2, CONDITIONS) as u32)
}

fn compare_name(calls: &mut Calls, rng: &mut Rng, action: u32) {
    let model = calls.model.clone();
    let mut out = out(rng, 24);
    let mut ours = out.clone();
    let number = planner::name(&model, action, &mut out);
    let our_number = expected::named(&model, action, &mut ours);
    calls.check("name", "number", &number, &our_number, &action);
    calls.check("name", "answer", &out, &ours, &action);
    calls.count(number);
}

/// A name to send: one of the model's, as it stands or changed, or any bytes; with spaces behind it.
fn any_name(rng: &mut Rng, model: &[u8]) -> Vec<u8> {
    let action = rng.between(1, actions(model).max(1).into()) as u32;
    let mut name = reference::name(model, action).map_or(Vec::new(), |name| name.to_vec());
    let place = rng.below(name.len() + 1);
    match rng.below(12) {
        0 => {
            let length = rng.pick(&[1, 3, 16, 17, 300]);
            name = bytes(rng, length);
        }
        1 => name.clear(),
        2 => name.truncate(place),
        3 => name.insert(place, rng.pick(&[0x00, 0x1F, 0x7F, 0xA0, 0xFF])),
        4 => name.insert(place, b' '),
        5 if place < name.len() => name[place] ^= 0x20,
        6 => name.extend(name.clone()),
        7 => name = rng.pick(&[&b"A"[..], b" A", b"A B", b"a"]).to_vec(),
        _ => {}
    }
    name.resize(name.len() + rng.pick(&[0, 0, 0, 1, 9, 70_000]), b' ');
    name
}

/// Asking for the name of the action that is found gives the name sent, without its trailing spaces.
fn compare_find(calls: &mut Calls, rng: &mut Rng) {
    let model = calls.model.clone();
    let name = any_name(rng, &model);
    let mut out = out(rng, 8);
    let mut ours = out.clone();
    let number = planner::find(&model, &name, &mut out);
    let our_number = expected::found(&model, &name, &mut ours);
    calls.check("find", "number", &number, &our_number, &name);
    calls.check("find", "answer", &out, &ours, &name);
    calls.count(number);
    if number == 0 {
        let action = u32::from_le_bytes(out[4..8].try_into().expect("four bytes"));
        let mut named = [0; 24];
        calls.check("find and name", "number", &planner::name(&model, action, &mut named), &0, &name);
        let length = u32::from_le_bytes(named[4..8].try_into().expect("four bytes")) as usize;
        let spaces = vec![b' '; name.len() - length.min(name.len())];
        calls.check("find and name", "name", &[&named[8..8 + length], &spaces].concat(), &name, &action);
    }
}

fn compare_listing(calls: &mut Calls, rng: &mut Rng, tables: &Tables, horizon: u32) {
    let model = calls.model.clone();
    let length =
        reference::listing(&model, horizon, &tables.nodes, &tables.stages, usize::MAX, 0).map_or(0, |t| t.len());
    let place = rng.pick(&[0, 0, 1, 100]);
    let around = rng.pick(&[0, 0, 1, 50, usize::MAX]);
    let mut text = bytes(rng, (length + place).wrapping_add(around).min(1 << 24));
    let place = if rng.once_in(20) { text.len() + rng.pick(&[0, 1, usize::MAX / 2]) } else { place };
    let mut our_text = text.clone();
    let mut out = out(rng, 8);
    let mut ours = out.clone();
    let arguments = (&tables.stages, tables.nodes.len(), horizon, text.len(), place, out.len());
    let number = planner::listing(&model, horizon, &tables.nodes, &tables.stages, &mut text, place, &mut out);
    let our_number = expected::listed(&model, horizon, &tables.nodes, &tables.stages, &mut our_text, place, &mut ours);
    calls.check("listing", "number", &number, &our_number, &arguments);
    calls.check("listing", "answer", &out, &ours, &arguments);
    calls.check("listing", "text", &text, &our_text, &arguments);
    calls.count(number);
}

/// A page of a state, in a text with room for it or not.
fn compare_page_at(calls: &mut Calls, rng: &mut Rng, tables: &Tables, horizon: u32, state: State) {
    let model = calls.model.clone();
    let place = rng.pick(&[0, 0, 1, 100]);
    let length = around(rng, 51 * (horizon.min(8) as usize) + place);
    let mut text = bytes(rng, length);
    let place =
        if rng.once_in(20) { rng.pick(&[text.len(), text.len() + 1, usize::MAX - 50, usize::MAX]) } else { place };
    let mut our_text = text.clone();
    let mut out = out(rng, 8);
    let mut ours = out.clone();
    let arguments = (&tables.stages, tables.nodes.len(), horizon, state, text.len(), place, out.len());
    let number = planner::page(&model, horizon, &tables.nodes, &tables.stages, state, &mut text, place, &mut out);
    let our_number =
        expected::paged(&model, horizon, &tables.nodes, &tables.stages, state, &mut our_text, place, &mut ours);
    calls.check("page", "number", &number, &our_number, &arguments);
    calls.check("page", "answer", &out, &ours, &arguments);
    calls.check("page", "text", &text, &our_text, &arguments);
    calls.count(number);
}

/// A length around what is needed: mostly enough, now and then a byte too few.
fn around(rng: &mut Rng, needed: usize) -> usize {
    if rng.once_in(12) {
        needed.saturating_sub(rng.pick(&[1, 1, 30, 51]))
    } else {
        needed + rng.pick(&[0, 0, 1, 50])
    }
}

fn compare_page(calls: &mut Calls, rng: &mut Rng, tables: &Tables, horizon: u32) {
    let state = state(rng, &calls.model.clone());
    compare_page_at(calls, rng, tables, horizon, state);
}

/// Tables that no solve left: a leaf with the largest numbers, and states with the largest numerators; values of -1/2,
/// 0 and whole ones; none.
fn compare_foreign_pages(calls: &mut Calls, rng: &mut Rng) {
    let (m, n) = site(&calls.model);
    let limit: i64 = (1 << 62) - 1;
    for _ in 0..4 {
        let largest = rng.once_in(2);
        let mut number =
            || if largest { rng.pick(&[limit, -limit]) } else { rng.pick(&[0, 0, 1, -1, 2, limit, -limit]) };
        let mut row = [0; NODE_WORDS];
        row[1..=NUMBERS].fill_with(&mut number);
        row[NUMBERS + 1] = 1;
        if rng.once_in(4) {
            row = none_row(rng);
        }
        let tables = Tables { nodes: row.to_vec(), stages: vec![1; STAGES], work: Vec::new(), peaks: Vec::new() };
        let mut numerator = || rng.pick(&[i32::MIN, i32::MAX, i32::MIN, i32::MAX, 0, 1, -1, 7]);
        let nums = std::array::from_fn(|i| if i < m { numerator() } else { 0 });
        let state = State { mask: rng.word() as u32 & ((1 << n) - 1), nums, d: rng.pick(&[1, 1, 2, 3, i32::MAX]) };
        let horizon = rng.pick(&[1, 3, 8]);
        compare_page_at(calls, rng, &tables, horizon, state);
    }
}

fn state(rng: &mut Rng, model: &[u8]) -> State {
    let (m, n) = site(model);
    let (size, once) = (rng.pick(&[3, 30, 3_000, i32::MAX]), !rng.once_in(15));
    let d = rng.pick(&[1, 1, 1, 2, 3, 10, 1_000, i32::MAX]);
    State {
        mask: if once { rng.word() as u32 & ((1 << n) - 1) } else { rng.word() as u32 >> rng.below(32) },
        nums: std::array::from_fn(|i| if i < m || rng.once_in(40) { (rng.word() as i32) % size } else { 0 }),
        d: if rng.once_in(30) { rng.pick(&[0, -1, i32::MIN]) } else { d },
    }
}

fn any_horizon(rng: &mut Rng) -> u32 {
    if rng.once_in(20) {
        rng.pick(&[0, 9, 255, u32::MAX])
    } else {
        rng.pick(&[1, 1, 2, 2, 2, 3, 3, 4, 5, 6, 7, 8])
    }
}

/// The row of none: zeros behind its kind. Half of them have another word too, which is a cause for 14.
fn none_row(rng: &mut Rng) -> [i64; NODE_WORDS] {
    let mut row = [0; NODE_WORDS];
    row[0] = 3;
    if rng.once_in(2) {
        row[1 + rng.below(NODE_WORDS - 1)] = rng.pick(&[1, 1, -1, 2, i64::MIN, i64::MAX]);
    }
    row
}

/// Changes a few words of solved tables, mostly to what row 14 or 15 is about.
fn damage(rng: &mut Rng, tables: &mut Tables) {
    let rows = tables.stages.iter().max().map_or(1, |&rows| rows.max(1)) as usize;
    for _ in 0..rng.pick(&[1, 1, 2, 4]) {
        let row = rng.below(rows);
        let limit = (1 << 62) - 1;
        let small = rng.between(-2, 9).into();
        let near = row as i64 + i64::from(rng.between(0, 3));
        let word = rng.pick(&[small, small, near, limit, limit + 1, -limit, -limit - 1, i64::MIN, i64::MAX]);
        match rng.below(12) {
            0 if !tables.stages.is_empty() => {
                let stage = rng.below(tables.stages.len());
                tables.stages[stage] = rng.pick(&[0, 1, rows as u32, rows as u32 + 1, u32::MAX]);
            }
            1 => tables.nodes.truncate(NODE_WORDS * rows - rng.below(NODE_WORDS + 1)),
            2 | 3 => {
                let words = none_row(rng);
                if let Some(row) = tables.nodes.get_mut(NODE_WORDS * row..NODE_WORDS * (row + 1)) {
                    row.copy_from_slice(&words);
                }
            }
            _ => {
                if let Some(place) = tables.nodes.get_mut(NODE_WORDS * row + rng.below(NODE_WORDS)) {
                    *place = word;
                }
            }
        }
    }
}

/// A model, valid or damaged, or too long.
fn any_model(rng: &mut Rng) -> Vec<u8> {
    let mut model = random(rng);
    if rng.once_in(3) {
        model = damaged(rng, &model);
    }
    if rng.once_in(300) {
        model.resize(rng.pick(&[65_536, MODEL_BYTES, MODEL_BYTES + 1, 300_000]), 0x10);
    }
    model
}

/// Node and work words of tables of so many nodes; one of the two may have room for more.
fn words(rng: &mut Rng, nodes: usize) -> (usize, usize) {
    let more = rng.pick(&[0, 0, 1, 3]);
    let (more_nodes, more_work) = if rng.once_in(2) { (nodes + more, nodes) } else { (nodes, nodes + more) };
    (NODE_WORDS * more_nodes + rng.below(NODE_WORDS), WORK_WORDS * more_work + rng.below(WORK_WORDS))
}

/// Solves with room at the peak, around it and anywhere below; the last tables that were solved.
fn solve_around_peak(calls: &mut Calls, rng: &mut Rng, horizon: u32) -> Option<Tables> {
    let most = rng.pick(&[60, 200, 600, 2_000]);
    let first = solve_with_room(&calls.model, horizon, most);
    let peak = if first.number == 0 { first.peak as usize } else { most };
    let below = rng.below(peak + 1);
    let mut solved = None;
    for size in [peak, peak.saturating_sub(1), peak + 1, below] {
        let (node_words, work_words) = words(rng, size);
        let stage_words = if rng.once_in(40) { rng.pick(&[0, 7, 9]) } else { STAGES };
        let peak_words = if rng.once_in(40) { rng.pick(&[0, 1, 8, 400, 402, 802]) } else { PEAK_WORDS };
        let tables = Tables::full_of_anything(rng, [node_words, stage_words, work_words, peak_words]);
        let (number, tables) = compare_solve(calls, rng, horizon, tables);
        if number == 0 {
            solved = Some(tables);
        }
        if first.is_untouched() {
            break;
        }
    }
    solved
}

fn one_round(calls: &mut Calls, rng: &mut Rng) {
    calls.model = any_model(rng);
    let horizon = any_horizon(rng);
    let solved = solve_around_peak(calls, rng, horizon);
    for _ in 0..2 {
        let last = u32::from(actions(&calls.model));
        let action = match rng.below(9) {
            0 => rng.pick(&[0, last + 1, 401, u32::MAX]),
            1 => last,
            _ => rng.between(1, last.clamp(1, 400) as i32) as u32,
        };
        compare_name(calls, rng, action);
    }
    for _ in 0..4 {
        compare_find(calls, rng);
    }
    // A source of its own: the rest of a round is what its seed gives without it.
    pruning::round(calls, &mut Rng(rng.0 ^ 0x0A), solved.as_ref());
    let prices = &mut Rng(rng.0 ^ 0x0C);
    for _ in 0..3 {
        let steps = any_horizon(prices);
        compare_sure(calls, prices, steps);
    }
    totals::round(calls, &mut Rng(rng.0 ^ 0x0E), solved.as_ref());
    let is_solved = solved.is_some();
    let mut tables = solved.unwrap_or_else(|| Tables::full_of_anything(rng, [10 * NODE_WORDS, STAGES, 0, 0]));
    for _ in 0..if is_solved { 6 } else { 2 } {
        let steps = any_horizon(rng).min(if rng.once_in(9) { u32::MAX } else { horizon });
        compare_state(calls, rng, &tables, steps, is_solved);
    }
    let shorter = any_horizon(rng).min(horizon);
    compare_listing(calls, rng, &tables, shorter);
    compare_page(calls, rng, &tables, shorter);
    compare_foreign_pages(calls, rng);
    for _ in 0..3 {
        let mut bad = tables.clone();
        damage(rng, &mut bad);
        let steps = any_horizon(rng).min(horizon);
        compare_state(calls, rng, &bad, steps, false);
        compare_listing(calls, rng, &bad, horizon);
        compare_page(calls, rng, &bad, horizon);
    }
    tables.stages.truncate(rng.pick(&[STAGES, 7, 0]));
    compare_state(calls, rng, &tables, horizon, false);
    compare_listing(calls, rng, &tables, horizon);
    compare_page(calls, rng, &tables, horizon);
    conversion::round(calls, rng, horizon);
    // As above.
    importing::round(calls, &mut Rng(rng.0 ^ 0x0D));
}

/// The same tables and buffer, never cleared from outside, for one model after another: each time as with fresh ones.
fn endurance_round(calls: &mut Calls, rng: &mut Rng, lent: &mut Tables, buffer: &mut [u8]) {
    calls.model = any_model(rng);
    let horizon = any_horizon(rng);
    let (node_words, work_words) = (rng.below(lent.nodes.len() + 1), rng.below(lent.work.len() + 1));
    // Fewer words than the peaks are, or one more.
    let peak_words = if rng.once_in(40) { rng.below(lent.peaks.len() + 1) } else { PEAK_WORDS };
    let (mut out, mut fresh_out, mut our_out) = ([0; 8], [0; 8], [0; 8]);
    let mut fresh = Tables {
        nodes: vec![0; node_words],
        stages: vec![0; STAGES],
        work: vec![0; work_words],
        peaks: vec![0; peak_words],
    };
    let mut ours = lent.clone();
    let Tables { nodes, stages, work, peaks } = &mut *lent;
    let (nodes, work, peaks) = (&mut nodes[..node_words], &mut work[..work_words], &mut peaks[..peak_words]);
    let number = planner::solve(&calls.model, horizon, nodes, stages, work, peaks, &mut out);
    let Tables { nodes, stages, work, peaks } = &mut fresh;
    let fresh_number = planner::solve(&calls.model, horizon, nodes, stages, work, peaks, &mut fresh_out);
    let Tables { nodes, stages, work, peaks } = &mut ours;
    let (nodes, work, peaks) = (&mut nodes[..node_words], &mut work[..work_words], &mut peaks[..peak_words]);
    let our_number = expected::solved(&calls.model, horizon, nodes, stages, work, peaks, &mut our_out);
    let arguments = (horizon, node_words, work_words, peak_words);
    calls.check("solve", "number, fresh and lent", &fresh_number, &number, &arguments);
    calls.check("solve", "answer, fresh and lent", &fresh_out, &out, &arguments);
    calls.check("solve", "number", &number, &our_number, &arguments);
    calls.check("solve", "place, peak", &out, &our_out, &arguments);
    calls.check("solve", "peaks, and the words not lent", &lent.peaks, &ours.peaks, &arguments);
    calls.check("solve", "tables, and the words not lent", lent, &ours, &arguments);
    if matches!(number, 0 | 11 | 12) {
        calls.check("solve", "fresh nodes", &fresh.nodes[..], &lent.nodes[..node_words], &arguments);
        calls.check("solve", "fresh stages", &fresh.stages, &lent.stages, &arguments);
        calls.check("solve", "fresh peaks", &fresh.peaks[..], &lent.peaks[..peak_words], &arguments);
    }
    calls.count(number);
    compare_state(calls, rng, lent, horizon, number == 0);
    pruning::endurance(calls, &mut Rng(rng.0 ^ 0x0A), lent);
    conversion::endurance(calls, rng, buffer);
    importing::endurance(calls, &mut Rng(rng.0 ^ 0x0D), buffer);
}

fn large(calls: &mut Calls) {
    let cases = [
        ("pond", pond(), 8),
        ("pond_kept", pond_kept(), 8),
        ("rain", rain(), 8),
        ("steep_end", steep_end(), 1),
        ("staircases", staircases(), 1),
        ("near_limit", near_limit(), 6),
        ("rain_tanks_kept", rain_tanks_kept(), 4),
        ("near_limit", near_limit(), 7),
        ("releases", releases(&[10, 15, 20, 25]), 8),
        ("reservoirs", reservoirs(), 8),
        ("dry_inlet", dry_inlet(), 8),
        ("wet_reservoirs", wet_reservoirs(), 8),
        ("deep", deep(), 4),
        ("seven tanks", chain(7), 8),
        ("eight tanks", chain(8), 6),
        ("eight levels mixed", mixed(), 1),
        ("eight levels mixed", mixed(), 2),
        ("400 settings", settings(), 8),
        ("the longest model", of_length(MODEL_BYTES), 1),
        ("a model too long", of_length(MODEL_BYTES + 1), 1),
    ];
    for (name, model, horizon) in cases {
        let whole = solve_with_room(&model, horizon, NODES_MOST);
        calls.model = model;
        for size in [NODES_MOST, whole.peak as usize, whole.peak.saturating_sub(1) as usize] {
            let (nodes, work) = (vec![-1; NODE_WORDS * size], vec![9; WORK_WORDS * size]);
            let mut tables = Tables { nodes, stages: vec![7; STAGES], work, peaks: vec![5; PEAK_WORDS] };
            let mut ours = tables.clone();
            let mut out = [0; 8];
            let start = Instant::now();
            let Tables { nodes, stages, work, peaks } = &mut tables;
            let number = planner::solve(&calls.model, horizon, nodes, stages, work, peaks, &mut out);
            let time = start.elapsed().as_secs_f64();
            let start = Instant::now();
            let done: Outcome = solve_with_room(&calls.model, horizon, size);
            let our_time = start.elapsed().as_secs_f64();
            let Tables { nodes, stages, work, peaks } = &mut ours;
            expected::leave(&done, nodes, stages, work, peaks);
            let our_out = [done.place.to_le_bytes(), done.peak.to_le_bytes()].concat();
            calls.check(name, "number", &number, &done.number, &size);
            calls.check(name, "place, peak", &out.to_vec(), &our_out, &size);
            calls.check(name, "peaks", &tables.peaks, &ours.peaks, &size);
            calls.check(name, "tables", &tables, &ours, &size);
            calls.count(number);
            let (bytes, rows, peak) = (calls.model.len(), done.nodes.len() / NODE_WORDS, done.peak);
            println!("{name}: {bytes} bytes, horizon {horizon}, N {size}: number {number}, peak {peak}, {rows} nodes");
            println!("  library {time:.3} s, reference {our_time:.3} s");
        }
    }
}

fn usage() -> ! {
    eprintln!("{USAGE}");
    std::process::exit(2)
}

fn time(path: &str, horizon: u32) {
    match std::fs::read(path) {
        Ok(model) => speed::time(model, horizon),
        Err(error) => {
            eprintln!("{path}: {error}");
            std::process::exit(2)
        }
    }
}

/// Each round has a seed of its own, so that one can be run again alone.
fn rounds(calls: &mut Calls, count: u64, seed: u64, mut round: impl FnMut(&mut Calls, &mut Rng)) {
    for number in 0..count {
        calls.round = number;
        round(calls, &mut Rng(seed.wrapping_mul(1_000_003).wrapping_add(number)));
    }
}

fn compare(mode: &str, count: u64, seed: u64) {
    let mut calls =
        Calls { by_number: [0; NUMBERS_GIVEN], none: 0, cut: 0, sure: 0, together: 0, model: Vec::new(), round: 0 };
    let start = Instant::now();
    let lengths = [NODE_WORDS * 2_000 + 3, STAGES, WORK_WORDS * 2_000 + 5, PEAK_WORDS + 1];
    let mut lent = Tables::full_of_anything(&mut Rng(seed), lengths);
    let mut buffer = bytes(&mut Rng(seed), 20_000);
    match mode {
        "large" => {
            large(&mut calls);
            conversion::large(&mut calls, &mut Rng(seed));
            pruning::large(&mut calls, &mut Rng(seed));
            importing::large(&mut calls, &mut Rng(seed));
        }
        "random" => rounds(&mut calls, count, seed, one_round),
        "endurance" => {
            rounds(&mut calls, count, seed, |calls, rng| endurance_round(calls, rng, &mut lent, &mut buffer));
        }
        _ => usage(),
    }
    let library = if cfg!(linked) { "libplanner.a" } else { "the mock" };
    let time = start.elapsed().as_secs_f64();
    let total = calls.by_number.iter().sum::<u64>();
    println!("{mode}: {total} calls of {library}, all as expected, seed {seed}, {time:.1} s");
    let numbers: Vec<String> =
        calls.by_number.iter().enumerate().map(|(number, count)| format!("{number}:{count}")).collect();
    let (none, cut, sure, together) = (calls.none, calls.cut, calls.sure, calls.together);
    println!(
        "by number {}; none was read {none} times, {cut} paths were cut off, {sure} actions were sure",
        numbers.join(" ")
    );
    println!("two sites came to a total {together} times");
}

fn run(args: &[String]) {
    let number =
        |place: usize, otherwise: u64| args.get(place).map_or(otherwise, |arg| arg.parse().unwrap_or_else(|_| usage()));
    match args.first().map_or("", |mode| mode) {
        "speed" => speed::speed(),
        "count" => speed::count(),
        "time" if args.len() == 3 => time(&args[1], number(2, 1) as u32),
        mode => compare(mode, number(1, 2_000), number(2, 1)),
    }
}

fn main() {
    let args: Vec<String> = std::env::args().skip(1).collect();
    with_deep_stack(|| run(&args));
}
