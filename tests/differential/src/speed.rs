//! The README's figures: the library and the second program on the same input, in one run.

use crate::meter::{by_callgrind, counted, keep_memory, least_time, Counter};
use crate::{planner, Tables};
use models::{
    chain, commands, deep, near_limit, pond, rain, releases, reservoirs, settings, staircases,
    steps_behind_a_contradiction, usual_text, MODEL_BYTES,
};
use reference::diagram::Store;
use reference::widths::{NODES_MOST, NODE_WORDS, PEAK_WORDS, STAGES, WORK_WORDS};
use reference::{import, prune, solve_with_room, validate, value, worth, State};
use std::hint::black_box;

const STATE: State = State { mask: 0, nums: [39, 0, 0, 0, 0, 0, 0, 0], d: 2 };
const BYTES_A_NODE: usize = NODE_WORDS * size_of::<i64>() + WORK_WORDS * size_of::<u32>();

#[derive(Clone, Copy, PartialEq)]
enum Job {
    /// What no solve can do without: the library's lent words are cleared, the second program's store is made.
    Floor,
    /// For a horizon, in tables of so many nodes.
    Solve(u32, usize),
    Value,
    /// With so many steps.
    Worth(u32),
    Validate,
    /// An accepted path of two turns; the tables are copied before, since the library writes to them.
    Prune,
    /// The row's model is a text.
    Import,
}

/// The path that is proposed: stage, turns, multipliers.
const PATH: (u32, [u8; 2], [i32; 2]) = (1, [1, 0], [1, 1]);

struct Row {
    what: &'static str,
    model: Vec<u8>,
    job: Job,
}

fn row(what: &'static str, model: Vec<u8>, job: Job) -> Row {
    Row { what, model, job }
}

fn solving(what: &'static str, model: Vec<u8>, horizon: u32) -> Row {
    row(what, model, Job::Solve(horizon, NODES_MOST))
}

/// The first two are floors: what every solve has to do, and every reading of the pond.
fn rows() -> Vec<Row> {
    let settings_peak = solve_with_room(&settings(), 8, NODES_MOST).peak as usize;
    vec![
        row("clear all lent words once; the second program's start", Vec::new(), Job::Floor),
        row("validate the pond", pond(), Job::Validate),
        solving("solve two rain tanks, horizon 6", near_limit(), 6),
        solving("solve two rain tanks, horizon 7, which only K4 solves", near_limit(), 7),
        solving("solve the pond with four releases, horizon 8, which only K4 solves", releases(&[10, 15, 20, 25]), 8),
        solving("solve two reservoirs, horizon 8", reservoirs(), 8),
        solving("solve two staircases of 750 tests each", staircases(), 1),
        solving("solve the deepest model known, horizon 4", deep(), 4),
        solving("solve a chain of seven tanks, horizon 8", chain(7), 8),
        solving("solve 400 settings, horizon 8", settings(), 8),
        row("the same in tables of just enough nodes", settings(), Job::Solve(8, settings_peak)),
        solving("solve the pond, horizon 8", pond(), 8),
        solving("solve the rain, horizon 8", rain(), 8),
        row("read a value of the pond, its validation included", pond(), Job::Value),
        row("cut off a path of a plan of 65,534 nodes, and copy the plan before", pond(), Job::Prune),
        row("import a text of 98,580 bytes, 400 settings with usual items", usual_text(), Job::Import),
        row("plain working of the pond, 4 steps", pond(), Job::Worth(4)),
        row("plain working of 400 settings, 2 steps", settings(), Job::Worth(2)),
        row("validate a model of 111,169 bytes", staircases(), Job::Validate),
        row("validate 400 settings, 253,607 bytes", settings(), Job::Validate),
    ]
}

/// What the library is lent: the tables, room for a model and an answer's bytes; and a plan that fills the tables but for one
/// node.
struct Lent {
    tables: Tables,
    buffer: Vec<u8>,
    out: [u8; 24],
    full: (Vec<i64>, [u32; STAGES]),
}

impl Lent {
    fn new() -> Lent {
        keep_memory();
        let (nodes, work) = (vec![1; NODE_WORDS * NODES_MOST], vec![1; WORK_WORDS * NODES_MOST]);
        let tables = Tables { nodes, stages: vec![1; STAGES], work, peaks: vec![1; PEAK_WORDS] };
        let (mut rows, root) = steps_behind_a_contradiction((NODES_MOST as u32 - 3) / 2);
        rows.resize(NODE_WORDS * NODES_MOST, 0);
        let mut roots = [0; STAGES];
        roots[PATH.0 as usize - 1] = root;
        Lent { tables, buffer: vec![1; MODEL_BYTES], out: [0; 24], full: (rows, roots) }
    }

    /// A value is read from solved tables; the path is one that is cut off.
    fn prepare(&mut self, row: &Row) {
        match row.job {
            Job::Value => _ = self.library(&solving(row.what, row.model.clone(), 8)),
            Job::Prune => assert_eq!(self.library(row), 0, "{}", row.what),
            _ => {}
        }
    }

    fn library(&mut self, row: &Row) -> u32 {
        let (Tables { nodes, stages, work, peaks }, out) = (&mut self.tables, &mut self.out);
        match row.job {
            Job::Floor => {
                black_box(&mut *nodes).fill(0);
                black_box(&mut *work).fill(0);
                0
            }
            Job::Solve(horizon, room) => {
                let (nodes, work) = (&mut nodes[..NODE_WORDS * room], &mut work[..WORK_WORDS * room]);
                planner::solve(&row.model, horizon, nodes, stages, work, peaks, out)
            }
            Job::Value => planner::value(&row.model, nodes, stages, 8, STATE, out),
            Job::Worth(steps) => planner::worth(&row.model, steps, STATE, out),
            Job::Validate => planner::validate(&row.model).0,
            Job::Prune => {
                let ((full, roots), (stage, turns, multipliers)) = (&self.full, PATH);
                nodes.copy_from_slice(full);
                stages.copy_from_slice(roots);
                planner::prune(&row.model, nodes, stages, work, stage, &turns, &multipliers, out)
            }
            Job::Import => planner::import(&row.model, &mut self.buffer, out),
        }
    }

    fn second_program(&self, row: &Row) -> u32 {
        let Tables { nodes, stages, .. } = &self.tables;
        match row.job {
            Job::Floor => black_box(Store::new(NODES_MOST)).count() as u32,
            Job::Solve(horizon, room) => black_box(solve_with_room(&row.model, horizon, room)).number,
            Job::Value => black_box(value(&row.model, nodes, stages, 8, STATE)).number,
            Job::Worth(steps) => black_box(worth(&row.model, steps, STATE)).number,
            Job::Validate => black_box(validate(&row.model)).0,
            Job::Prune => {
                let ((full, roots), (stage, turns, multipliers)) = (&self.full, PATH);
                let words = WORK_WORDS * NODES_MOST;
                let pruned = prune(&row.model, &black_box(full.clone()), roots, words, stage, &turns, &multipliers);
                black_box(pruned).map_or_else(|refused| refused.number, |_| 0)
            }
            Job::Import => black_box(import(&row.model, MODEL_BYTES)).map_or_else(|refused| refused.number, |_| 0),
        }
    }
}

/// What the library costs and what the second program costs: seconds and instructions.
#[derive(Clone, Copy)]
struct Cost {
    times: [f64; 2],
    counts: [Option<f64>; 2],
}

impl Cost {
    /// The cost of one of so many parts.
    fn of_each(&self, parts: usize) -> Cost {
        let part = |whole: f64| whole / parts as f64;
        Cost { times: self.times.map(part), counts: self.counts.map(|count| count.map(part)) }
    }

    fn cells(&self) -> [String; 6] {
        let ([time, other_time], [count, other_count]) = (self.times, self.counts);
        let ratio = |x: f64, y: f64| three_digits(x / y);
        let dash = || "-".to_string();
        [
            seconds(time),
            seconds(other_time),
            ratio(time, other_time),
            count.map_or_else(dash, instructions),
            other_count.map_or_else(dash, instructions),
            count.zip(other_count).map_or_else(dash, |(count, other)| ratio(count, other)),
        ]
    }
}

fn three_digits(x: f64) -> String {
    match x {
        x if x < 10.0 => format!("{x:.2}"),
        x if x < 100.0 => format!("{x:.1}"),
        _ => format!("{x:.0}"),
    }
}

fn seconds(time: f64) -> String {
    match time {
        t if t < 1e-6 => three_digits(t * 1e9) + " ns",
        t if t < 1e-3 => three_digits(t * 1e6) + " µs",
        t => three_digits(t * 1e3) + " ms",
    }
}

fn instructions(count: f64) -> String {
    match count {
        x if x < 1e4 => format!("{x:.0}"),
        x if x < 1e6 => three_digits(x / 1e3) + " k",
        x => three_digits(x / 1e6) + " M",
    }
}

fn times(lent: &mut Lent, row: &Row) -> [f64; 2] {
    lent.prepare(row);
    assert_eq!(lent.library(row), lent.second_program(row), "{}", row.what);
    [least_time(|| _ = lent.library(row)), least_time(|| _ = lent.second_program(row))]
}

/// Under callgrind the 400 settings take long: they are counted in one of their two tables.
fn is_counted(row: &Row) -> bool {
    !matches!(row.job, Job::Solve(_, room) if room < NODES_MOST)
}

/// By the machine's counter, or else by callgrind; nothing without either.
fn counts(lent: &mut Lent, rows: &[Row]) -> Vec<[Option<f64>; 2]> {
    let Some(counter) = Counter::open() else {
        let mut counts = by_callgrind("count").unwrap_or_default().into_iter();
        let mut pair = |row| if is_counted(row) { [counts.next(), counts.next()] } else { [None; 2] };
        return rows.iter().map(&mut pair).collect();
    };
    let count = |row| {
        lent.prepare(row);
        let library = counter.instructions(|| _ = lent.library(row));
        [Some(library), Some(counter.instructions(|| _ = lent.second_program(row)))]
    };
    rows.iter().map(count).collect()
}

/// What callgrind runs: every job, counted once. Short ones have run before, so that their memory is at hand.
pub fn count() {
    let mut lent = Lent::new();
    for row in rows().into_iter().filter(is_counted) {
        lent.prepare(&row);
        if !matches!(row.job, Job::Solve(..)) {
            lent.library(&row);
            lent.second_program(&row);
        }
        counted(|| _ = lent.library(&row));
        counted(|| _ = lent.second_program(&row));
    }
}

/// What bounds a row, and its floor's share of the library's time; for a validation the library's bytes a second.
fn bound(row: &Row, cost: &Cost, done: &[(&Row, &Cost)]) -> String {
    let time = |job: Job, model: &[u8]| {
        let same = |(row, _): &&(&Row, &Cost)| row.job == job && row.model == model;
        done.iter().find(same).map_or(0.0, |(_, cost)| cost.times[0])
    };
    let validation = || time(Job::Validate, &row.model);
    let (floor, name, otherwise) = match row.job {
        Job::Floor => return format!("memory, {BYTES_A_NODE} bytes a node"),
        Job::Validate => return format!("commands; {:.0} MB/s", row.model.len() as f64 / cost.times[0] / 1e6),
        Job::Solve(_, room) => (time(Job::Floor, &[]) * room as f64 / NODES_MOST as f64, "clearing", "rules; "),
        Job::Value => (validation(), "validation", "walk; "),
        Job::Worth(_) => (validation(), "validation", "evaluations; "),
        Job::Prune => (time(Job::Floor, &[]), "clearing", "rows made anew; "),
        Job::Import => return format!("bytes of the text; {:.0} MB/s", row.model.len() as f64 / cost.times[0] / 1e6),
    };
    let share = 100.0 * floor / cost.times[0];
    format!("{}{name} {share:.0} %", if share < 25.0 { otherwise } else { "" })
}

fn line(what: &str, cells: [String; 6], bound: &str) -> Vec<String> {
    [what.to_string()].into_iter().chain(cells).chain([bound.to_string()]).collect()
}

fn print_table(lines: &[Vec<String>]) {
    let width = |column: usize| lines.iter().map(|line| line[column].chars().count()).max().unwrap_or(0);
    for line in lines {
        let cells = line.iter().enumerate().map(|(i, cell)| format!("{cell:0$}", width(i)));
        println!("| {} |", cells.collect::<Vec<_>>().join(" | "));
    }
}

/// Prints the table; tests/README.md says how to read it.
pub fn speed() {
    let (mut lent, rows) = (Lent::new(), rows());
    let times: Vec<_> = rows.iter().map(|row| times(&mut lent, row)).collect();
    let counts = counts(&mut lent, &rows);
    let costs: Vec<_> = times.into_iter().zip(counts).map(|(times, counts)| Cost { times, counts }).collect();
    let titles =
        ["what", "library", "second program", "ratio", "instructions", "second program", "ratio", "bounded by"];
    let mut lines = vec![titles.map(String::from).to_vec(), vec!["---".to_string(); titles.len()]];
    let done: Vec<_> = rows.iter().zip(&costs).collect();
    for &(row, cost) in &done {
        let mut cells = cost.cells();
        if row.job == Job::Floor {
            // Two different things, which have no ratio.
            [cells[2], cells[5]] = ["-", "-"].map(String::from);
        }
        lines.push(line(row.what, cells, &bound(row, cost, &done)));
    }
    let (large, whole) = (&rows[rows.len() - 1].model, costs[costs.len() - 1]);
    lines.push(line("each of its commands", whole.of_each(commands(large).len() - 1).cells(), "commands"));
    print_table(&lines);
}

/// Times one model: both programs in tables of 65,535 nodes.
pub fn time(model: Vec<u8>, horizon: u32) {
    let mut lent = Lent::new();
    let done = solve_with_room(&model, horizon, NODES_MOST);
    println!("number {}, place {}, peak {}, {} rule calls", done.number, done.place, done.peak, done.calls);
    let times = times(&mut lent, &solving("the model", model, horizon));
    let [library, second, ratio, ..] = Cost { times, counts: [None; 2] }.cells();
    println!("library {library}, second program {second}, ratio {ratio}");
}
