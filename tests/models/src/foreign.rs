//! Tables that no solve has left, yet good ones: for what reads or changes tables whatever wrote them.

use crate::{Rng, LEVELS};

/// Words of a node: kind, a coefficient for each level, constant, high, low.
const NODE_WORDS: usize = LEVELS + 4;
const STAGES: usize = 8;
/// The largest number that a row may have.
const LIMIT: i64 = (1 << 62) - 1;

/// Writes nodes, row by row; each says its number.
#[derive(Clone, Debug, Default)]
pub struct TableWriter(pub Vec<i64>);

impl TableWriter {
    fn row(&mut self, kind: i64, numbers: &[i64], constant: i64, high: u32, low: u32) -> u32 {
        let coefficients = numbers.iter().copied().chain([0; LEVELS]).take(LEVELS);
        self.0.push(kind);
        self.0.extend(coefficients.chain([constant, high.into(), low.into()]));
        self.rows()
    }

    pub fn rows(&self) -> u32 {
        (self.0.len() / NODE_WORDS) as u32
    }

    /// The first coefficients; the others are 0.
    pub fn leaf(&mut self, coefficients: &[i64], constant: i64, action: u32) -> u32 {
        self.row(0, coefficients, constant, action, 0)
    }

    pub fn none(&mut self) -> u32 {
        self.row(3, &[], 0, 0, 0)
    }

    pub fn condition(&mut self, number: u32, high: u32, low: u32) -> u32 {
        self.row(1, &[number.into()], 0, high, low)
    }

    pub fn test(&mut self, coefficients: &[i64], constant: i64, high: u32, low: u32) -> u32 {
        self.row(2, coefficients, constant, high, low)
    }
}

/// A table of 2 × leaves + 2 nodes, all different, for one action, and the number of its root. L1 ≤ 0 and then L1 > 5 lead to
/// a tree of the steps of L1 that the root's low side has too: no state takes the turns 1 0, shown by 1 and 1.
pub fn steps_behind_a_contradiction(leaves: u32) -> (Vec<i64>, u32) {
    let mut table = TableWriter::default();
    let end = table.leaf(&[1], 0, 1);
    let mut row: Vec<(i64, u32)> = (0..i64::from(leaves)).map(|step| (step, table.leaf(&[], step, 1))).collect();
    // Pairs of neighbours, by the last step of the first one.
    while row.len() > 1 {
        let join = |pair: &[(i64, u32)]| match *pair {
            [(middle, first), (last, second)] => (last, table.test(&[1], -middle, first, second)),
            [one] => one,
            _ => unreachable!("pairs"),
        };
        row = row.chunks(2).map(join).collect();
    }
    let contradicted = table.test(&[1], -5, end, row[0].1);
    let root = table.test(&[1], 0, contradicted, row[0].1);
    (table.0, root)
}

/// Linears of few directions with few constants, so that on a path many are parallel, equal or opposite; now and then one
/// without coefficients or with the largest numbers. Levels may be beyond those of a site.
fn tests(rng: &mut Rng) -> Vec<([i64; LEVELS], i64)> {
    let levels = [rng.below(LEVELS), rng.below(LEVELS), rng.pick(&[0, 1])];
    let mut directions = Vec::new();
    for _ in 0..rng.pick(&[1, 2, 3]) {
        let mut direction = [0i64; LEVELS];
        levels.iter().take(rng.pick(&[1, 2, 3])).for_each(|&level| direction[level] = rng.pick(&[-2, -1, 1, 1, 1, 2]));
        directions.push(direction);
    }
    let size = rng.pick(&[1, 2, 2, 9]);
    let mut tests = Vec::new();
    for _ in 0..rng.pick(&[1, 3, 6, 9]) {
        let direction = directions[rng.below(directions.len())];
        let factor: i64 = rng.pick(&[1, 1, 1, 1, -1, -1, 2]);
        tests.push(match rng.below(16) {
            0 => ([0; LEVELS], rng.pick(&[-1, 0, 1, LIMIT])),
            1 | 2 => {
                let large = factor.signum() * rng.pick(&[LIMIT, LIMIT, 1 << 61, 1 << 40]);
                (direction.map(|number| number.signum() * large), rng.pick(&[0, 1, LIMIT, -LIMIT]))
            }
            _ => (direction.map(|number| factor * number), rng.between(-size, size).into()),
        });
    }
    tests
}

/// Rows and stage words that are good for a site with n conditions and A actions: diagrams in any order, nodes twice, nodes
/// with equal branches, rows that no stage leads to, stages without a root between those that have one.
pub fn foreign(rng: &mut Rng, n: u32, a: u32) -> (Vec<i64>, [u32; STAGES]) {
    let mut table = TableWriter::default();
    let tests = tests(rng);
    for row in 1..=rng.pick(&[1, 2, 4, 8, 16, 40]) {
        if row == 1 || rng.once_in(4) {
            match rng.below(5) {
                0 => table.none(),
                1 => table.leaf(&[rng.pick(&[1, LIMIT])], 0, a),
                _ => table.leaf(&[], rng.between(0, 2).into(), rng.between(1, a.min(2) as i32) as u32),
            };
            continue;
        }
        let mut branch = || if rng.once_in(3) { 1 + rng.below(row - 1) } else { row - 1 - rng.below((row - 1).min(3)) };
        let (high, low) = (branch() as u32, branch() as u32);
        if n > 0 && rng.once_in(4) {
            table.condition(rng.between(1, n as i32) as u32, high, low);
        } else {
            let (coefficients, constant) = tests[rng.below(tests.len())];
            table.test(&coefficients, constant, high, low);
        }
    }
    let rows = table.rows();
    let mut stages = std::array::from_fn(|_| match rng.below(5) {
        0 | 1 => 0,
        2 => 1 + rng.below(rows as usize) as u32,
        _ => rows - rng.below(rows.min(3) as usize) as u32,
    });
    stages[rng.below(STAGES)] = rows;
    (table.0, stages)
}
