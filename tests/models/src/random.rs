//! Random models from a seed, valid and damaged.

use crate::forbidding::forbidding;
use crate::{Form, Writer, ACTIONS, LEVELS, NEW, SITE_BYTES};

/// A source of numbers: splitmix64.
pub struct Rng(pub u64);

impl Rng {
    pub fn word(&mut self) -> u64 {
        self.0 = self.0.wrapping_add(0x9E37_79B9_7F4A_7C15);
        let mut x = self.0;
        x = (x ^ x >> 30).wrapping_mul(0xBF58_476D_1CE4_E5B9);
        x = (x ^ x >> 27).wrapping_mul(0x94D0_49BB_1331_11EB);
        x ^ x >> 31
    }

    /// 0 to below `count`.
    pub fn below(&mut self, count: usize) -> usize {
        (self.word() % count as u64) as usize
    }

    /// `from` to `to`, both included.
    pub fn between(&mut self, from: i32, to: i32) -> i32 {
        from + self.below((to - from) as usize + 1) as i32
    }

    /// True once in so many times.
    pub fn once_in(&mut self, times: usize) -> bool {
        self.below(times) == 0
    }

    pub fn pick<T: Copy>(&mut self, from: &[T]) -> T {
        from[self.below(from.len())]
    }
}

/// What a diagram is for.
#[derive(Clone, Copy, PartialEq)]
enum Kind {
    Reward,
    Chance(u8),
    Next(u8),
}

struct Shape {
    m: usize,
    n: u8,
    w: i32,
    /// Size of ordinary constants, and how often a number is huge (0 is never).
    size: i32,
    huge: usize,
    depth: usize,
    /// One diagram in so many is a long chain.
    chains: usize,
    /// Tests ask for L1 alone, and rewards are constants: plans of many actions stay small.
    simple: bool,
}

/// What is wrong with an end worth.
#[derive(Clone, Copy, PartialEq)]
enum Fault {
    Nothing,
    NoDiagram,
    NextStep,
    Twice,
}

/// One action that keeps all levels but one. In stage 1 a number is named that is about as large as one may be: a
/// coefficient, mostly that of the last level, by a product, or the constant, by a product and a sum.
fn at_limits(rng: &mut Rng) -> Vec<u8> {
    let m = if rng.once_in(2) { LEVELS as u8 } else { rng.between(1, LEVELS as i32) as u8 };
    let large = if rng.once_in(2) { m } else { rng.between(1, m.into()) as u8 };
    let times = |level: u8, number: i32| -> [i32; LEVELS] {
        std::array::from_fn(|i| if i + 1 == level.into() { number } else { 0 })
    };
    let mut factor = || rng.pick(&[i32::MIN, i32::MIN, i32::MIN + 1, i32::MIN + 1, i32::MAX]);
    let (first, second) = (factor(), factor());
    let is_constant = rng.once_in(2);
    let mut writer = Writer::site(m, 0, 1, 1);
    writer.leaf([], rng.pick(&[0, i32::MAX, i32::MAX])).reward(1);
    for level in 1..=m {
        match level == large {
            true if is_constant => writer.leaf([], first),
            true => writer.leaf(times(level, first), 0),
            false => writer.leaf(times(level, 1), 0),
        };
        writer.next(1, level);
    }
    writer.leaf(times(large, second), rng.between(-1, 1)).end_worth();
    writer.end()
}

/// A valid model, except that now and then a long chain of leaves outgrows the stack, that one end worth in eight is at
/// fault, and one model in eight that forbids. A third of the models have an end worth, a quarter forbid something. Both
/// come from sources of their own: the rest of the model is what the seed gives without them.
pub fn random(rng: &mut Rng) -> Vec<u8> {
    let mut own = Rng(Rng(rng.0 ^ 0x13).word());
    let model = permitting(rng);
    if own.once_in(4) {
        forbidding(&mut own, &model)
    } else {
        model
    }
}

/// A model without command 13.
fn permitting(rng: &mut Rng) -> Vec<u8> {
    let mut own = Rng(Rng(rng.0 ^ 0x23).word());
    if own.once_in(12) {
        rng.word();
        return at_limits(&mut own);
    }
    let (shape, model) = without_end_worth(rng);
    if own.once_in(3) {
        with_end_worth(&mut own, &shape, &model)
    } else {
        model
    }
}

fn with_end_worth(rng: &mut Rng, shape: &Shape, model: &[u8]) -> Vec<u8> {
    let fault =
        if rng.once_in(8) { rng.pick(&[Fault::NoDiagram, Fault::NextStep, Fault::Twice]) } else { Fault::Nothing };
    let mut writer = Writer(Vec::new());
    if fault != Fault::NoDiagram {
        let depth = rng.below(shape.depth + 2);
        diagram(rng, &mut writer, shape, Kind::Reward, depth);
    }
    if fault == Fault::NextStep && shape.n > 0 {
        writer.leaf([], 0).condition(4 + rng.between(1, shape.n.into()) as u8);
    }
    let once = put_in(rng, model, &writer.0);
    if fault == Fault::Twice {
        put_in(rng, &once, &writer.0)
    } else {
        once
    }
}

/// An end worth before some command, or taken at the end from below all that the stack has held.
fn put_in(rng: &mut Rng, model: &[u8], diagram: &[u8]) -> Vec<u8> {
    let last = model.len() - 1;
    if rng.once_in(4) {
        return [&model[..SITE_BYTES], diagram, &model[SITE_BYTES..last], &[0x23], &model[last..]].concat();
    }
    let offsets = commands(model);
    let at = offsets[1 + rng.below(offsets.len() - 2)];
    [&model[..at], diagram, &[0x23], &model[at..]].concat()
}

/// Few actions, and what they have.
fn any_shape(rng: &mut Rng) -> (u16, Shape) {
    let w = rng.pick(&[1, 2, 2, 3, 10, 10, 100, 0]);
    let shape = Shape {
        m: rng.pick(&[1, 1, 1, 1, 2, 2, 2, 3, 3, 4, 5, 6, 7, 8]),
        n: rng.pick(&[0, 0, 1, 1, 1, 2, 2, 3, 4]),
        w: if w == 0 { rng.between(1, 100) } else { w },
        size: rng.pick(&[1, 3, 3, 20, 1000]),
        huge: rng.pick(&[0, 0, 0, 40, 10]),
        depth: rng.pick(&[0, 1, 1, 2, 2, 3, 4]),
        chains: 400,
        simple: false,
    };
    (rng.pick(&[1, 1, 2, 2, 2, 3, 3, 4, 8]), shape)
}

/// Up to 400 actions with small diagrams, which no model of so many could be long enough for else.
fn many_actions(rng: &mut Rng) -> (u16, Shape) {
    let (_, shape) = any_shape(rng);
    let m = rng.pick(&[1, 1, 2, 8]);
    let simple = !rng.once_in(3);
    let shape = Shape {
        m,
        n: rng.pick(&[0, 0, 1, 2]),
        size: if simple { 3 } else { shape.size },
        huge: if simple { 0 } else { shape.huge },
        depth: if m == LEVELS { 0 } else { rng.pick(&[0, 0, 1]) },
        chains: 20_000,
        simple,
        ..shape
    };
    (rng.pick(&[9, 100, 255, 256, 257, 258, 300, 399, ACTIONS, ACTIONS]), shape)
}

fn without_end_worth(rng: &mut Rng) -> (Shape, Vec<u8>) {
    let (a, shape) = if rng.once_in(40) { many_actions(rng) } else { any_shape(rng) };
    let (m, n) = (shape.m as u8, shape.n);
    let mut items = Vec::new();
    for action in 1..=a {
        items.push((action, Kind::Reward));
        items.extend((1..=n).map(|i| (action, Kind::Chance(i))));
        items.extend((1..=m).map(|i| (action, Kind::Next(i))));
    }
    for i in (1..items.len()).rev() {
        items.swap(i, rng.below(i + 1));
    }
    let mut writer = Writer::site(m, n, a, shape.w as u8);
    let mut rest = &items[..];
    while !rest.is_empty() {
        let several = if rng.once_in(3) { 1 + rng.below(6) } else { 1 };
        let (now, later) = rest.split_at(several.min(rest.len()));
        for &(_, kind) in now {
            let depth = rng.below(shape.depth + 1);
            diagram(rng, &mut writer, &shape, kind, depth);
        }
        for &(action, kind) in now.iter().rev() {
            match kind {
                Kind::Reward => writer.reward(action),
                Kind::Chance(condition) => writer.chance(action, condition),
                Kind::Next(level) => writer.next(action, level),
            };
        }
        rest = later;
    }
    for action in 1..=a {
        if rng.once_in(2) {
            writer.letters(action, &name(rng));
        }
    }
    (shape, writer.end())
}

/// A name's bytes: any letters, or one of a few, so that several actions have the same or nearly the same.
fn name(rng: &mut Rng) -> [u8; 16] {
    let mut name = [b' '; 16];
    if rng.once_in(2) {
        let letters = rng.below(17);
        name[..letters].fill_with(|| rng.between(0x20, 0x7E) as u8);
    } else {
        let few = rng.pick(&[&b"A"[..], b"A", b" A", b"A B", b"a", b""]);
        name[..few.len()].copy_from_slice(few);
    }
    name
}

fn diagram(rng: &mut Rng, writer: &mut Writer, shape: &Shape, kind: Kind, depth: usize) {
    if rng.once_in(shape.chains) {
        // A chain on the low side, with the stack at its limit or past it.
        let leaves = rng.between(30, 33);
        (0..leaves).for_each(|_| leaf(rng, writer, shape, kind));
        (1..leaves).for_each(|_| choice(rng, writer, shape, kind));
    } else if depth == 0 {
        leaf(rng, writer, shape, kind);
    } else {
        for _ in 0..2 {
            let below = if rng.once_in(4) { 0 } else { depth - 1 };
            diagram(rng, writer, shape, kind, below);
        }
        choice(rng, writer, shape, kind);
    }
}

fn choice(rng: &mut Rng, writer: &mut Writer, shape: &Shape, kind: Kind) {
    if shape.n > 0 && rng.once_in(2) {
        let later = if matches!(kind, Kind::Next(_)) && !rng.once_in(4) { 4 } else { 0 };
        writer.condition(later + rng.between(1, shape.n.into()) as u8);
    } else {
        let mut coefficients = coefficients(rng, shape);
        if coefficients == [0; LEVELS] {
            coefficients[rng.below(shape.m)] = rng.pick(&[-1, 1, 2]);
        }
        let constant = number(rng, shape);
        let factor = rng.pick(&[1, 1, 1, 2, 6]);
        writer.test(coefficients.map(|c| c.wrapping_mul(factor)), constant.wrapping_mul(factor));
    }
}

fn leaf(rng: &mut Rng, writer: &mut Writer, shape: &Shape, kind: Kind) {
    match kind {
        Kind::Chance(_) => {
            writer.leaf([], if rng.once_in(3) { rng.pick(&[0, shape.w]) } else { rng.between(0, shape.w) })
        }
        Kind::Next(level) if !rng.once_in(4) => {
            let mut own = [0; LEVELS];
            own[usize::from(level) - 1] = 1;
            writer.leaf(own, number(rng, shape))
        }
        _ if shape.simple || rng.once_in(2) => writer.leaf([], number(rng, shape)),
        _ => {
            let coefficients = coefficients(rng, shape);
            writer.leaf(coefficients, number(rng, shape))
        }
    };
}

fn coefficients(rng: &mut Rng, shape: &Shape) -> [i32; LEVELS] {
    if shape.simple {
        return std::array::from_fn(|i| i32::from(i == 0));
    }
    // Now and then tests that differ in their last level alone.
    if rng.once_in(4) {
        let (first, last) = (rng.pick(&[0, 0, 1]), rng.pick(&[-2, -1, 1, 2, 3]));
        let number = |i: usize| if i + 1 == shape.m { last } else { first * i32::from(i == 0) };
        return std::array::from_fn(number);
    }
    std::array::from_fn(|i| match i < shape.m && rng.once_in(2) {
        true if shape.huge > 0 && rng.once_in(shape.huge) => huge(rng),
        true => rng.pick(&[-2, -1, -1, 1, 1, 1, 2, 3]),
        false => 0,
    })
}

fn number(rng: &mut Rng, shape: &Shape) -> i32 {
    if shape.huge > 0 && rng.once_in(shape.huge) {
        huge(rng)
    } else {
        rng.between(-shape.size, shape.size)
    }
}

fn huge(rng: &mut Rng) -> i32 {
    rng.pick(&[i32::MIN, i32::MIN + 1, i32::MAX, i32::MAX - 1, 1 << 30, -(1 << 30), 1 << 20, 46_341])
}

/// Bytes of the command that begins so.
fn width(form: &Form, code: u8) -> usize {
    match code {
        code if code == form.site => form.site_bytes,
        0x10 | 0x12 => 5 + form.coefficients,
        0x11 => 2,
        0x20 => 1 + form.action,
        0x21 | 0x22 => 2 + form.action,
        0x30 => 17 + form.action,
        _ => 1, // 13, 23 and FF, and unknown bytes
    }
}

/// Offsets of the commands of a model without fault, the end of the last one included.
pub fn commands(model: &[u8]) -> Vec<usize> {
    commands_in(&NEW, model)
}

fn commands_in(form: &Form, model: &[u8]) -> Vec<usize> {
    let mut offsets = vec![0];
    let mut offset = 0;
    while offset < model.len() {
        offset += width(form, model[offset]);
        offsets.push(offset.min(model.len()));
    }
    offsets
}

/// The commands' bytes, and three that no command has, the other form's site among them.
const CODES: [u8; 14] = [0x00, 0x01, 0x02, 0x10, 0x11, 0x12, 0x13, 0x20, 0x21, 0x22, 0x23, 0x24, 0x30, 0xFF];

/// Another action, which needs its high byte, if it has one: none, beyond the site's or beyond all, or the same low byte.
fn another_action(rng: &mut Rng, form: &Form, bytes: &mut [u8], low: usize) {
    let read = |place: usize| {
        let bytes = bytes.get(place..place + form.action)?;
        Some(bytes.iter().rev().fold(0, |action: u16, &byte| action << 8 | u16::from(byte)))
    };
    let (action, most, beyond) = (read(low).unwrap_or(0), read(3).unwrap_or(1), form.actions + 1);
    let other = rng.pick(&[0, most.wrapping_add(1), form.actions, beyond, action ^ 0x100, action | 0xFF00, u16::MAX]);
    bytes[low..low + form.action].copy_from_slice(&other.to_le_bytes()[..form.action]);
}

/// A fault in an operand of a whole command.
fn damage_operand(rng: &mut Rng, form: &Form, command: usize, bytes: &mut [u8]) {
    match bytes[command] {
        code if code == form.site && rng.once_in(2) => bytes[command + 1] = rng.pick(&[0, 5, 6, 7, 8, 9, 255]),
        code if code == form.site => another_action(rng, form, bytes, command + 3),
        0x20 | 0x21 | 0x22 | 0x30 => another_action(rng, form, bytes, command + 1),
        // The last coefficients, where the site has fewer levels.
        0x10 | 0x12 => {
            let byte = rng.pick(&[1, 0x80, 0xFF]);
            bytes[command + 1 + rng.pick(&[4, 15, 16, 20, 28, 31]) % form.coefficients] = byte;
        }
        _ => {}
    }
}

/// The model with a few faults, most of which give a refusal.
pub fn damaged(rng: &mut Rng, model: &[u8]) -> Vec<u8> {
    damaged_in(&NEW, rng, model)
}

/// The same of either form.
pub fn damaged_in(form: &Form, rng: &mut Rng, model: &[u8]) -> Vec<u8> {
    let mut bytes = model.to_vec();
    for _ in 0..rng.pick(&[1, 1, 1, 2, 3]) {
        let offsets = commands_in(form, &bytes);
        let some = rng.below(offsets.len().max(2) - 1);
        let (from, to) = (offsets[some], offsets.get(some + 1).copied().unwrap_or(bytes.len()));
        let at = rng.below(bytes.len() + 1);
        let byte = rng.pick(&[0, 1, 2, 4, 5, 8, 9, 0x10, 0x11, 0x1F, 0x20, 0x23, 0x7E, 0x7F, 0x80, 0xFE, 0xFF]);
        match rng.below(12) {
            10 | 11 if to > from && to - from == width(form, bytes[from]) => {
                damage_operand(rng, form, from, &mut bytes)
            }
            10 | 11 if !bytes.is_empty() => bytes[0] = rng.pick(&[0x01, 0x02]),
            0 if from < to => bytes[from] = rng.pick(&CODES),
            1..=3 if from + 1 < to => bytes[from + 1 + rng.below((to - from - 1).min(SITE_BYTES - 1))] = byte,
            4 => bytes.truncate(at),
            5 => drop(bytes.drain(from..to)),
            6 => drop(bytes.splice(to..to, bytes[from..to].to_vec())),
            7 => {
                let other = rng.pick(&offsets);
                drop(bytes.splice(other..other, bytes[from..to].to_vec()));
            }
            8 => bytes.insert(at, byte),
            _ if at < bytes.len() => bytes[at] = rng.word() as u8,
            _ => bytes.push(byte),
        }
    }
    bytes
}
