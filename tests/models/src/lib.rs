//! Models for the tests, as bytes.

mod domains;
mod forbidding;
mod foreign;
mod large;
mod old;
mod random;
mod texts;

pub use domains::{chain, inventory, releases, reservoirs, rover, rover_moving, wet_reservoirs};
pub use forbidding::forbidding;
pub use foreign::{foreign, steps_behind_a_contradiction, TableWriter};
pub use large::{
    deep, long_listing, mixed, near_limit, of_length, of_old_length, rain_tanks_kept, settings, staircases,
};
pub use old::{old_form, Form, NEW, OLD, OLD_BYTES};
pub use random::{commands, damaged, damaged_in, random, Rng};
pub use texts::{
    damaged_text, doubling, limits, long_row, longest_row, slowest_text, text, text_for_length, text_of_length,
    usual_text, with_reward, POND_TEXT, TEXT_BYTES,
};

/// The levels, actions and bytes that a model may have, and the bytes of its site command.
pub const LEVELS: usize = 8;
pub const ACTIONS: u16 = 400;
pub const MODEL_BYTES: usize = 262_144;
pub const SITE_BYTES: usize = 6;

/// Writes a model, command by command. An action has two bytes.
#[derive(Clone, Debug)]
pub struct Writer(Vec<u8>);

impl Writer {
    pub fn site(m: u8, n: u8, a: u16, w: u8) -> Writer {
        let [low, high] = a.to_le_bytes();
        Writer(vec![0x02, m, n, low, high, w])
    }

    /// The first coefficients; the others are 0.
    fn linear<const N: usize>(&mut self, code: u8, coefficients: [i32; N], constant: i32) -> &mut Self {
        const { assert!(N <= LEVELS) };
        self.0.push(code);
        for number in coefficients.into_iter().chain([0; LEVELS]).take(LEVELS).chain([constant]) {
            self.0.extend(number.to_le_bytes());
        }
        self
    }

    /// A command whose first operand is an action.
    fn action(&mut self, code: u8, action: u16) -> &mut Self {
        let [low, high] = action.to_le_bytes();
        self.command(&[code, low, high])
    }

    pub fn leaf<const N: usize>(&mut self, coefficients: [i32; N], constant: i32) -> &mut Self {
        self.linear(0x10, coefficients, constant)
    }

    pub fn condition(&mut self, number: u8) -> &mut Self {
        self.command(&[0x11, number])
    }

    pub fn test<const N: usize>(&mut self, coefficients: [i32; N], constant: i32) -> &mut Self {
        self.linear(0x12, coefficients, constant)
    }

    pub fn forbidden(&mut self) -> &mut Self {
        self.command(&[0x13])
    }

    pub fn reward(&mut self, action: u16) -> &mut Self {
        self.action(0x20, action)
    }

    pub fn chance(&mut self, action: u16, condition: u8) -> &mut Self {
        self.action(0x21, action).command(&[condition])
    }

    pub fn next(&mut self, action: u16, level: u8) -> &mut Self {
        self.action(0x22, action).command(&[level])
    }

    pub fn end_worth(&mut self) -> &mut Self {
        self.command(&[0x23])
    }

    pub fn name(&mut self, action: u16, name: &str) -> &mut Self {
        self.letters(action, format!("{name:16}").as_bytes().try_into().expect("sixteen letters"))
    }

    /// A name by its bytes, whatever they are.
    pub fn letters(&mut self, action: u16, letters: &[u8; 16]) -> &mut Self {
        self.action(0x30, action).command(letters)
    }

    pub fn command(&mut self, bytes: &[u8]) -> &mut Self {
        self.0.extend(bytes);
        self
    }

    pub fn len(&self) -> usize {
        self.0.len()
    }

    pub fn is_empty(&self) -> bool {
        self.0.is_empty()
    }

    pub fn end(mut self) -> Vec<u8> {
        self.0.push(0xFF);
        self.0
    }
}

pub fn pond() -> Vec<u8> {
    pond_commands().end()
}

/// The pond with another weight total: without conditions that changes nothing but the site.
pub fn pond_of(w: u8) -> Vec<u8> {
    let mut model = pond();
    model[SITE_BYTES - 1] = w;
    model
}

/// The pond with an end worth, which `write` leaves on the stack.
pub fn pond_ending(write: impl FnOnce(&mut Writer)) -> Vec<u8> {
    let mut w = pond_commands();
    write(&mut w);
    w.end_worth();
    w.end()
}

/// The pond's water is wanted afterwards: 20 of it or more are worth 120. At 20 the pond is held, which without the end
/// worth is emptied.
pub fn pond_kept() -> Vec<u8> {
    pond_ending(|w| {
        w.leaf([], 120).leaf([], 0).test([-1], 20);
    })
}

/// Two levels that stay, and one action: its reward is 1 where L1 + L2 ≤ 0, else 2 where L1 ≤ 0, else 3 where L2 ≤ 0, else 4.
/// The plan asks for L2 and L1 first, so that two of its paths are no state's.
pub fn corner() -> Vec<u8> {
    let mut w = Writer::site(2, 0, 1, 1);
    w.leaf([], 1).leaf([], 2).leaf([], 3).leaf([], 4).test([0, 1], 0).test([1, 0], 0).test([1, 1], 0).reward(1);
    w.leaf([1, 0], 0).next(1, 1).leaf([0, 1], 0).next(1, 2);
    w.end()
}

/// One level that stays, and one action with a constant reward; `write` adds commands.
pub fn tank(reward: i32, write: impl FnOnce(&mut Writer)) -> Vec<u8> {
    let mut w = Writer::site(1, 0, 1, 1);
    w.leaf([], reward).reward(1).leaf([1], 0).next(1, 1);
    write(&mut w);
    w.end()
}

/// One level that stays, one action that earns nothing, and so many conditions.
pub fn still(n: u8, w: u8) -> Vec<u8> {
    let mut model = Writer::site(1, n, 1, w);
    for condition in 1..=n {
        model.leaf([], 1).chance(1, condition);
    }
    model.leaf([], 0).reward(1).leaf([1], 0).next(1, 1);
    model.end()
}

/// One action, its next level and the end worth −2³¹ × L1 each: stage 1 names 2⁶², which is beyond the limits.
pub fn steep_end() -> Vec<u8> {
    let mut w = Writer::site(1, 0, 1, 1);
    w.leaf([], 0).reward(1).leaf([i32::MIN], 0).next(1, 1).leaf([i32::MIN], 0).end_worth();
    w.end()
}

fn pond_commands() -> Writer {
    let mut w = Writer::site(1, 0, 2, 1);
    w.leaf([], 0).reward(1).leaf([1], 0).next(1, 1);
    w.leaf([], 50).leaf([], -1).test([-1], 10).reward(2);
    w.leaf([1], -10).leaf([1], 0).test([-1], 10).next(2, 1);
    w.name(1, "Hold").name(2, "Release");
    w
}

/// Two pumps, one of which runs in each step, and neither on a dry inlet: it is forbidden to pump more than there is. An
/// inflow of 10 comes with a chance of one half, and goes on for sure. At 10 two steps have no value without it.
pub fn dry_inlet() -> Vec<u8> {
    let mut w = Writer::site(1, 1, 2, 2);
    for (action, amount, earned) in [(1, 10, 20), (2, 20, 50)] {
        w.leaf([], earned).forbidden().test([-1], amount).reward(action);
        w.leaf([], 2).leaf([], 1).condition(1).chance(action, 1);
        w.leaf([1], 10 - amount).leaf([1], -amount).condition(5).next(action, 1);
    }
    w.name(1, "Slow").name(2, "Fast");
    w.end()
}

pub fn rain() -> Vec<u8> {
    let mut w = Writer::site(1, 1, 1, 10);
    w.leaf([], 7).chance(1, 1).leaf([1], 0).reward(1);
    w.leaf([1], -150).leaf([1], -50).condition(5).next(1, 1);
    w.end()
}
