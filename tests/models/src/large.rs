//! Large models: many pairs, a peak near the limit, deep recursion.

use crate::{Form, Writer, ACTIONS, LEVELS, NEW, OLD};

/// A chain of tests L1 + constant ≤ 0, constants rising; the low side of test i is a leaf of its own.
fn staircase(w: &mut Writer, first: i32, step: i32, count: i32, lowest: i32) {
    w.leaf([], lowest);
    for i in (0..count).rev() {
        w.leaf([], lowest + 1 + i).test([1], first + step * i);
    }
}

/// Two rewards with 750 tests each, at alternating levels. The first is higher everywhere, so that *best* meets every
/// pair and makes nothing but idle nodes. For horizon 1: 7,504 needed nodes.
pub fn staircases() -> Vec<u8> {
    let mut w = Writer::site(1, 0, 2, 1);
    for action in 1..=2u16 {
        staircase(&mut w, -1_500 + i32::from(action), 2, 750, 10_000 * i32::from(3 - action));
        w.reward(action).leaf([1], 0).next(action, 1);
    }
    w.end()
}

/// Two tanks, each with its own rain: hold, or let 30 out of the first, of which 20 reach the second, whose level is
/// the reward. For horizon 6: a peak of 1,283. Before parallel tests were replaced it was 58,154, near the limit, and
/// horizon 7 had no room.
pub fn near_limit() -> Vec<u8> {
    two_rain_tanks().end()
}

/// The same, where 40 or more in the first tank are worth 120 at the end. For horizon 4: a peak of about 20,000.
pub fn rain_tanks_kept() -> Vec<u8> {
    let mut w = two_rain_tanks();
    w.leaf([], 120).leaf([], 0).test([-1], 40).end_worth();
    w.end()
}

fn two_rain_tanks() -> Writer {
    let mut w = Writer::site(2, 2, 2, 10);
    let first = |w: &mut Writer, change| {
        w.leaf([1], 10 + change).leaf([1], change).condition(5);
    };
    let second = |w: &mut Writer, change| {
        w.leaf([0, 1], 20 + change).leaf([0, 1], change).condition(6);
    };
    for action in 1..=2 {
        w.leaf([], 8).chance(action, 1).leaf([], 5).chance(action, 2);
    }
    w.leaf([0, 1], 0).reward(1);
    first(&mut w, 0);
    w.next(1, 1);
    second(&mut w, 0);
    w.next(1, 2);
    w.leaf([0, 1], 35).leaf([0, 1], -4).test([-1], 30).reward(2);
    first(&mut w, -30);
    first(&mut w, 0);
    w.test([-1], 30).next(2, 1);
    second(&mut w, 20);
    second(&mut w, 0);
    w.test([-1], 30).next(2, 2);
    w.name(1, "Hold").name(2, "Release");
    w
}

/// Long paths with few nodes, for horizon 4 and N = 65,535. A value is 1 where a test fails and 0 at the end of the
/// chain. Action 1 has a chain of 661 tests, and after it nothing more is gained. Actions 2 to 4 go on from another
/// place, which puts shifted copies of the chain one after the other: levels 2 to 4 are a register, so that the tests
/// of a later action come later. Action 5 does so too, with a loss; the last *best* goes down both paths together.
pub fn deep() -> Vec<u8> {
    let mut w = Writer::site(4, 0, 5, 1);
    w.leaf([], 0);
    for k in (1..=661).rev() {
        w.leaf([], 1).test([-1], k);
    }
    w.reward(1).leaf([], 1_000_000).next(1, 1);
    for level in 2..=4 {
        w.leaf([], 0).next(1, level);
    }
    for action in 2..=5u16 {
        w.leaf([], if action < 5 { 0 } else { -5 }).reward(action);
        w.leaf([1, 1 - i32::from(action)], 0).next(action, 1);
        w.leaf([0, 0, 1], 0).next(action, 2).leaf([0, 0, 0, 1], 0).next(action, 3).leaf([], 0).next(action, 4);
    }
    w.end()
}

/// For horizon 7: a plan of at most 512 needed nodes whose listing is as long as one can be made. The end worth is a chain of
/// tests of L1. In stage 1 all levels but L1 get large coefficients, which change their places from stage to stage, and no
/// row is like another. One leaf is a constant, which all stages share. The constants of the leaves have `less` digits
/// less together.
pub fn long_listing(less: u32) -> Vec<u8> {
    const TESTS: u32 = 27;
    const STAGES: u32 = 7;
    const FACTOR: i32 = -1_999_999_973;
    let mut w = Writer::site(8, 0, 1, 1);
    w.leaf([], 0).reward(1);
    w.leaf(std::array::from_fn::<i32, LEVELS, _>(|i| if i == 0 { 0 } else { 1_199_999_980 + i as i32 }), 0).next(1, 1);
    for level in 2..=8u8 {
        let after = if level == 8 { 2 } else { usize::from(level) + 1 };
        w.leaf(std::array::from_fn::<i32, LEVELS, _>(|i| i32::from(i + 1 == after)), 0).next(1, level);
    }
    // A digit of a leaf that is in every stage counts seven times.
    let constant = |less: u32| -1_000_000_000 / 10_i32.pow(less);
    w.leaf([], constant(less % STAGES));
    for i in (0..TESTS).rev() {
        let fewer = (less / STAGES).saturating_sub(9 * i).min(9);
        w.leaf([FACTOR], constant(fewer) - i as i32).test([FACTOR], -1_900_000_000 + i as i32);
    }
    w.end_worth();
    w.end()
}

/// A site with pump settings by the hundred: 400 actions over one tank and two conditions, rain and a high price, with few
/// nodes each; 253,607 bytes. A setting lets out 20 or 40, if there is so much; it pays by price, less
/// what the pump takes, and moves the chances a little.
pub fn settings() -> Vec<u8> {
    let mut w = Writer::site(1, 2, ACTIONS, 4);
    for action in 1..=ACTIONS {
        let setting = i32::from(action);
        let (amount, pump) = (20 * (1 + setting % 2), setting / 8);
        let enough = |w: &mut Writer| _ = w.test([-1], amount);
        for price in [3, 2] {
            w.leaf([], price * amount - pump).leaf([], -1 - pump);
            enough(&mut w);
        }
        w.condition(2).reward(action);
        w.leaf([], 3 - pump / 25).leaf([], 2);
        enough(&mut w);
        w.chance(action, 1);
        w.leaf([], 1 + pump % 2).leaf([], 3).condition(2).chance(action, 2);
        for change in [-amount, 0] {
            w.leaf([1], 20 + change).leaf([1], change).condition(5);
        }
        enough(&mut w);
        w.next(action, 1).name(action, &format!("Setting {action}"));
    }
    w.end()
}

/// Eight levels, and linears in which all nine numbers count: what each tank keeps and gets depends on all of them.
pub fn mixed() -> Vec<u8> {
    let mut w = Writer::site(8, 1, 3, 10);
    let numbers = |seed: i32| -> [i32; LEVELS] { std::array::from_fn(|i| (seed * (i as i32 + 3)) % 7 - 3) };
    for action in 1..=3u16 {
        let own = i32::from(action);
        w.leaf(numbers(own), 9 - own).leaf(numbers(own + 3), own).test(numbers(own + 1), 5 - 3 * own).reward(action);
        w.leaf([], 3).leaf([], 8).test(numbers(2), own).chance(action, 1);
        for level in 1..=8u8 {
            let change = i32::from(level) - 2 * own;
            w.leaf(numbers(own + i32::from(level)), change);
            let mut kept = [0; LEVELS];
            kept[usize::from(level) - 1] = 1;
            w.leaf(kept, change).condition(5).next(action, level);
        }
    }
    w.end()
}

/// A model without fault of just so many bytes, 5,000 or more.
pub fn of_length(bytes: usize) -> Vec<u8> {
    long(bytes, &NEW)
}

/// One whose old form has just so many bytes, 5,000 or more.
pub fn of_old_length(bytes: usize) -> Vec<u8> {
    long(bytes, &OLD)
}

/// Its reward is a chain of tests, and then of conditions. In that form it has so many bytes.
fn long(bytes: usize, form: &Form) -> Vec<u8> {
    let leaf = 5 + form.coefficients;
    let (test, condition) = (2 * leaf, leaf + 2);
    let beside = form.site_bytes + 3 * leaf + 2 * (2 + form.action) + (1 + form.action) + 1;
    let rest = bytes - beside;
    let conditions = (0..test)
        .find(|count| (rest - condition * count).is_multiple_of(test))
        .expect("the bytes of a test and of a condition, each with a leaf, share no divisor");
    let mut w = Writer::site(1, 1, 1, 10);
    w.leaf([], 7).chance(1, 1).leaf([1], 0).next(1, 1).leaf([], 0);
    for i in 0..(rest - condition * conditions) / test {
        w.leaf([], i as i32).test([1], -(i as i32));
    }
    (0..conditions).for_each(|_| _ = w.leaf([], 1).condition(1));
    w.reward(1);
    w.end()
}
