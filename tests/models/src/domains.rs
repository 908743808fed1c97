//! Domains of the papers, as far as whole numbers express them, and ponds and chains of tanks of any size. A loss of a
//! million stands for what the papers forbid, but in `wet_reservoirs`.

use crate::{Writer, LEVELS};

fn loss(w: &mut Writer) {
    w.leaf([], -1_000_000);
}

fn nothing(w: &mut Writer) {
    w.leaf([], 0);
}

/// The pond with several releases: each pays a little less for its water than the one before.
pub fn releases(amounts: &[i32]) -> Vec<u8> {
    let mut w = Writer::site(1, 0, 1 + amounts.len() as u16, 1);
    w.leaf([], 0).reward(1).leaf([1], 0).next(1, 1);
    for (action, &amount) in (2_u16..).zip(amounts) {
        let enough = |w: &mut Writer| _ = w.test([-1], amount);
        w.leaf([], amount * (12 - i32::from(action)) / 2).leaf([], -1);
        enough(&mut w);
        w.reward(action).leaf([1], -amount).leaf([1], 0);
        enough(&mut w);
        w.next(action, 1);
    }
    w.end()
}

/// One diagram where a level lies above `least` and not above `most`, another elsewhere. All tests point one way.
fn between<const N: usize>(
    w: &mut Writer,
    level: [i32; N],
    [least, most]: [i32; 2],
    elsewhere: fn(&mut Writer),
    inside: impl FnOnce(&mut Writer),
) {
    elsewhere(w);
    inside(w);
    elsewhere(w);
    w.test(level, -most).test(level, -least);
}

/// Inventory control of one item (document 001), twenty times its rewards: nothing is ordered, or a multiple of an equal
/// part of 200. The demand is 100, or else condition 1 is a high one, of 150 and not 50.
pub fn inventory(orders: u16, known: bool) -> Vec<u8> {
    let demands: &[i32] = if known { &[100] } else { &[150, 50] };
    let by_demand = |w: &mut Writer, diagram: &dyn Fn(&mut Writer, i32)| {
        demands.iter().for_each(|&demand| diagram(w, demand));
        if !known {
            w.condition(1);
        }
    };
    let mut w = Writer::site(1, u8::from(!known), 1 + orders, 10);
    for action in 1..=1 + orders {
        let amount = i32::from(action - 1) * (200 / i32::from(orders));
        if !known {
            w.leaf([], 7).leaf([], 3).condition(1).chance(action, 1);
        }
        by_demand(&mut w, &|w, demand| _ = w.leaf([1], amount - demand));
        w.next(action, 1);
        between(&mut w, [1], [0, 500], loss, |w| {
            by_demand(w, &|w, demand| {
                w.leaf([19], -2 * amount).leaf([-1], 20 * demand - 2 * amount);
                w.test([1], -demand);
            });
        });
        w.reward(action);
    }
    w.end()
}

/// The rover (documents 001 and 002) that moves by 10 to either side; its picture is worth 4 at 0 and falls to 0 at −2
/// and 2 in straight lines. Condition 1: the picture is taken.
pub fn rover() -> Vec<u8> {
    rover_moving(&[-10, 10])
}

/// The same with other moves.
pub fn rover_moving(distances: &[i32]) -> Vec<u8> {
    let mut w = Writer::site(1, 1, distances.len() as u16, 1);
    for (action, &distance) in (1..).zip(distances) {
        w.leaf([1], distance).next(action, 1).leaf([], 1);
        between(&mut w, [1], [-2, 2], nothing, |w| _ = w.leaf([], 1));
        w.condition(1).chance(action, 1).leaf([], 0);
        between(&mut w, [1], [-2, 2], nothing, |w| {
            w.leaf([2], 4).leaf([-2], 4).test([1], 0);
        });
        w.condition(1).reward(action);
    }
    w.end()
}

/// Two reservoirs (document 001): no drain for one unit of time, or a drain of the second into the first for one or two.
pub fn reservoirs() -> Vec<u8> {
    reservoirs_that(loss)
}

/// The same, where what the paper forbids is forbidden.
pub fn wet_reservoirs() -> Vec<u8> {
    reservoirs_that(|w| _ = w.forbidden())
}

fn reservoirs_that(forbid: fn(&mut Writer)) -> Vec<u8> {
    let mut w = Writer::site(2, 0, 3, 1);
    for (action, time, drains) in [(1, 1, 0), (2, 1, 1), (3, 2, 1)] {
        let (first, second) = ((-300 + 500 * drains) * time, (400 - 500 * drains) * time);
        w.leaf([1], first).next(action, 1).leaf([0, 1], second).next(action, 2);
        between(&mut w, [1], [50 - first, 4500 - first], forbid, |w| {
            between(w, [0, 1], [50 - second, 4500 - second], forbid, |w| _ = w.leaf([], time * drains));
        });
        w.reward(action);
    }
    w.end()
}

/// A chain of tanks: hold, let 10 from a tank into the next one, or release 10 from the last one for 50.
pub fn chain(tanks: u8) -> Vec<u8> {
    let mut w = Writer::site(tanks, 0, u16::from(tanks) + 1, 1);
    let level = |tank: u8| -> [i32; LEVELS] { std::array::from_fn(|i| i32::from(i + 1 == tank.into())) };
    for action in 0..=tanks {
        // Action 0 holds; action i takes from tank i.
        let number = u16::from(action) + 1;
        let empty = |w: &mut Writer| _ = w.test(level(action).map(|x| -x), 10);
        for tank in 1..=tanks {
            let change = if tank == action { -10 } else { 10 };
            if action > 0 && (tank == action || tank == action + 1) {
                w.leaf(level(tank), change).leaf(level(tank), 0);
                empty(&mut w);
            } else {
                w.leaf(level(tank), 0);
            }
            w.next(number, tank);
        }
        if action == tanks {
            w.leaf([], 50).leaf([], -1);
            empty(&mut w);
        } else {
            w.leaf([], 0);
        }
        w.reward(number);
    }
    w.end()
}
