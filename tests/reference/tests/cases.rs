//! The cases that 01 and the decisions state.

use models::{pond, rain, Writer};
use reference::diagram::without_replacing;
use reference::widths::{Form, New, LEVELS, NODE_WORDS};
use reference::{find, listing, name, page, program, solve, solve_with_room, validate, value, worth, Reading, State};

const POND_LISTING: &str = "PLAN 1 0 2 1 2
N 1 V 0 0 0 0 0 0 0 0 50 2
N 2 V 0 0 0 0 0 0 0 0 0 1
N 3 L -1 0 0 0 0 0 0 0 10 1 2
N 4 V 0 0 0 0 0 0 0 0 100 2
N 5 V 0 0 0 0 0 0 0 0 50 1
N 6 L -1 0 0 0 0 0 0 0 20 4 5
N 7 L -1 0 0 0 0 0 0 0 10 6 2
S 1 3
S 2 7
";

/// A numerator for each level, 0 for those that are not named.
fn levels(named: &[i32]) -> [i32; LEVELS] {
    std::array::from_fn(|i| named.get(i).copied().unwrap_or(0))
}

fn level(num: i32, d: i32) -> State {
    State { mask: 0, nums: levels(&[num]), d }
}

#[test]
fn pond_peak_and_listing() {
    let done = solve_with_room(&pond(), 2, 100);
    assert_eq!((done.number, done.place, done.peak), (0, 0, 21));
    let mut input = vec![2];
    input.extend(pond());
    assert_eq!(program(&input), POND_LISTING);
    assert_eq!(solve_with_room(&pond(), 2, 21).number, 0);
    let refused = solve(&pond(), 2, 12 * 20 + 11, 8, 8 * 21, 401);
    assert_eq!((refused.number, refused.place, refused.peak), (12, 2, 0));
    assert_eq!(program(&[]), "R 9 0\n");
}

#[test]
fn starred_cases() {
    let done = solve_with_room(&pond(), 2, 100);
    let cases = [(2, 20, 1, 100, 2), (2, 30, 1, 100, 2), (2, 39, 2, 100, 1), (2, 10, 1, 50, 1), (2, 9, 1, 0, 1)];
    let more = [(2, -5, 1, 0, 1), (1, 10, 1, 50, 2), (1, 19, 2, 0, 1)];
    for (steps, num, d, numerator, action) in cases.into_iter().chain(more) {
        let expected = Reading::new(numerator, action);
        assert_eq!(value(&pond(), &done.nodes, &done.stages, steps, level(num, d)), expected);
        assert_eq!(worth(&pond(), steps, level(num, d)), expected);
    }
    let done = solve_with_room(&rain(), 2, 100);
    let root = done.stages[1] as usize - 1;
    assert_eq!(done.nodes[12 * root..12 * (root + 1)], [0, 200, 0, 0, 0, 0, 0, 0, 0, -12_000, 1, 0]);
    let expected = Reading::new(28_000, 1);
    assert_eq!(value(&rain(), &done.nodes, &done.stages, 2, level(200, 1)), expected);
    assert_eq!(worth(&rain(), 2, level(200, 1)), expected);
}

/// Two actions over one tank that keep its level.
fn two_rewards(constants: [i32; 2], worths: [[i32; 2]; 2]) -> Vec<u8> {
    let mut w = Writer::site(1, 0, 2, 1);
    for (action, (constant, [high, low])) in (1..).zip(constants.into_iter().zip(worths)) {
        w.leaf([], high).leaf([], low).test([1], constant).reward(action);
        w.leaf([1], 0).next(action, 1);
    }
    w.end()
}

#[test]
fn parallel_tests_are_replaced_first() {
    // The branches of the last node are equal until the low one is replaced.
    let model = two_rewards([4, 3], [[10, 5], [1, 0]]);
    let done = solve_with_room(&model, 1, 14);
    assert_eq!((done.number, done.peak, done.stages[0]), (0, 14, 4));
    let tests = [[2, 1, 0, 0, 0, 0, 0, 0, 0, 4, 1, 2], [2, 1, 0, 0, 0, 0, 0, 0, 0, 3, 3, 2]];
    assert_eq!(done.nodes[2 * NODE_WORDS..], tests.concat());
    assert_eq!(solve_with_room(&model, 1, 13).number, 12);
    let before = without_replacing(|| solve_with_room(&model, 1, 14));
    assert_eq!((before.number, before.peak, before.stages[0]), (0, 13, 3));
    // What is dropped while loading is made, and counts there: a chain of four tests, of which the first is left.
    let mut w = Writer::site(1, 0, 1, 1);
    (3..=6).for_each(|constant| _ = w.leaf([], constant));
    w.leaf([], 9);
    (3..=6).rev().for_each(|constant| _ = w.test([1], constant));
    w.reward(1).leaf([1], 0).next(1, 1);
    let model = w.end();
    assert_eq!(solve_with_room(&model, 1, 99).peak, 10);
    let refused = solve_with_room(&model, 1, 9);
    assert_eq!((refused.number, refused.place), (12, 0));
}

#[test]
fn models_at_fault() {
    let pond = pond();
    assert_eq!(validate(&pond), (0, 0));
    assert_eq!(validate(&[]), (2, 0));
    assert_eq!(validate(&[0xFF]), (1, 0));
    assert_eq!(validate(&[0x02]), (2, 0));
    assert_eq!(validate(&[0x02, 0, 0, 0, 0]), (2, 0));
    assert_eq!(validate(&[0x01]), (3, 0));
    let site = [0x02, 1, 0, 1, 0, 1];
    let behind = |bytes: &[u8]| validate(&[&site, bytes].concat());
    assert_eq!(behind(&[]), (2, 6));
    assert_eq!(behind(&[0x02, 9, 9, 9, 9, 9]), (1, 6));
    assert_eq!(behind(&[0x02, 9, 9, 9, 9]), (2, 6));
    assert_eq!(behind(&[0x01, 1, 0, 1, 1]), (3, 6));
    assert_eq!(behind(&[0x20, 1, 0]), (5, 6));
    assert_eq!(behind(&[0x20, 1]), (2, 6));
    assert_eq!(behind(&[0xFF, 0]), (7, 6));
    let longer = [&pond[..], &[0x77]].concat();
    assert_eq!(validate(&longer), (8, pond.len() as u32));
    assert_eq!(validate(&[0; New::MODEL_BYTES + 1]), (10, 0));
    // As written: the dropped branch of a chance is judged too, and after the stack and what is given.
    let mut w = Writer::site(1, 1, 1, 10);
    w.leaf([], 3).leaf([], 11).condition(1).leaf([], 3).condition(1);
    let offset = w.len() as u32;
    w.chance(1, 1);
    assert_eq!(validate(&w.end()), (4, offset));
}

#[test]
fn no_room_for_stage_0() {
    let mut w = Writer::site(1, 0, 1, 1);
    w.leaf([], 5).reward(1).leaf([1], 0).next(1, 1);
    let model = w.end();
    let place = |nodes: usize| {
        let done = solve_with_room(&model, 1, nodes);
        (done.number, done.place, done.peak)
    };
    assert_eq!([place(0), place(1), place(2), place(3)], [(12, 0, 0), (12, 0, 0), (12, 1, 0), (12, 1, 0)]);
    assert_eq!(place(4), (0, 0, 4));
}

#[test]
fn readers_refuse() {
    let done = solve_with_room(&pond(), 2, 21);
    let read = |nodes: &[i64], stages: &[u32], steps, state| value(&pond(), nodes, stages, steps, state).number;
    assert_eq!(read(&done.nodes, &done.stages[..7], 9, level(1, 0)), 10);
    assert_eq!(read(&done.nodes, &done.stages, 9, level(1, 0)), 9);
    assert_eq!(read(&done.nodes, &done.stages, 3, level(1, 0)), 13);
    assert_eq!(read(&done.nodes, &done.stages, 3, level(1, 1)), 15);
    assert_eq!(read(&done.nodes[..12 * 7 - 1], &done.stages, 2, level(1, 1)), 14);
    assert_eq!(name(&pond(), 3).unwrap_err().number, 16);
    let list = |length, place| listing(&pond(), 2, &done.nodes, &done.stages, length, place).map_err(|r| r.number);
    let length = POND_LISTING.len();
    assert_eq!(list(length + 3, 3).as_deref(), Ok(POND_LISTING));
    assert_eq!(list(length + 3, 4), Err(17));
    assert_eq!(list(length, usize::MAX), Err(17));
}

/// Actions 1 and 4 are `A`, 2 has no name, 3 is ` A`, 5 sixteen spaces, 6 sixteen letters.
#[test]
fn names_lead_back() {
    let mut writer = Writer::site(1, 0, 6, 1);
    for action in 1..=6 {
        writer.leaf([], 0).reward(action).leaf([], 0).next(action, 1);
    }
    for (action, name) in [(4, b"A               "), (1, b"A               "), (3, b" A              ")] {
        writer.letters(action, name);
    }
    writer.letters(5, &[b' '; 16]).letters(6, b"sixteen letters!");
    let model = writer.end();
    let found = |sent: &[u8]| find(&model, sent).map_err(|refusal| (refusal.number, refusal.place));
    assert_eq!(found(b"A"), Err((19, 0)));
    assert_eq!(found(b"A  "), Err((19, 0)));
    assert_eq!(found(b" A "), Ok(3));
    assert_eq!([found(b""), found(b"   "), found(b"a"), found(b"A\0")], [Err((18, 0)); 4]);
    assert_eq!(found(b"sixteen letters!"), Ok(6));
    assert_eq!(found(b"sixteen letters!                    "), Ok(6));
    assert_eq!(found(b"sixteen letters!!"), Err((18, 0)));
    assert_eq!(find(&model[..9], b"A").unwrap_err().number, 2);
}

/// The pond's page of document 02: 50 and Release, then 50 and Hold, at 39/2.
#[test]
fn pond_page() {
    let done = solve_with_room(&pond(), 2, 100);
    let lines = |words: &[(u32, &str, &str)]| -> String {
        words.iter().map(|(steps, value, name)| format!("{steps:>2} {value:>30} {name:<16}\n")).collect()
    };
    let read = |num, d| page(&pond(), 2, &done.nodes, &done.stages, level(num, d), 102, 0).map(String::from_utf8);
    assert_eq!(read(39, 2), Ok(Ok(lines(&[(1, "50", "Release"), (2, "50", "Hold")]))));
    let short = page(&pond(), 2, &done.nodes, &done.stages, level(39, 2), 102, 1);
    assert_eq!(short.map_err(|refusal| refusal.number), Err(17));
    // -1/2 is rounded downward, 14 of stage 1 yields to 15 of stage 2.
    let half =
        page(&pond(), 1, &[0, 1, 0, 0, 0, 0, 0, 0, 0, 0, 1, 0], &[1; 8], level(-1, 2), 51, 0).map(String::from_utf8);
    assert_eq!(half, Ok(Ok(lines(&[(1, "-1", "Hold")]))));
    let bad = page(&pond(), 2, &[3; NODE_WORDS], &[1, 0, 1, 1, 1, 1, 1, 1], level(1, 1), 102, 0);
    assert_eq!(bad.map_err(|refusal| refusal.number), Err(15));
}
