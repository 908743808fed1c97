//! K9: a peak for loading and one for each action. The numbers are worked out by hand.

use models::{old_form, pond, pond_ending, random, steep_end, tank, Rng, Writer};
use reference::widths::{NODE_WORDS, PEAK_WORDS, STAGES, WORK_WORDS};
use reference::{solve, solve_old, solve_with_room, with_deep_stack, Outcome};

const L1: [i32; 1] = [1];

/// All words: loading, the actions, zeros.
fn words(loading: u32, actions: &[u32]) -> Vec<u32> {
    let mut words: Vec<u32> = std::iter::once(loading).chain(actions.iter().copied()).collect();
    words.resize(PEAK_WORDS, 0);
    words
}

fn peaks(model: &[u8], horizon: u32) -> Vec<u32> {
    solve_with_room(model, horizon, 1_000).peaks
}

/// The pond has seven nodes once loaded: leaves 0, L1, 50, −1 and L1 − 10, and the test over two of them twice. Let N/a be a
/// leaf numbered with action a.
///
/// Stage 1. Hold adds 0/1: 8. Release has the seven and 0/1, then 50/2, −1/2 and their test, then the best of both, which
/// is the test over 50/2 and 0/1: 12.
///
/// Stage 2. With stage 1 ten nodes are needed. Hold adds the test over 50 and 0, which it substitutes, then that over 50/1
/// and 0/1 with the leaf 50/1: 13. Release reaches the 21 of document 01.
#[test]
fn the_pond() {
    assert_eq!(peaks(&pond(), 1), words(7, &[8, 12]));
    assert_eq!(peaks(&pond(), 2), words(7, &[13, 21]));
    let ending = pond_ending(|w| _ = w.leaf(L1, 0));
    assert_eq!(peaks(&ending, 2), words(7, &[14, 24]));
    assert_eq!(solve_old(&old_form(&pond()), 2, 100).peaks, words(7, &[13, 21]));
}

/// Without an end worth the leaf 0 of stage 0 is made as stage 1 begins: no part of loading, but of action 1.
#[test]
fn stage_0() {
    // Loaded: 5 and L1. Then 0; 5/1.
    let model = tank(5, |_| ());
    assert_eq!(peaks(&model, 1), words(2, &[4]));
    assert_eq!([1, 2].map(|nodes| solve_with_room(&model, 1, nodes).place), [0, 1]);
    // It is the reward's leaf.
    assert_eq!(peaks(&tank(0, |_| ()), 1), words(2, &[3]));
    // An end worth is loaded: 5, L1 and 7. Then 5 + 7; 12/1.
    assert_eq!(peaks(&tank(5, |w| _ = w.leaf([], 7).end_worth()), 1), words(3, &[5]));
}

/// Loading's word counts all that loading makes: here a chain of four tests, of which the first with its leaves is left.
#[test]
fn dropped_while_loading() {
    let mut w = Writer::site(1, 0, 1, 1);
    (3..=6).for_each(|constant| _ = w.leaf([], constant));
    w.leaf([], 9);
    (3..=6).rev().for_each(|constant| _ = w.test([1], constant));
    w.reward(1).leaf([1], 0).next(1, 1);
    // Left: the leaves 3, 9 and L1, and a test. Then 0; both leaves numbered, and their test.
    assert_eq!(peaks(&w.end(), 1), words(10, &[8]));
}

/// Over all stages, not the last one: in stage 1 action 1 numbers an end worth of five nodes, 15 with the ten that are loaded.
/// Action 2 has these 15, then 101 and 101/2: 17. That is best everywhere, so that stage 2 begins with 11; action 1 adds 101
/// and 101/1, action 2 has 101/1 instead, 101, 201 and 201/2.
#[test]
fn an_earlier_stage() {
    let mut w = Writer::site(2, 0, 2, 1);
    w.leaf([], 0).reward(1).leaf([1, 0], 0).next(1, 1).leaf([0, 1], 0).next(1, 2);
    w.leaf([], 100).reward(2).leaf([], 5).next(2, 1).leaf([], 5).next(2, 2);
    w.leaf([], 1).leaf([], 2).test([0, -1], 0).leaf([], 3).test([-1, 0], 0).end_worth();
    let model = w.end();
    assert_eq!([1, 2].map(|horizon| peaks(&model, horizon)), [words(10, &[15, 17]), words(10, &[15, 17])]);
}

/// Each action adds 0 with its number beside the best one, 0/1.
#[test]
fn four_hundred_actions() {
    for count in [1, 2, 3, 399, 400] {
        let mut w = Writer::site(1, 0, count, 1);
        for action in 1..=count {
            w.leaf([], 0).reward(action).leaf(L1, 0).next(action, 1);
        }
        let mut expected = vec![4; count.into()];
        expected[0] = 3;
        assert_eq!(peaks(&w.end(), 2), words(2, &expected), "{count} actions");
    }
}

#[test]
fn refused() {
    let zeros = vec![0; PEAK_WORDS];
    for nodes in 0..21 {
        let done = solve_with_room(&pond(), 2, nodes);
        assert_eq!((done.number, done.peaks), (12, zeros.clone()), "{nodes} nodes");
    }
    let steep = solve_with_room(&steep_end(), 1, 1_000);
    assert_eq!((steep.number, steep.peaks), (11, zeros));
    let number = |model: &[u8], horizon, stage_words, peak_words| {
        let done = solve(model, horizon, 21 * NODE_WORDS, stage_words, 21 * WORK_WORDS, peak_words);
        assert_eq!(done.peaks.is_empty(), done.is_untouched());
        (done.number, done.place)
    };
    assert_eq!(number(&pond(), 2, STAGES, 401), (0, 0));
    // 10 comes before 9 and the model's own.
    for peak_words in [0, 1, 3, 400, 402, 802] {
        assert_eq!(number(&pond(), 2, STAGES, peak_words), (10, 0));
        assert_eq!(number(&pond(), 9, STAGES, peak_words), (10, 0));
        assert_eq!(number(&[0xFF], 2, 7, peak_words), (10, 0));
    }
    assert_eq!(number(&pond(), 9, STAGES, 401), (9, 0));
    assert_eq!(number(&pond(), 2, 7, 401), (10, 0));
}

/// The one peak is the largest word; no word is of an action that the site has not; a longer horizon lowers none.
#[test]
fn random_models() {
    let (mut solved, mut elsewhere) = (0, 0);
    with_deep_stack(|| {
        for seed in 0..600 {
            let model = random(&mut Rng(seed));
            let actions = usize::from(u16::from_le_bytes([model[3], model[4]]));
            let mut shorter: Option<Outcome> = None;
            for horizon in 1..=3 {
                let done = solve_with_room(&model, horizon, 600);
                if done.number != 0 {
                    assert!(done.is_untouched() && done.peaks.is_empty() || done.peaks == [0; PEAK_WORDS]);
                    break;
                }
                let (loading, largest) = (done.peaks[0], done.peaks.iter().max());
                assert_eq!((done.peaks.len(), largest), (PEAK_WORDS, Some(&done.peak)), "seed {seed}");
                assert!(done.peaks[1..=actions].iter().all(|&peak| peak > 0), "seed {seed}");
                assert!(done.peaks[1 + actions..].iter().all(|&word| word == 0), "seed {seed}");
                if let Some(shorter) = &shorter {
                    assert_eq!(shorter.peaks[0], loading, "seed {seed}");
                    assert!(shorter.peaks.iter().zip(&done.peaks).all(|(x, y)| x <= y), "seed {seed}");
                }
                solved += 1;
                elsewhere += u32::from(done.peaks[actions] < done.peak);
                shorter = Some(done);
            }
        }
    });
    assert!(solved > 500 && elsewhere > 50, "{solved} solved, {elsewhere} with the peak before the last action");
}
