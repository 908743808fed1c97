//! K5: eight levels and four hundred actions. The numbers are worked out by hand.

use models::{of_length, old_form, pond, pond_kept, rain, Writer, ACTIONS, LEVELS, MODEL_BYTES};
use reference::{
    find, listing, name, page, program, solve, solve_with_room, validate, validate_old, value, worth, Reading, State,
};

/// So many times the last level.
fn l8(times: i32) -> [i32; LEVELS] {
    let mut numbers = [0; LEVELS];
    numbers[7] = times;
    numbers
}

/// One action whose reward `write` leaves on the stack; all levels stay.
fn one_action(m: u8, write: impl FnOnce(&mut Writer)) -> Vec<u8> {
    let mut w = Writer::site(m, 0, 1, 1);
    write(&mut w);
    w.reward(1);
    for level in 1..=m {
        let mut own = [0; LEVELS];
        own[usize::from(level) - 1] = 1;
        w.leaf(own, 0).next(1, level);
    }
    w.end()
}

/// So many actions over one tank, each a constant reward of its number; the last one has a name.
fn many(actions: u16) -> Vec<u8> {
    let mut w = Writer::site(1, 0, actions, 1);
    for action in 1..=actions {
        w.leaf([], action.into()).reward(action).leaf([1], 0).next(action, 1);
    }
    w.name(actions, "Last");
    w.end()
}

#[test]
fn ranges_of_the_site() {
    let site = |m: u8, low: u8, high: u8| validate(&[0x02, m, 0, low, high, 1, 0xFF]);
    for m in 1..=8 {
        assert_eq!(site(m, 1, 0), (7, 6), "{m} levels");
    }
    assert_eq!([site(0, 1, 0), site(9, 1, 0), site(255, 1, 0)], [(4, 0); 3]);
    // 256 and 400 actions; none, 401, 512 and 65,281.
    assert_eq!([site(1, 0, 1), site(1, 0x90, 1)], [(7, 6); 2]);
    assert_eq!([site(1, 0, 0), site(1, 0x91, 1), site(1, 0, 2), site(1, 1, 0xFF)], [(4, 0); 4]);
    assert_eq!(validate(&[0x02, 1, 0, 1, 0, 101, 0xFF]), (4, 0));
    assert_eq!(validate(&[0x02, 1, 0, 1, 0]), (2, 0));
    // The old site is an unknown byte, first and later.
    assert_eq!(validate(&[0x01, 1, 0, 1, 1, 0xFF]), (3, 0));
    assert_eq!(validate(&[0x02, 1, 0, 1, 0, 1, 0x01, 1, 0, 1, 1]), (3, 6));
}

#[test]
fn actions_have_two_bytes() {
    // Action 257 of two, and action 1 of 300 given as 257 too.
    let two = |action: u16| {
        let mut w = Writer::site(1, 0, 2, 1);
        w.leaf([], 0).reward(action);
        validate(&w.end())
    };
    assert_eq!([two(2), two(3), two(257), two(0), two(256)], [(7, 46), (4, 43), (4, 43), (4, 43), (4, 43)]);
    let mut w = Writer::site(1, 0, 300, 1);
    w.leaf([], 0).reward(1).leaf([], 0).reward(257).leaf([], 0);
    let offset = w.len() as u32;
    assert_eq!(validate(&w.clone().reward(257).clone().end()), (6, offset));
    assert_eq!(validate(&w.clone().next(257, 1).clone().end()), (7, offset + 4));
    for actions in [255, 256, 257, ACTIONS] {
        let model = many(actions);
        assert_eq!(validate(&model), (0, 0));
        assert_eq!(name(&model, actions.into()), Ok(&b"Last"[..]));
        assert_eq!(name(&model, u32::from(actions) + 1).unwrap_err().number, 16);
        assert_eq!(find(&model, b"Last "), Ok(actions.into()));
        // The largest reward is the last action's, at every state.
        let done = solve_with_room(&model, 2, 2_000);
        let state = State { mask: 0, nums: [7, 0, 0, 0, 0, 0, 0, 0], d: 2 };
        let expected = Reading::new(2 * 2 * i128::from(actions), actions.into());
        assert_eq!(value(&model, &done.nodes, &done.stages, 2, state), expected);
        assert_eq!(worth(&model, 2, state), expected);
    }
    // A reward and the next level L1 for each of 400: 401 leaves, and a name's letters from its third byte on.
    assert_eq!(many(400).len(), 6 + 400 * (37 + 3 + 37 + 4) + 19 + 1);
}

#[test]
fn tables_of_so_many_words() {
    // The pond needs 21 nodes: 252 node words and 168 work words.
    let number = |node_words, work_words| solve(&pond(), 2, node_words, 8, work_words, 401).number;
    assert_eq!([number(252, 168), number(251, 168), number(252, 167), number(1_000, 1_000)], [0, 12, 12, 0]);
    assert_eq!([number(168, 168), number(168, 252), number(263, 175)], [12, 12, 0]);
}

#[test]
fn nine_numbers() {
    // Test and leaves have all nine: 2, 4, .., 18 is divided by 2, and 1 to 9 stays.
    let twice: [i32; LEVELS] = std::array::from_fn(|i| 2 * (i as i32 + 1));
    let model = one_action(8, |w| {
        w.leaf([1, 2, 3, 4, 5, 6, 7, 8], 9).leaf([-1, 0, 0, 0, 0, 0, 0, 1], 0).test(twice, 18);
    });
    let done = solve_with_room(&model, 1, 100);
    let text =
        "PLAN 8 0 1 1 1\nN 1 V 1 2 3 4 5 6 7 8 9 1\nN 2 V -1 0 0 0 0 0 0 1 0 1\nN 3 L 1 2 3 4 5 6 7 8 9 1 2\nS 1 3\n";
    assert_eq!(listing(&model, 1, &done.nodes, &done.stages, text.len(), 0).as_deref(), Ok(text));
    // 1 + 4 + .. + 64 is 204, and 9 × 2 is 18. It is above 0: the low leaf, 8 − 1.
    let read = |nums, d| value(&model, &done.nodes, &done.stages, 1, State { mask: 0, nums, d });
    assert_eq!(read([1, 2, 3, 4, 5, 6, 7, 8], 2), Reading::new(7, 1));
    let below = [-1, -2, -3, -4, -5, -6, -7, -8];
    assert_eq!(read(below, 2), Reading::new(-204 + 18, 1));
    assert_eq!(worth(&model, 1, State { mask: 0, nums: below, d: 2 }), Reading::new(-186, 1));
    // The ninth number counts in the divisor: 2·L8 + 1 stays, 2·L8 + 2 is L8 + 1.
    let tests = |constant| {
        let model = one_action(8, |w| _ = w.leaf([], 1).leaf([], 0).test(l8(2), constant));
        solve_with_room(&model, 1, 100).nodes[2 * 12..].to_vec()
    };
    assert_eq!(tests(1), [2, 0, 0, 0, 0, 0, 0, 0, 2, 1, 1, 2]);
    assert_eq!(tests(2), [2, 0, 0, 0, 0, 0, 0, 0, 1, 1, 1, 2]);
}

#[test]
fn the_eighth_level() {
    // A coefficient of it is beyond seven levels, in a leaf and in a test.
    let mut w = Writer::site(7, 0, 1, 1);
    assert_eq!(validate(&w.clone().leaf(l8(1), 0).clone().end()), (4, 6));
    w.leaf([], 0).leaf([], 1);
    assert_eq!(validate(&w.clone().test(l8(-1), 0).clone().end()), (4, 80));
    let seventh = [0, 0, 0, 0, 0, 0, 1];
    assert_eq!(validate(&w.clone().test(seventh, 0).reward(1).clone().end()), (7, 120));
    // As the one coefficient of a test it is enough.
    let mut w = Writer::site(8, 0, 1, 1);
    assert_eq!(validate(&w.clone().leaf([], 0).leaf([], 1).test([], 5).clone().end()), (4, 80));
    w.leaf([], 0).leaf([], 1).test(l8(1), 5);
    assert_eq!(validate(&w.reward(1).clone().end()), (7, 120));
    // L8 comes before L7 in the order, as it has the smaller coefficient of L7; the order of writing does not count.
    let either = |first: [i32; LEVELS], second: [i32; LEVELS]| {
        let model = one_action(8, |w| {
            w.leaf([], 1).leaf([], 2).test(first, 0).leaf([], 3).leaf([], 4).test(first, 0).test(second, 0);
        });
        let done = solve_with_room(&model, 1, 100);
        done.nodes.chunks(12).last().expect("a row")[7..9].to_vec()
    };
    let l7 = [0, 0, 0, 0, 0, 0, 1, 0];
    assert_eq!([either(l7, l8(1)), either(l8(1), l7)], [[0, 1], [0, 1]]);
    // A state's numerator beyond m is 13.
    let model = one_action(7, |w| _ = w.leaf(seventh, 0));
    let done = solve_with_room(&model, 1, 100);
    let read = |nums| value(&model, &done.nodes, &done.stages, 1, State { mask: 0, nums, d: 1 });
    assert_eq!(read([0, 0, 0, 0, 0, 0, 5, 0]), Reading::new(5, 1));
    assert_eq!([read([0, 0, 0, 0, 0, 0, 5, 1]).number, read([0, 0, 0, 0, 0, 0, 0, -1]).number], [13, 13]);
}

/// A page's value has at most 29 digits and a sign, with eight levels too.
#[test]
fn the_longest_value() {
    const LIMIT: i64 = (1 << 62) - 1;
    let model = one_action(8, |w| _ = w.leaf([], 0));
    let line = |coefficient: i64| {
        let nodes = [&[0][..], &[coefficient; 8], &[-coefficient, 1, 0]].concat();
        let state = State { mask: 0, nums: [i32::MIN; 8], d: 1 };
        String::from_utf8(page(&model, 1, &nodes, &[1; 8], state, 51, 0).expect("a page")).expect("letters")
    };
    // 8 × (2⁶² − 1) × 2³¹ + 2⁶² − 1, below zero and above.
    assert_eq!(line(LIMIT), format!(" 1 -79228162518876023594791469055 {:16}\n", ""));
    assert_eq!(line(-LIMIT), format!(" 1  79228162518876023594791469055 {:16}\n", ""));
}

#[test]
fn rows_at_fault() {
    let model = rain();
    let row = |kind: i64, word: usize, number: i64| {
        let mut nodes = vec![0; 3 * 12];
        nodes[10] = 1;
        nodes[12 + 10] = 1;
        nodes[24..].copy_from_slice(&[kind, 1, 0, 0, 0, 0, 0, 0, 0, 0, 1, 2]);
        nodes[24 + word] = number;
        let state = State { mask: 0, nums: [1, 0, 0, 0, 0, 0, 0, 0], d: 1 };
        value(&model, &nodes, &[3; 8], 1, state).number
    };
    assert_eq!([row(1, 1, 1), row(2, 1, 1)], [0, 0]);
    // A condition has seven coefficients and a constant that are zero; a test's are within the limits, m or not.
    for word in 2..=9 {
        assert_eq!([row(1, word, 1), row(2, word, 1)], [14, 0], "word {word}");
        assert_eq!([row(2, word, 1 << 62), row(2, word, 1 - (1 << 62))], [14, 0], "word {word}");
    }
    assert_eq!([row(1, 10, 3), row(1, 11, 0), row(1, 11, 3), row(3, 1, 1)], [14; 4]);
}

#[test]
fn long_models() {
    let longest = of_length(MODEL_BYTES);
    assert_eq!(longest.len(), 262_144);
    assert_eq!(validate(&longest), (0, 0));
    assert_eq!(validate(&of_length(MODEL_BYTES + 1)), (10, 0));
    // Places beyond 16 bits: the end missing, a byte behind it, an action that the site has not in the last command.
    let shorter = of_length(MODEL_BYTES - 1);
    assert_eq!(validate(&longest[..262_143]), (2, 262_143));
    assert_eq!(validate(&[&shorter[..], &[0]].concat()), (8, 262_143));
    let mut other = longest.clone();
    other[262_142] = 1; // the high byte of the reward's action
    assert_eq!(validate(&other), (4, 262_140));
    other[262_140] = 0x01;
    assert_eq!(validate(&other), (3, 262_140));
}

#[test]
fn the_listing_program() {
    // It takes 65,535 bytes and says 10 for more, before 9; the planner itself takes them.
    let input = |horizon: u8, model: &[u8]| program(&[&[horizon], model].concat());
    let (fits, longer) = (of_length(65_535), of_length(65_536));
    assert_eq!([input(2, &longer), input(0, &longer), input(9, &[0; 65_536])], ["R 10 0\n"; 3]);
    assert_eq!([input(0, &fits), input(9, &[0; 65_535]), input(1, &[0; 65_535])], ["R 9 0\n", "R 9 0\n", "R 3 0\n"]);
    assert_eq!([validate(&longer), validate(&fits)], [(0, 0); 2]);
    assert_eq!(input(1, &fits), "R 12 0\n");
    // It has 512 nodes.
    assert_eq!(solve_with_room(&stairs(127), 1, 1_000).peak, 512);
    assert!(input(1, &stairs(127)).starts_with("PLAN 1 0 1 1 1\n"));
    assert_eq!(input(1, &stairs(128)), "R 12 1\n");
}

/// A chain of t tests of L1. They and their leaves, the next level L1 and stage 0's leaf 0 are 2t + 3 nodes; the sum of
/// reward and 0 is the reward, and numbering makes 2t + 1 more: 4t + 4.
fn stairs(tests: i32) -> Vec<u8> {
    one_action(1, |w| {
        w.leaf([], 1);
        (0..tests).for_each(|i| _ = w.leaf([], 2 + i).test([1], -i));
    })
}

#[test]
fn the_old_form() {
    for model in [pond(), pond_kept(), rain()] {
        let old = old_form(&model);
        assert_eq!([validate_old(&old), validate(&old)], [(0, 0), (3, 0)]);
        assert_eq!(validate_old(&model), (3, 0));
    }
    let site = |m, a| validate_old(&[0x01, m, 0, a, 1, 0xFF]);
    assert_eq!([site(4, 8), site(5, 8), site(4, 9), site(0, 1), site(1, 0)], [(7, 5), (4, 0), (4, 0), (4, 0), (4, 0)]);
    let behind = |bytes: &[u8]| validate_old(&[&[0x01, 1, 0, 1, 1], bytes].concat());
    assert_eq!([behind(&[0x13]), behind(&[0x02, 1, 0, 1, 0, 1])], [(3, 5); 2]);
    assert_eq!([behind(&[0x01, 9, 9, 9, 9]), behind(&[0x01, 9, 9, 9]), behind(&[0x23])], [(1, 5), (2, 5), (5, 5)]);
    // A leaf has 21 bytes, a reward two, a next level three, a name eighteen.
    let leaf = [&[0x10][..], &[0; 20]].concat();
    assert_eq!([behind(&leaf[..20]), behind(&leaf)], [(2, 5), (2, 26)]);
    assert_eq!(behind(&[&leaf[..], &[0x20, 1, 0xFF]].concat()), (7, 28));
    assert_eq!(behind(&[&leaf[..], &[0x22, 1, 1, 0x20, 1]].concat()), (5, 29));
    assert_eq!(behind(&[&leaf[..], &[0x22, 1, 2]].concat()), (4, 26));
    assert_eq!(behind(&[&[0x30, 1][..], b"sixteen letters!", &[0x30, 2], b"sixteen letters!"].concat()), (4, 23));
    // A coefficient of L2 where there is one level.
    assert_eq!(behind(&[0x10, 0, 0, 0, 0, 0, 1, 0, 0, 0, 0, 0, 0, 0, 0, 0, 0, 0, 0, 0, 0, 0xFF]), (4, 5));
    // An old model has 65,535 bytes at most.
    let longer = |bytes: usize| {
        let mut old = old_form(&pond());
        old.resize(bytes, 0);
        validate_old(&old)
    };
    assert_eq!([longer(65_535), longer(65_536)], [(8, 220), (10, 0)]);
}
