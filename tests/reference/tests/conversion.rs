//! K6: old models into new ones, and back. The bytes and places are worked out by hand.

use models::{of_old_length, old_form, pond, pond_kept, rain, random, Rng, Writer, LEVELS};
use reference::{
    listing, solve_old, solve_with_room, to_new, to_old, validate, validate_old, worth, worth_old, Refusal, State,
};

const ANY: usize = usize::MAX;

fn refused(number: u32, place: u32) -> Result<Vec<u8>, Refusal> {
    Err(Refusal { number, place })
}

/// A number of 32 bits.
fn n(number: i32) -> [u8; 4] {
    number.to_le_bytes()
}

const LETTERS: [u8; 16] = *b"Let water out!  ";

/// Every command of the old form, byte by byte: m is 2, n is 1, A is 1, W is 10.
fn old() -> Vec<u8> {
    let linear = |code: u8, numbers: [i32; 5]| [&[code][..], &numbers.map(n).concat()].concat();
    [
        &[0x01, 2, 1, 1, 10][..],
        &linear(0x10, [0, 0, 0, 0, 7]),
        &[0x21, 1, 1],
        &linear(0x10, [1, -2, 0, 0, 3]),
        &linear(0x10, [0, 0, 0, 0, -1]),
        &linear(0x12, [-3, 4, 0, 0, i32::MIN]),
        &[0x20, 1],
        &[0x30, 1],
        &LETTERS,
        &linear(0x10, [1, 0, 0, 0, -150]),
        &linear(0x10, [1, 0, 0, 0, 0]),
        &[0x11, 5],
        &[0x22, 1, 1],
        &linear(0x10, [0, 1, 0, 0, 0]),
        &[0x22, 1, 2],
        &linear(0x10, [0, 0, 0, 0, 120]),
        &[0x23, 0xFF],
    ]
    .concat()
}

/// The same in the planner's form.
fn new() -> Vec<u8> {
    let linear = |code: u8, [c1, c2, c3, c4, constant]: [i32; 5]| {
        [&[code][..], &[c1, c2, c3, c4, 0, 0, 0, 0, constant].map(n).concat()].concat()
    };
    [
        &[0x02, 2, 1, 1, 0, 10][..],
        &linear(0x10, [0, 0, 0, 0, 7]),
        &[0x21, 1, 0, 1],
        &linear(0x10, [1, -2, 0, 0, 3]),
        &linear(0x10, [0, 0, 0, 0, -1]),
        &linear(0x12, [-3, 4, 0, 0, i32::MIN]),
        &[0x20, 1, 0],
        &[0x30, 1, 0],
        &LETTERS,
        &linear(0x10, [1, 0, 0, 0, -150]),
        &linear(0x10, [1, 0, 0, 0, 0]),
        &[0x11, 5],
        &[0x22, 1, 0, 1],
        &linear(0x10, [0, 1, 0, 0, 0]),
        &[0x22, 1, 0, 2],
        &linear(0x10, [0, 0, 0, 0, 120]),
        &[0x23, 0xFF],
    ]
    .concat()
}

#[test]
fn every_command() {
    // Eight linears of 21 and 37 bytes, five commands with an action, the site, a condition and two single bytes.
    assert_eq!([old().len(), new().len()], [5 + 8 * 21 + 2 + 3 * 3 + 18 + 2 + 2, 6 + 8 * 37 + 3 + 3 * 4 + 19 + 2 + 2]);
    assert_eq!([validate_old(&old()), validate(&new())], [(0, 0); 2]);
    assert_eq!(to_new(&old(), ANY), Ok(new()));
    assert_eq!(to_old(&new(), ANY), Ok(old()));
}

/// The models in `examples`, both ways.
#[test]
fn examples() {
    for (name, model) in [("pond", pond()), ("pond_kept", pond_kept()), ("rain", rain())] {
        let path = format!("{}/../../examples/old/{name}.model", env!("CARGO_MANIFEST_DIR"));
        let old = std::fs::read(path).expect("an old example");
        assert_eq!(to_new(&old, model.len()), Ok(model.clone()), "{name}");
        assert_eq!(to_old(&model, old.len()), Ok(old), "{name}");
    }
    assert_eq!([pond().len(), to_old(&pond(), 220).map_or(0, |old| old.len())], [355, 220]);
}

/// The fourth level and the eighth action have a place in the old form; their numbers stay.
#[test]
fn the_last_that_fits() {
    let mut w = Writer::site(4, 0, 8, 100);
    for action in 1..=8 {
        w.leaf([1, 2, 3, -4], i32::MAX).reward(action).name(action, "Pump");
        (1..=4).for_each(|level| _ = w.leaf([0, 0, 0, 1], 0).next(action, level));
    }
    let model = w.end();
    let old = to_old(&model, ANY).expect("a model that fits");
    assert_eq!(old[..5], [0x01, 4, 0, 8, 100]);
    assert_eq!(old[5..26], *[&[0x10][..], &[1, 2, 3, -4, i32::MAX].map(n).concat()].concat());
    assert_eq!(validate_old(&old), (0, 0));
    assert_eq!(to_new(&old, ANY), Ok(model));
}

/// A model of m levels and so many actions that do nothing.
fn idle(m: u8, actions: u16) -> Vec<u8> {
    let mut w = Writer::site(m, 0, actions, 1);
    for action in 1..=actions {
        w.leaf([], 0).reward(action);
        (1..=m).for_each(|level| _ = w.leaf([], 0).next(action, level));
    }
    w.end()
}

#[test]
fn what_does_not_fit() {
    for (m, actions) in [(5, 1), (8, 1), (1, 9), (1, 400), (5, 9)] {
        assert_eq!(to_old(&idle(m, actions), ANY), refused(20, 0), "{m} levels, {actions} actions");
        // Before 17, and after the model's own.
        assert_eq!(to_old(&idle(m, actions), 0), refused(20, 0));
        let longer = [&idle(m, actions)[..], &[0]].concat();
        assert_eq!(to_old(&longer, ANY), refused(8, longer.len() as u32 - 1));
    }
    // The low byte of 256 actions is 0, that of 257 and 258 small.
    for actions in [256, 257, 258, 264] {
        assert_eq!(to_old(&idle(1, actions), ANY), refused(20, 0), "{actions} actions");
    }
    assert!(to_old(&idle(4, 8), ANY).is_ok());
}

/// As many bytes as an old model may have, and one more.
#[test]
fn how_long() {
    let (fits, longer) = (of_old_length(65_535), of_old_length(65_536));
    assert_eq!([validate(&fits), validate(&longer)], [(0, 0); 2]);
    let old = to_old(&fits, 65_535).expect("a model that fits");
    assert_eq!((old.len(), validate_old(&old)), (65_535, (0, 0)));
    assert_eq!(to_old(&fits, 65_534), refused(17, 0));
    assert_eq!([to_old(&longer, ANY), to_old(&longer, 65_536), to_old(&longer, 0)], [(); 3].map(|()| refused(20, 0)));
    // Forward no command grows by more than 37 to 21.
    assert_eq!(to_new(&old, fits.len()), Ok(fits.clone()));
    assert_eq!(to_new(&old, fits.len() - 1), refused(17, 0));
    assert!(fits.len() < 115_500);
    // A byte more than either form takes.
    let longer = old_form(&longer);
    assert_eq!((longer.len(), to_new(&longer, ANY)), (65_536, refused(10, 0)));
    assert_eq!([to_new(&[0; 65_536], 0), to_old(&[0; 262_145], 0)], [(); 2].map(|()| refused(10, 0)));
    assert_eq!([to_new(&[0; 65_535], 0), to_old(&[0; 262_144], 0)], [(); 2].map(|()| refused(3, 0)));
}

/// Its own refusals, at its own offsets; 17 last.
#[test]
fn refusals() {
    assert_eq!([to_new(&[], 0), to_old(&[], 0)], [(); 2].map(|()| refused(2, 0)));
    // Each given to the other one: the site is an unknown byte.
    assert_eq!([to_new(&new(), ANY), to_old(&old(), ANY)], [(); 2].map(|()| refused(3, 0)));
    assert_eq!([to_new(&pond(), 0), to_old(&old_form(&pond()), 0)], [(); 2].map(|()| refused(3, 0)));
    for length in [0, 1, new().len() - 1] {
        assert_eq!(to_new(&old(), length), refused(17, 0));
    }
    for length in [0, 1, old().len() - 1] {
        assert_eq!(to_old(&new(), length), refused(17, 0));
    }
    assert_eq!([to_new(&old(), new().len()), to_old(&new(), old().len())], [Ok(new()), Ok(old())]);
    // Cut in its last leaf, which begins at 183 of 206 bytes and at 301 of 340.
    assert_eq!(to_new(&old()[..old().len() - 3], ANY), refused(2, old().len() as u32 - 23));
    assert_eq!(to_old(&new()[..new().len() - 3], ANY), refused(2, new().len() as u32 - 39));
    // Five levels and nine actions are no old site.
    for site in [[5, 0, 1], [1, 0, 9]] {
        assert_eq!(to_new(&[&[0x01][..], &site, &[1, 0xFF]].concat(), ANY), refused(4, 0));
    }
    // A site of the other form inside, and command 13, are unknown.
    let behind = |bytes: &[u8]| to_new(&[&[0x01, 1, 0, 1, 1], bytes].concat(), ANY);
    assert_eq!(
        [behind(&[0x02, 1, 0, 1, 0, 1]), behind(&[0x13]), behind(&[0xFF])],
        [refused(3, 5), refused(3, 5), refused(7, 5)]
    );
}

/// Round trips of random models, and the plan of an old model beside that of the new one.
#[test]
fn random_models() {
    let mut fitting = 0;
    for seed in 0..3_000 {
        let model = random(&mut Rng(seed));
        let old = match to_old(&model, ANY) {
            Ok(old) => old,
            Err(Refusal { number, place }) => {
                let (own, at) = validate(&model);
                assert_eq!((number, place), if own == 0 { (20, 0) } else { (own, at) }, "{seed}");
                continue;
            }
        };
        assert_eq!(old, old_form(&model), "{seed}");
        assert_eq!(to_new(&old, model.len()), Ok(model.clone()), "{seed}");
        fitting += 1;
        if seed % 10 == 0 {
            let (of_old, of_new) = (solve_old(&old, 2, 500), solve_with_room(&model, 2, 500));
            assert_eq!(of_old, of_new, "{seed}");
            let state = State { mask: 0, nums: [0; LEVELS], d: 3 };
            assert_eq!(worth_old(&old, 1, state), worth(&model, 1, state), "{seed}");
        }
    }
    assert!(fitting > 1_200, "{fitting}");
}

/// The old pond's plan is the one of document 01.
#[test]
fn the_old_pond() {
    let done = solve_old(&old_form(&pond()), 2, 21);
    assert_eq!((done.number, done.peak), (0, 21));
    let text = listing(&pond(), 2, &done.nodes, &done.stages, ANY, 0).expect("a listing");
    assert!(text.starts_with("PLAN 1 0 2 1 2\nN 1 V 0 0 0 0 0 0 0 0 50 2\n"));
    let state = State { mask: 0, nums: [39, 0, 0, 0, 0, 0, 0, 0], d: 2 };
    let read = worth_old(&old_form(&pond()), 2, state);
    assert_eq!((read.number, read.action, read.low, read.high), (0, 1, 100, 0));
}
