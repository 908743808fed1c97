//! K13: models written as text. The bytes, places and numbers of the short cases are worked out by hand.

use models::{
    chain, corner, damaged_text, doubling, dry_inlet, limits, pond, pond_kept, rain, text, with_reward, Rng, POND_TEXT,
};
use reference::model::{open, Model, Tree};
use reference::text::{read, And, Atom, Cases, Comparison, Factor, Item, Not, Or, Outcome, Sum, Term};
use reference::widths::{CONDITIONS, CONSTANT, NUMBERS};
use reference::{import, same, validate, Refusal};

const ANY: usize = usize::MAX;

fn outcome(text: impl AsRef<[u8]>) -> (u32, u32) {
    import(text.as_ref(), ANY).map_or_else(|refused| (refused.number, refused.place), |_| (0, 0))
}

/// The number and place of the model whose reward has these cases.
fn of_reward(cases: &str) -> (u32, u32) {
    outcome(with_reward(cases))
}

/// Where the cases stop, counted from their first byte; they are 24.
fn stops(cases: &str) -> usize {
    let (number, place) = of_reward(cases);
    assert_eq!(number, 24, "{cases}");
    place as usize - with_reward("").len()
}

/// Where a text stops, counted from the end of a whole site and an item.
fn stops_behind(text: &str) -> usize {
    let start = with_reward("else : 5 ");
    let (number, place) = outcome(format!("{start}{text}"));
    assert_eq!(number, 24, "{text}");
    place as usize - start.len()
}

fn linear(code: u8, numbers: [i32; 9]) -> Vec<u8> {
    [vec![code], numbers.iter().flat_map(|number| number.to_le_bytes()).collect()].concat()
}

/// A leaf or a test over L1.
fn of_l1(code: u8, coefficient: i32, constant: i32) -> Vec<u8> {
    linear(code, [coefficient, 0, 0, 0, 0, 0, 0, 0, constant])
}

fn leaf(constant: i32) -> Vec<u8> {
    of_l1(0x10, 0, constant)
}

/// The reward's commands in the model of a text.
fn reward(cases: &str) -> Vec<u8> {
    let model = import(with_reward(cases).as_bytes(), ANY).expect("a model without fault");
    let start = with_reward_start();
    assert_eq!(model[..start.len()], start);
    assert_eq!(model[model.len() - 4..], [0x20, 1, 0, 0xFF]);
    model[start.len()..model.len() - 4].to_vec()
}

fn with_reward_start() -> Vec<u8> {
    [vec![0x02, 1, 1, 1, 0, 10], leaf(7), vec![0x21, 1, 0, 1], of_l1(0x10, 1, 0), vec![0x22, 1, 0, 1]].concat()
}

/// The table of commands, row by row.
#[test]
fn commands() {
    let condition = |number: u8| vec![0x11, number];
    let test = |coefficient, constant| of_l1(0x12, coefficient, constant);
    for (cases, commands) in [
        ("else : 2*L1 - 3", vec![of_l1(0x10, 2, -3)]),
        ("else : forbidden", vec![vec![0x13]]),
        ("C1 : 5 ; else : 6", vec![leaf(5), leaf(6), condition(1)]),
        ("!C1 : 5 ; else : 6", vec![leaf(6), leaf(5), condition(1)]),
        ("!!C1 : 5 ; else : 6", vec![leaf(5), leaf(6), condition(1)]),
        ("L1 <= 3 : 5 ; else : 6", vec![leaf(5), leaf(6), test(1, -3)]),
        ("L1 > 3 : 5 ; else : 6", vec![leaf(6), leaf(5), test(1, -3)]),
        ("L1 >= 3 : 5 ; else : 6", vec![leaf(5), leaf(6), test(-1, 3)]),
        ("L1 < 3 : 5 ; else : 6", vec![leaf(6), leaf(5), test(-1, 3)]),
        ("!L1 <= 3 : 5 ; else : 6", vec![leaf(6), leaf(5), test(1, -3)]),
        ("C1 & L1 <= 3 : 5 ; else : 6", vec![leaf(5), leaf(6), test(1, -3), leaf(6), condition(1)]),
        ("C1 | L1 <= 3 : 5 ; else : 6", vec![leaf(5), leaf(5), leaf(6), test(1, -3), condition(1)]),
        ("C1 : 5 ; L1 < 3 : 6 ; else : 7", vec![leaf(5), leaf(7), leaf(6), test(-1, 3), condition(1)]),
        // & before |, and ! before both; brackets override.
        (
            "!C1 | L1 <= 3 & C1 : 5 ; else : 6",
            vec![leaf(5), leaf(6), condition(1), leaf(6), test(1, -3), leaf(5), condition(1)],
        ),
        (
            "(C1 | L1 <= 3) & C1 : 5 ; else : 6",
            vec![
                [leaf(5), leaf(6), condition(1)].concat(),
                [leaf(5), leaf(6), condition(1), leaf(6), test(1, -3)].concat(),
                condition(1),
            ],
        ),
        ("!(C1 & L1 <= 3) : 5 ; else : 6", vec![leaf(6), leaf(5), test(1, -3), leaf(5), condition(1)]),
    ] {
        assert_eq!(reward(cases), commands.concat(), "{cases}");
    }
    // The other items; a next-step condition is numbered behind those now.
    let site = [0x02, 2, 1, 1, 0, 10];
    let text = "site m=2 n=1 A=1 W=10 end = else : L2 reward 1 = else : 1 next 1 L2 = N1 : 1 ; else : L2 \
        chance 1 N1 = else : 7 next 1 L1 = else : L1 name 1 \"a \"\"b\"\"\"";
    let model = [
        site.to_vec(),
        linear(0x10, [0, 1, 0, 0, 0, 0, 0, 0, 0]),
        vec![0x23],
        leaf(1),
        vec![0x20, 1, 0],
        leaf(1),
        linear(0x10, [0, 1, 0, 0, 0, 0, 0, 0, 0]),
        vec![0x11, 5, 0x22, 1, 0, 2],
        leaf(7),
        vec![0x21, 1, 0, 1],
        of_l1(0x10, 1, 0),
        vec![0x22, 1, 0, 1, 0x30, 1, 0],
        b"a \"b\"           ".to_vec(),
        vec![0xFF],
    ];
    assert_eq!(import(text.as_bytes(), ANY), Ok(model.concat()));
    assert_eq!(import(POND_TEXT.as_bytes(), ANY).map(|model| model.len()), Ok(pond().len()));
}

/// Sums: multiplication first, then from the left; a leading minus takes the whole first term.
#[test]
fn sums() {
    for (sum, coefficient, constant) in [
        ("2 + 3 * 4", 0, 14),
        ("10 - 4 - 3", 0, 3),
        ("10 - (4 - 3)", 0, 9),
        ("-2 * 3 + 10", 0, 4),
        ("2 * (-3)", 0, -6),
        ("(1 + 2) * L1 * 4 - L1", 11, 0),
        ("3 * (L1 - 2) * (5 - 3)", 6, -12),
        ("L1 - L1", 0, 0),
        ("(L1 - L1) * 7 + 1", 0, 1),
        ("-L1 * 2 - -0", 0, 0),
        ("0007 + 00", 0, 7),
        ("-2147483647 - 1", 0, i32::MIN),
        ("L1 * 2147483647", i32::MAX, 0),
        ("-2147483647 * L1 - L1", i32::MIN, 0),
    ] {
        let cases = format!("else : {sum}");
        if sum.contains("- -") {
            assert_eq!(stops(&cases), cases.find("-0").expect("a second minus"));
            continue;
        }
        assert_eq!(reward(&cases), of_l1(0x10, coefficient, constant), "{sum}");
    }
    // The right side of a comparison may begin with a minus.
    assert_eq!(reward("L1 <= -3 : 1 ; else : 0"), [leaf(1), leaf(0), of_l1(0x12, 1, 3)].concat());
}

/// The first byte that no text can have there (K13.5).
#[test]
fn places_of_24() {
    assert_eq!(outcome(""), (24, 0));
    assert_eq!(stops_behind("rewarf"), 5);
    assert_eq!(stops("L1 => 3 : 0 ; else : 0"), 3);
    assert_eq!(stops("L1 < = 3 : 0 ; else : 0"), 5);
    assert_eq!(stops("else : 1 2"), 9);
    assert_eq!(stops("else : L1*L2"), 10);
    assert_eq!(stops("else : (1+L1)*(2+L2)"), 17);
    assert_eq!(stops("else : 5 else"), 10);
    assert_eq!(stops_behind("else"), 1);
    // A condition of the site is a letter and a digit, one token.
    for (cases, place) in [("C5 : 0 ; else : 0", 1), ("C12 : 0 ; else : 0", 2), ("C 1 : 0 ; else : 0", 1), ("C0", 1)] {
        assert_eq!(stops(cases), place, "{cases}");
    }
    for (cases, place) in [("else : L0", 8), ("else : L9", 8), ("else : L 1", 8), ("else : C1", 7), ("else : L12", 9)] {
        assert_eq!(stops(cases), place, "{cases}");
    }
    // Comparisons do not chain; a condition in brackets is neither compared nor added to.
    assert_eq!(stops("1 < L1 < 2 : 0"), 7);
    assert_eq!(stops("(C1) < 2 : 0"), 5);
    assert_eq!(stops("(C1) + 1 < 2"), 5);
    assert_eq!(stops("(L1 < 2) + 1"), 9);
    assert_eq!(stops("(L1) : 0"), 5);
    assert_eq!(stops("(L1 + 2) | C1"), 9);
    assert_eq!(stops("!L1 : 0"), 4);
    // No minus after + - *, and no + in front.
    assert_eq!(stops("else : 2 * -3"), 11);
    assert_eq!(stops("else : +3"), 7);
    assert_eq!(stops("else : --3"), 8);
    assert_eq!(stops("else : 3 + )"), 11);
    // Behind a factor with a level there is none, all the way in.
    assert_eq!(stops("else : L1*((2)*(3+L1))"), 18);
    assert_eq!(stops("else : (L1)*(L1-L1)"), 13);
    // Known only afterwards: the outer bracket is a condition's, the inner one a sum's.
    assert_eq!(of_reward("((L1+2)*3 <= 4 | C1) : 1 ; else : 0"), (0, 0));
    assert_eq!(of_reward("((L1+2)*3 <= 4) : 1 ; else : 0"), (0, 0));
    assert_eq!(of_reward("((L1+2)*3) <= 4 : 1 ; else : 0"), (0, 0));
    assert_eq!(stops("((L1+2)*3 <= 4 | C1) <= 4"), 21);
    assert_eq!(stops("else : (C1)"), 8);
    assert_eq!(stops("L1 <= (L1 < 3)"), 10);
    // White space is nowhere needed and nowhere in a token.
    assert_eq!(outcome("site m=1n=0A=1W=1reward1=else:0next1L1=else:L1"), (0, 0));
    assert_eq!(outcome("si te"), (24, 2));
    assert_eq!(outcome("\r\n\t site m=1 n=0 A=1 W=1 \n reward\t1=else:0\r\nnext 1 L1 = else : L1\n\n"), (0, 0));
    assert_eq!(outcome("site m=1 n=0 A=1 W=1 \u{b}"), (24, 21));
    assert_eq!(outcome("site n=1"), (24, 5));
    assert_eq!(outcome("# a comment"), (24, 0));
    // Only the end is missing: the length.
    for text in ["site m=1 n=0 A=1 W=", "site m=1 n=0 A=1 W=1 nam", "site m=1 n=0 A=1 W=1 end = else : ", " "] {
        assert_eq!(outcome(text), (24, text.len() as u32), "{text}");
    }
    for cases in ["else", "else : 5 * ", "C1 & ", "L1 <", "(C1", "C1 : 5", "else : 5 ren"] {
        let ends = cases.len() - usize::from(cases.ends_with("ren"));
        assert_eq!(stops(cases), ends, "{cases}");
    }
    // Names: no byte above 7E or below 20.
    for (name, place) in [("\"\u{7f}", 1), ("\"a\nb\"", 2), ("\"a", 2), ("Hold", 0), ("\"a\"b", 3), ("\"a\" \"", 4)] {
        assert_eq!(stops_behind(&format!("name 1 {name}")), 7 + place, "{name}");
    }
    let mut high = with_reward("else : 0 name 1 \"").into_bytes();
    high.push(0xC3);
    assert_eq!(outcome(&high), (24, high.len() as u32 - 1));
}

/// Numbers beyond 32 bits (K13.6), once the whole text is in the grammar.
#[test]
fn places_of_25() {
    for (sum, number) in [
        ("2147483647", 0),
        ("2147483648", 25),
        ("-2147483648", 25),
        ("-2147483647 - 1", 0),
        ("-(2147483647 + 1)", 25),
        ("-(-2147483647 - 1)", 25),
        ("2147483647 + 1 - 1", 25),
        ("2147483647 - 1 + 1", 0),
        ("1 + (2147483647 - 1)", 0),
        ("65536 * 65536 * 0", 25),
        ("0 * 65536 * 65536", 0),
        ("0 * (65536 * 65536)", 25),
        ("0 * 2147483648", 25),
        ("99999999999999999999999999999999999999999999", 25),
        ("00000000000000000000000000000000000000000001", 0),
        ("2147483647 * L1 + L1 - L1", 25),
        ("(L1 + 2) * 2147483647", 25),
        ("(L1 - L1) * 2147483647", 0),
        ("46341 * 46341", 25),
        ("46340 * 46340", 0),
    ] {
        assert_eq!(of_reward(&format!("else : {sum}")), (number, 0), "{sum}");
    }
    // A comparison's difference: right less left for < and >=, left less right else.
    for (comparison, number) in [
        ("L1 <= -2147483647 - 1", 25),
        ("L1 > -2147483647 - 1", 25),
        ("L1 < -2147483647 - 1", 0),
        ("L1 >= -2147483647 - 1", 0),
        ("-2147483647 - 1 <= L1", 0),
        ("-2147483647 - 1 < L1", 25),
        ("-2147483647 * L1 - L1 >= 0", 25),
        ("-2147483647 * L1 - L1 <= 0", 0),
        ("2147483647 * L1 <= -L1", 25),
    ] {
        assert_eq!(of_reward(&format!("{comparison} : 1 ; else : 0")), (number, 0), "{comparison}");
    }
    // The site's and the items' numbers too.
    let site =
        |m: &str, action: &str| format!("site m={m} n=0 A=1 W=1 reward {action} = else : 0 next 1 L1 = else : L1");
    assert_eq!(outcome(site("1", "1")), (0, 0));
    assert_eq!(outcome(site("2147483648", "1")), (25, 0));
    assert_eq!(outcome(site("1", "2147483648")), (25, 0));
    assert_eq!(outcome(format!("{} name 2147483648 \"\"", site("1", "1"))), (25, 0));
    // 24 first, wherever it is; and 25 before all that the model is refused for.
    assert_eq!(stops("else : 2147483648 ;"), 18);
    assert_eq!(outcome(site("2147483648", "1 =")).0, 24);
    assert_eq!(outcome(site("9", "2147483648")), (25, 0));
}

/// The model's own refusals, by its offsets (K13.4, K13.7, K13.8, K13.11).
#[test]
fn the_models_own_refusals() {
    let start = with_reward_start().len() as u32;
    assert_eq!(of_reward("N1 : 0 ; else : 0"), (4, start + 37 + 37 + 2));
    assert_eq!(of_reward("C2 : 0 ; else : 0"), (4, start + 37 + 37));
    assert_eq!(of_reward("else : L2"), (4, start));
    assert_eq!(of_reward("else : 0 reward 1 = else : 1"), (6, start + 37 + 3 + 37));
    assert_eq!(of_reward("else : 0 chance 1 N1 = else : forbidden").0, 6);
    assert_eq!(of_reward("else : 0 end = else : forbidden"), (4, start + 37 + 3 + 1));
    assert_eq!(of_reward("else : 0 end = else : L1"), (0, 0));
    assert_eq!(of_reward("else : 0 name 2 \"\""), (4, start + 40));
    assert_eq!(of_reward("else : 0 name 1 \"a\" name 1 \"b\""), (6, start + 40 + 19));
    assert_eq!(outcome("site m=1 n=0 A=1 W=1"), (7, 6));
    assert_eq!(outcome("site m=1 n=0 A=1 W=1 reward 1 = else : 0"), (7, 46));
    // No number of the site is cut: m=257 is not m=1.
    for site in
        ["m=257 n=0 A=1 W=1", "m=1 n=256 A=1 W=1", "m=1 n=0 A=65537 W=1", "m=1 n=0 A=1 W=257", "m=0 n=0 A=1 W=1"]
    {
        assert_eq!(outcome(format!("site {site} reward 1 = else : 0 next 1 L1 = else : L1")), (4, 0), "{site}");
    }
    assert_eq!(of_reward("else : 0 reward 65537 = else : 0"), (4, start + 40 + 37));
    // A comparison that the levels fall out of stays a test, and is the model's 4.
    assert_eq!(of_reward("1 <= 2 : 0 ; else : 0"), (4, start + 74));
    assert_eq!(of_reward("L1 <= L1 : 0 ; else : 0"), (4, start + 74));
    // The stack: 31 plain cases and an else fit, and one more does not; negated ones need no entry.
    let cases = |count: usize, condition: &str| format!("{}else : 0", format!("{condition} : 1 ; ").repeat(count));
    assert_eq!(of_reward(&cases(31, "C1")), (0, 0));
    assert_eq!(of_reward(&cases(32, "C1")), (5, start + 32 * 37));
    for condition in ["!C1", "L1 < 3", "L1 > 3", "!L1 <= 3"] {
        assert_eq!(of_reward(&cases(200, condition)), (0, 0), "{condition}");
    }
    // 17 comes last.
    let model = import(POND_TEXT.as_bytes(), ANY).expect("the pond");
    assert_eq!(import(POND_TEXT.as_bytes(), model.len()), Ok(model.clone()));
    let short = Err(Refusal { number: 17, place: 0 });
    assert_eq!(import(POND_TEXT.as_bytes(), model.len() - 1), short);
    assert_eq!(import(POND_TEXT.as_bytes(), 0), short);
    assert_eq!(import(with_reward("else : L2").as_bytes(), 0), Err(Refusal { number: 4, place: start }));
    assert_eq!(import(&doubling(1_000), 0), Err(Refusal { number: 10, place: 0 }));
}

#[test]
fn texts_at_the_limits() {
    for (what, text, expected) in limits() {
        assert_eq!(outcome(&text), expected, "{what}");
    }
    let (longest, more) = (models::text_for_length(262_144), models::text_for_length(100_001));
    assert_eq!(import(&longest, ANY).map(|model| model.len()), Ok(262_144));
    assert_eq!(import(&more, ANY).map(|model| model.len()), Ok(100_001));
    assert_eq!(import(&models::longest_row(), ANY).map(|model| model.len()), Ok(262_143));
    assert_eq!(import(&models::slowest_text(8_192), ANY).map(|model| model.len()), Ok(260_439));
    assert_eq!(import(&models::usual_text(), ANY).map(|model| model.len()), Ok(252_007));
    let marks = format!("{} name 1 \"{}\"", with_reward("else : 0"), "\"\"".repeat(16));
    let model = import(marks.as_bytes(), ANY).expect("a model without fault");
    assert_eq!(model[model.len() - 17..], [&[b'"'; 16][..], &[0xFF]].concat());
}

/// A state: halves of each level, the conditions now and of the next step as bits.
struct State {
    halves: [i128; 8],
    now: u8,
    later: u8,
}

/// The meaning of a reading, straight from the papers' words, in halves. One of two factors is whole.
impl State {
    fn sum(&self, Sum(terms): &Sum) -> i128 {
        terms.iter().map(|(minus, term)| if *minus { -self.term(term) } else { self.term(term) }).sum()
    }

    fn term(&self, Term(factors): &Term) -> i128 {
        factors
            .iter()
            .map(|factor| self.factor(factor))
            .reduce(|product, factor| product * factor / 2)
            .expect("a factor")
    }

    fn factor(&self, factor: &Factor) -> i128 {
        match factor {
            Factor::Number(number) => 2 * i128::from(*number),
            Factor::Level(level) => self.halves[usize::from(*level) - 1],
            Factor::Bracket(sum) => self.sum(sum),
        }
    }

    fn or(&self, Or(ands): &Or) -> bool {
        ands.iter().any(|And(nots)| nots.iter().all(|not| self.not(not)))
    }

    fn not(&self, Not { negated, atom }: &Not) -> bool {
        let holds = match atom {
            Atom::Now(number) => self.now >> (number - 1) & 1 == 1,
            Atom::Later(number) => self.later >> (number - 1) & 1 == 1,
            Atom::Bracket(or) => self.or(or),
            Atom::Compared(left, comparison, right) => {
                let (left, right) = (self.sum(left), self.sum(right));
                match comparison {
                    Comparison::Less => left < right,
                    Comparison::AtMost => left <= right,
                    Comparison::Greater => left > right,
                    Comparison::AtLeast => left >= right,
                }
            }
        };
        holds != *negated
    }

    /// None where it is forbidden.
    fn cases(&self, Cases { cases, otherwise }: &Cases) -> Option<i128> {
        let first = cases.iter().find(|(or, _)| self.or(or)).map_or(otherwise, |(_, outcome)| outcome);
        match first {
            Outcome::Forbidden => None,
            Outcome::Sum(sum) => Some(self.sum(sum)),
        }
    }

    fn linear(&self, linear: &[i64; NUMBERS]) -> i128 {
        let levels = linear.iter().zip(self.halves).map(|(&number, halves)| i128::from(number) * halves).sum::<i128>();
        levels + 2 * i128::from(linear[CONSTANT])
    }

    /// A diagram of the model that the text becomes.
    fn tree(&self, model: &Model, tree: u32) -> Option<i128> {
        match &model.trees[tree as usize] {
            Tree::Leaf(linear) => Some(self.linear(linear)),
            Tree::Forbidden => None,
            Tree::Condition { number, high, low } => {
                let bits = if usize::from(*number) > CONDITIONS { self.later } else { self.now };
                let holds = bits >> ((number - 1) % CONDITIONS as u8) & 1 == 1;
                self.tree(model, if holds { *high } else { *low })
            }
            Tree::Test { linear, high, low } => self.tree(model, if self.linear(linear) <= 0 { *high } else { *low }),
        }
    }

    fn any(rng: &mut Rng) -> State {
        let size = rng.pick(&[2, 6, 40]);
        State {
            halves: std::array::from_fn(|_| rng.between(-size, size).into()),
            now: rng.word() as u8,
            later: rng.word() as u8,
        }
    }
}

/// The model's values follow the reading: every item of random texts, at random states, equality among them.
#[test]
fn values_follow_the_reading() {
    let mut rng = Rng(7);
    let (mut texts, mut accepted, mut read_values, mut none) = (0, 0, 0, 0);
    let mut refused = [0; 27];
    while texts < 3_000 {
        let text = text(&mut rng);
        texts += 1;
        let reading = read(&text).expect("a text of the grammar");
        let bytes = match import(&text, ANY) {
            Ok(bytes) => bytes,
            Err(refusal) => {
                refused[refusal.number as usize] += 1;
                continue;
            }
        };
        accepted += 1;
        assert_eq!(validate(&bytes), (0, 0));
        let model: Model = open(&bytes, None, None).expect("a model without fault");
        assert_eq!([model.site.m, model.site.n, model.site.a].map(|n| n as u64), reading.site[..3]);
        for _ in 0..4 {
            let state = State::any(&mut rng);
            for item in &reading.items {
                let (cases, tree) = match item {
                    Item::Reward(action, cases) => (cases, model.reward(*action as usize - 1)),
                    Item::Chance(action, i, cases) => (cases, model.chances(*action as usize - 1)[usize::from(*i) - 1]),
                    Item::Next(action, i, cases) => (cases, model.nexts(*action as usize - 1)[usize::from(*i) - 1]),
                    Item::End(cases) => (cases, model.end_worth().expect("an end worth")),
                    Item::Name(action, letters) => {
                        let start = model.name(*action as usize - 1).expect("a name");
                        assert_eq!(bytes[start..start + letters.len()], letters[..]);
                        assert!(bytes[start + letters.len()..start + 16].iter().all(|&byte| byte == b' '));
                        continue;
                    }
                };
                let value = state.cases(cases);
                assert_eq!(state.tree(&model, tree), value, "{}", String::from_utf8_lossy(&text));
                read_values += 1;
                none += u32::from(value.is_none());
            }
        }
    }
    println!("{texts} texts, {accepted} accepted, refused {refused:?}, {read_values} values, {none} none");
    assert!(accepted > 1_500 && none > 500, "{accepted} {none}");
    for number in [4, 25] {
        assert!(refused[number] > 20, "{number}: {refused:?}");
    }
}

/// Whatever a text is, an import comes to one of the outcomes in their order.
#[test]
fn damaged_texts() {
    let mut rng = Rng(11);
    let mut numbers = [0; 27];
    for _ in 0..3_000 {
        let text = text(&mut rng);
        let damaged = damaged_text(&mut rng, &text);
        let (number, place) = outcome(&damaged);
        numbers[number as usize] += 1;
        match number {
            0 => assert_eq!(validate(&import(&damaged, ANY).expect("a model")), (0, 0)),
            24 => assert_eq!(read(&damaged).err(), Some(place as usize)),
            10 | 25 => assert_eq!(place, 0),
            _ => assert!((1..=8).contains(&number), "{number}"),
        }
    }
    println!("by number {numbers:?}");
    assert!(numbers[0] > 200 && numbers[24] > 1_000, "{numbers:?}");
}

/// The examples' texts become the examples' bytes.
#[test]
fn the_examples() {
    let folder = format!("{}/../../examples", env!("CARGO_MANIFEST_DIR"));
    let models = [
        ("pond", pond()),
        ("pond_kept", pond_kept()),
        ("rain", rain()),
        ("corner", corner()),
        ("dry_inlet", dry_inlet()),
        ("chain", chain(3)),
    ];
    for (name, model) in models {
        let text = std::fs::read(format!("{folder}/{name}.txt")).expect("an example's text");
        assert_eq!(import(&text, ANY), Ok(model.clone()), "{name}");
        assert_eq!(std::fs::read(format!("{folder}/{name}.model")).expect("an example"), model, "{name}");
    }
}

/// `same` sees each thing that two models may differ in.
#[test]
fn same_sees_differences() {
    let text = |reward: &str, name: &str| format!("{} name 1 \"{name}\"", with_reward(reward));
    let model = |reward, name| import(text(reward, name).as_bytes(), ANY).expect("a model without fault");
    let first = model("L1 <= 3 & C1 : 5 ; else : forbidden", "a");
    assert!(same(&first, &model("!(!C1 | L1 > 3) : 5 ; else : forbidden", "a"), 500, 1));
    for (reward, name) in [
        ("L1 < 3 & C1 : 5 ; else : forbidden", "a"),
        ("L1 <= 3 & C1 : 5 ; else : 5", "a"),
        ("L1 <= 3 | C1 : 5 ; else : forbidden", "a"),
        ("L1 <= 3 & C1 : 6 ; else : forbidden", "a"),
        ("L1 <= 3 & C1 : 5 ; else : forbidden", "b"),
        ("L1 <= 3 & C1 : 5 ; else : forbidden end = else : 0", "a"),
    ] {
        assert!(!same(&first, &model(reward, name), 500, 1), "{reward} {name}");
    }
}

/// The texts of docs/TEXT-MODELS.md are models without fault, and its refusals are as it says.
#[test]
fn the_page() {
    let page = std::fs::read_to_string(format!("{}/../../docs/TEXT-MODELS.md", env!("CARGO_MANIFEST_DIR")));
    let page = page.expect("the page");
    let texts: Vec<&str> = page.split("```text\n").skip(1).filter_map(|rest| rest.split("```").next()).collect();
    assert_eq!(texts.len(), 5);
    for text in texts {
        assert_eq!(outcome(text), (0, 0), "{text}");
    }
    let mut rows = 0;
    for row in page.lines().filter_map(|line| line.strip_prefix("| `")) {
        let Some((cases, rest)) = row.split_once("` | ") else { continue };
        let columns: Vec<u32> = rest.split(" | ").filter_map(|column| column.parse().ok()).collect();
        let [number, place] = columns[..] else { continue };
        let start = if number == 24 { with_reward("").len() as u32 } else { 0 };
        assert_eq!(of_reward(cases), (number, start + place), "{cases}");
        rows += 1;
    }
    assert_eq!(rows, 28);
}

/// Two texts that say the same, one without copies.
#[test]
fn a_case_before_saves_copies() {
    let long = with_reward("C1 & L1 < 3 : 1 ; C1 & L1 > 7 : 2 ; C1 : 3 ; else : 0");
    let short = with_reward("!C1 : 0 ; L1 < 3 : 1 ; L1 > 7 : 2 ; else : 3");
    let [long, short] = [long, short].map(|text| import(text.as_bytes(), ANY).expect("a model without fault"));
    assert!(same(&long, &short, 500, 1) && short.len() < long.len());
}
