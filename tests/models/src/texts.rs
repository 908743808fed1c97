//! Models written as text (K13): random ones with all items, most of them models without fault; each damaged; and texts at
//! the limits.

use crate::{Rng, ACTIONS, LEVELS, MODEL_BYTES};

/// Brackets that may stand in one another, and characters of a name.
pub const BRACKETS: usize = 32;
pub const CHARACTERS: usize = 16;
/// Bytes of a text.
pub const TEXT_BYTES: usize = 262_144;

/// What the item is for.
#[derive(Clone, Copy, PartialEq)]
enum Kind {
    Reward,
    Chance,
    Next,
    End,
    Name,
}

struct Writer<'a> {
    rng: &'a mut Rng,
    text: Vec<u8>,
    m: usize,
    n: usize,
    w: i32,
    size: i32,
    /// One gap in so many has white space.
    gaps: usize,
    /// One name, number or item in so many is not what a model may have.
    loose: usize,
    /// Brackets that are still allowed, and more of each list with one chance in so many.
    deep: usize,
    more: usize,
}

impl Writer<'_> {
    fn put(&mut self, token: &str) {
        while self.rng.once_in(self.gaps) {
            let blank = self.rng.pick(b"   \n\t\r");
            self.text.push(blank);
        }
        self.text.extend(token.as_bytes());
    }

    fn more(&mut self) -> bool {
        self.rng.once_in(self.more)
    }

    fn is_loose(&mut self) -> bool {
        self.rng.once_in(self.loose)
    }

    /// A letter with a digit: one that the site has, or any.
    fn lettered(&mut self, letter: char, has: usize, most: usize) {
        let most = if has == 0 || self.is_loose() { most } else { has };
        let digit = 1 + self.rng.below(most);
        self.put(&format!("{letter}{digit}"));
    }

    /// A constant, now and then large, or with zeros in front.
    fn number(&mut self) {
        let large = ["2147483647", "2147483648", "46341", "99999999999999999999", "4294967296"];
        let number = match self.rng.below(40 * self.loose) {
            0 => self.rng.pick(&large).to_string(),
            1 | 2 => format!("00{}", self.rng.below(100)),
            _ => self.rng.between(0, self.size).to_string(),
        };
        self.put(&number);
    }

    fn bracketed(&mut self, write: impl FnOnce(&mut Self)) {
        self.put("(");
        self.deep -= 1;
        write(self);
        self.deep += 1;
        self.put(")");
    }

    fn sum(&mut self, free: bool) {
        if self.rng.once_in(5) {
            self.put("-");
        }
        self.term(free);
        while self.more() {
            let sign = self.rng.pick(&["+", "-"]);
            self.put(sign);
            self.term(free);
        }
    }

    /// One factor at most may have a level.
    fn term(&mut self, free: bool) {
        let factors = 1 + usize::from(self.more()) + usize::from(self.more());
        let with_level = if free { self.rng.below(factors + 1) } else { factors };
        for place in 0..factors {
            if place > 0 {
                self.put("*");
            }
            let free = place == with_level;
            match () {
                () if self.deep > 0 && self.rng.once_in(8) => self.bracketed(|w| w.sum(free)),
                () if free => self.lettered('L', self.m, LEVELS),
                () => self.number(),
            }
        }
    }

    fn or(&mut self, kind: Kind) {
        self.and(kind);
        while self.more() && self.more() {
            self.put("|");
            self.and(kind);
        }
    }

    fn and(&mut self, kind: Kind) {
        self.not(kind);
        while self.more() && self.more() {
            self.put("&");
            self.not(kind);
        }
    }

    fn not(&mut self, kind: Kind) {
        while self.rng.once_in(5) {
            self.put("!");
        }
        match self.rng.below(6) {
            0 if self.deep > 0 => self.bracketed(|w| w.or(kind)),
            1 | 2 if self.n > 0 => {
                let letter = if kind == Kind::Next && self.rng.once_in(2) || self.is_loose() { 'N' } else { 'C' };
                self.lettered(letter, self.n, 4);
            }
            _ => self.comparison(),
        }
    }

    /// Mostly one whose levels do not fall out: a level alone on one side, none on the other.
    fn comparison(&mut self) {
        let any = self.rng.once_in(4) && self.is_loose() || self.rng.once_in(60);
        let sides = if any { [true; 2] } else { self.rng.pick(&[[true, false], [false, true]]) };
        for (place, has_level) in sides.into_iter().enumerate() {
            if place == 1 {
                let sign = self.rng.pick(&["<", "<=", ">", ">="]);
                self.put(sign);
            }
            if any || !has_level {
                self.sum(any);
                continue;
            }
            let times = self.rng.pick(&["", "", "2*", "-", "-7*", "(3-1)*"]);
            self.put(if self.deep > 0 || !times.starts_with('(') { times } else { "" });
            self.lettered('L', self.m, LEVELS);
            if self.more() {
                self.put("-");
                self.term(false);
            }
        }
    }

    fn outcome(&mut self, kind: Kind) {
        self.put(":");
        match kind {
            Kind::Reward if self.rng.once_in(6) => self.put("forbidden"),
            _ if self.is_loose() => self.put("forbidden"),
            Kind::Chance if !self.is_loose() => {
                let weight = self.rng.between(0, self.w);
                self.put(&weight.to_string());
            }
            _ => self.sum(true),
        }
    }

    fn cases(&mut self, kind: Kind) {
        self.put("=");
        for _ in 0..self.rng.pick(&[0, 1, 1, 2, 3]) {
            self.or(kind);
            self.outcome(kind);
            self.put(";");
        }
        self.put("else");
        self.outcome(kind);
    }

    fn string(&mut self) {
        let mut name = String::from("\"");
        for _ in 0..self.rng.pick(&[0, 1, 4, 5, 6, 15, 16]) {
            match self.rng.below(8) {
                0 => name.push_str("\"\""),
                1 => name.push(' '),
                _ => name.push(char::from(self.rng.pick(b"HoldRelease~!#&|()<>=:;*+-09"))),
            }
        }
        name.push('"');
        self.put(&name);
    }

    fn item(&mut self, kind: Kind, action: usize, index: usize) {
        self.put(match kind {
            Kind::Reward => "reward",
            Kind::Chance => "chance",
            Kind::Next => "next",
            Kind::End => "end",
            Kind::Name => "name",
        });
        if kind != Kind::End {
            let action = if self.is_loose() { self.rng.pick(&[0, action + 1, 400, 70_000]) } else { action };
            self.put(&action.to_string());
        }
        match kind {
            Kind::Chance => self.put(&format!("N{index}")),
            Kind::Next => self.put(&format!("L{index}")),
            Kind::Name => return self.string(),
            _ => {}
        }
        self.cases(kind);
    }

    /// All that a model needs, in any order, now and then one left out or given again; an end worth and names.
    fn items(&mut self, actions: usize) {
        let mut items = Vec::new();
        for action in 1..=actions {
            items.push((Kind::Reward, action, 0));
            items.extend((1..=self.n).map(|i| (Kind::Chance, action, i)));
            items.extend((1..=self.m).map(|i| (Kind::Next, action, i)));
            if self.rng.once_in(2) {
                items.push((Kind::Name, action, 0));
            }
        }
        if self.rng.once_in(3) {
            items.push((Kind::End, 0, 0));
        }
        for place in (1..items.len()).rev() {
            let other = self.rng.below(place + 1);
            items.swap(place, other);
        }
        if self.rng.once_in(10 * self.loose) {
            let place = self.rng.below(items.len());
            let item = items[place];
            match self.rng.once_in(2) {
                true => drop(items.remove(place)),
                false => items.push(item),
            }
        }
        for (kind, action, index) in items {
            self.item(kind, action, index);
        }
    }
}

/// A text of the grammar. Most become models without fault; the others have numbers beyond 32 bits, or break the model's own
/// rules.
pub fn text(rng: &mut Rng) -> Vec<u8> {
    let w = rng.pick(&[1, 2, 10, 100]);
    let mut writer = Writer {
        text: Vec::new(),
        m: rng.pick(&[1, 1, 1, 2, 2, 3, 8]),
        n: rng.pick(&[0, 1, 1, 2, 4]),
        w,
        size: rng.pick(&[1, 3, 20, 1_000]),
        gaps: rng.pick(&[2, 3, 30]),
        loose: rng.pick(&[8, 60, 2_000, 2_000, 2_000]),
        deep: rng.pick(&[0, 2, 4, BRACKETS]),
        more: rng.pick(&[2, 3, 5]),
        rng,
    };
    let actions = writer.rng.pick(&[1, 1, 2, 3]);
    let (m, n) = (writer.m, writer.n);
    writer.put("site");
    for (letter, number) in [("m", m), ("n", n), ("A", actions), ("W", w as usize)] {
        let number = if writer.rng.once_in(40 * writer.loose) { 257 } else { number };
        writer.put(letter);
        writer.put("=");
        writer.put(&number.to_string());
    }
    writer.items(actions);
    writer.put("");
    writer.text
}

/// The bytes that texts are made of, and some that they are not.
const BYTES: &[u8] = b"sitemnAWrwadchxlfobCLN0123456789 \t\n\r\"=+-*()<>!&|:;\x00\x0B\x7F\x80\xFF.,[";

/// The text with a byte put in, taken out or changed.
pub fn damaged_text(rng: &mut Rng, text: &[u8]) -> Vec<u8> {
    let mut text = text.to_vec();
    let place = rng.below(text.len().max(1));
    let byte = if rng.once_in(3) && !text.is_empty() { text[rng.below(text.len())] } else { rng.pick(BYTES) };
    match rng.below(3) {
        0 => text.insert(place, byte),
        1 if !text.is_empty() => drop(text.remove(place)),
        _ if !text.is_empty() => text[place] = byte,
        _ => text.push(byte),
    }
    text
}

pub const POND_TEXT: &str = "site m=1 n=0 A=2 W=1 name 1 \"Hold\" name 2 \"Release\" reward 1 = else : 0 \
    next 1 L1 = else : L1 reward 2 = L1 >= 10 : 50 ; else : -1 next 2 L1 = L1 >= 10 : L1 - 10 ; else : L1";

/// One level and one condition, and one action whose reward is written here.
pub fn with_reward(cases: &str) -> String {
    format!("site m=1 n=1 A=1 W=10 chance 1 N1 = else : 7 next 1 L1 = else : L1 reward 1 = {cases}")
}

/// The pond with so many bytes in all: spaces before the last token.
pub fn text_of_length(bytes: usize) -> Vec<u8> {
    let (start, last) = POND_TEXT.as_bytes().split_at(POND_TEXT.len() - 2);
    let spaces = vec![b' '; bytes - POND_TEXT.len()];
    [start, &spaces, last].concat()
}

/// A model that would have 2 to this power of bytes, and more: each case copies all that comes after it.
pub fn doubling(cases: usize) -> Vec<u8> {
    with_reward(&format!("{}else : 0", "C1 & L1 <= 3 : 1 ; ".repeat(cases))).into_bytes()
}

/// A text that becomes a model of just so many bytes. No case leaves an entry on the stack, since the rest comes first.
pub fn text_for_length(bytes: usize) -> Vec<u8> {
    let cases = [("L1 > 0 : 1 ; ", 74), ("!C1 : 0 ; ", 39), ("!C1 : forbidden ; ", 3)];
    // The site, three leaves, chance, next level, reward, end.
    let beside = 6 + 3 * 37 + 4 + 4 + 3 + 1;
    let mut rest = bytes - beside;
    let mut written = String::new();
    // A test is two bytes more than a multiple of three.
    for _ in 0..(2 * rest) % 3 {
        written += cases[0].0;
        rest -= cases[0].1;
    }
    for (case, length) in &cases[1..] {
        written += &case.repeat(rest / length);
        rest %= length;
    }
    with_reward(&format!("{written}else : 0")).into_bytes()
}

/// A row of `&` as long as a text may have one: its model is too long as well.
pub fn long_row() -> Vec<u8> {
    let room = TEXT_BYTES - with_reward("C1:forbidden;else:0").len();
    with_reward(&format!("{}C1:forbidden;else:0", "C1&".repeat(room / 3))).into_bytes()
}

/// The longest row of `&` whose model fits: each & copies a forbidden leaf.
pub fn longest_row() -> Vec<u8> {
    let beside = 88 + 37 + 3 + 1;
    let row = vec!["C1"; (MODEL_BYTES - beside) / 3].join("&");
    with_reward(&format!("{row}:0;else:forbidden")).into_bytes()
}

/// No text of as many bytes is known that an import takes longer for: seven cases copy a row of conditions 128 times, and each
/// condition that fails there leads over all the white space behind it. As long as a text may be, it takes two minutes.
pub fn slowest_text(bytes: usize) -> Vec<u8> {
    let (copies, row) = ("C1&C1:forbidden;".repeat(7), vec!["C1"; 676].join("&"));
    let result = ":forbidden;else:forbidden";
    let spaces = " ".repeat(bytes - with_reward(&format!("{copies}{row}{result}")).len());
    with_reward(&format!("{copies}{row}{spaces}{result}")).into_bytes()
}

/// 400 actions with usual items, a name each, as one would write them: some 100,000 bytes.
pub fn usual_text() -> Vec<u8> {
    let mut text = format!("site m=1 n=2 A={ACTIONS} W=4\n");
    for action in 1..=i32::from(ACTIONS) {
        let (amount, pump) = (20 * (1 + action % 2), action / 8);
        text += &format!(
            "\nname {action} \"Setting {action}\"\n\
             reward {action} =\n  L1 >= 3*{amount} : {} ;\n  L1 >= {amount} : 2*({amount} - {pump}) ;\n  else : -1\n\
             chance {action} N1 = C1 & L1 < 100 : 3 ; else : {}\nchance {action} N2 = else : {}\n\
             next {action} L1 =\n  L1 < {amount} : L1 ;\n  N1 & L1 <= 500 : L1 + 20 - {amount} ;\n  else : L1 - {amount}\n",
            3 * amount - pump,
            pump % 3,
            1 + pump % 2,
        );
    }
    text.into_bytes()
}

/// Texts at the limits, each with the number and place of its refusal.
pub fn limits() -> Vec<(&'static str, Vec<u8>, (u32, u32))> {
    let brackets = |count: usize, inner: &str| format!("{}{inner}{}", "(".repeat(count), ")".repeat(count));
    let case = |condition: &str| with_reward(&format!("{condition} : 1 ; else : 0")).into_bytes();
    let sum = |sum: &str| with_reward(&format!("else : {sum}")).into_bytes();
    let name = |letters: &str| format!("{} name 1 \"{letters}\"", with_reward("else : 0")).into_bytes();
    // Where the reward's cases, its else's result, or the name's characters begin.
    let (cases, result, letters) = (with_reward("").len(), with_reward("else : ").len(), name("").len() - 1);
    let too_deep = |start: usize| (24, (start + BRACKETS) as u32);
    let mut early = text_of_length(TEXT_BYTES);
    early.pop();
    early.push(b'-');
    vec![
        ("a text of all bytes that it may have", text_of_length(TEXT_BYTES), (0, 0)),
        ("one byte more", text_of_length(TEXT_BYTES + 1), (10, 0)),
        ("one byte more, and outside the grammar", vec![b'?'; TEXT_BYTES + 1], (10, 0)),
        ("all bytes, the last of them wrong", early, (24, TEXT_BYTES as u32 - 1)),
        (
            "all bytes, and it ends early",
            [text_of_length(TEXT_BYTES - 1), vec![b'-']].concat(),
            (24, TEXT_BYTES as u32),
        ),
        ("nothing", Vec::new(), (24, 0)),
        ("white space alone", b" \n\t\r".to_vec(), (24, 4)),
        ("a model of all bytes that it may have", text_for_length(MODEL_BYTES), (0, 0)),
        ("a model of one byte more", text_for_length(MODEL_BYTES + 1), (10, 0)),
        ("a model of 2^20 bytes", doubling(15), (10, 0)),
        ("a model of 2^1000 bytes", doubling(1_000), (10, 0)),
        ("a model of 2^1000 bytes and a number beyond", [doubling(1_000), b"+2147483648".to_vec()].concat(), (25, 0)),
        ("a row of &", long_row(), (10, 0)),
        ("32 brackets around a condition", case(&brackets(32, "C1")), (0, 0)),
        ("33 brackets around a condition", case(&brackets(33, "C1")), too_deep(cases)),
        ("32 brackets around a comparison", case(&brackets(32, "L1<3")), (0, 0)),
        ("33 brackets around a comparison", case(&brackets(33, "L1<3")), too_deep(cases)),
        ("32 brackets around a sum", sum(&brackets(32, "L1")), (0, 0)),
        ("33 brackets around a sum", sum(&brackets(33, "L1")), too_deep(result)),
        ("32 brackets of both kinds", case(&brackets(16, &format!("{} <= 3", brackets(16, "L1")))), (0, 0)),
        ("33 brackets of both kinds", case(&brackets(16, &format!("{} <= 3", brackets(17, "L1")))), too_deep(cases)),
        ("a name of sixteen characters", name("0123456789ABCDEF"), (0, 0)),
        ("a name of seventeen", name("0123456789ABCDEFG"), (24, (letters + CHARACTERS) as u32)),
        ("sixteen quotation marks", name(&"\"\"".repeat(16)), (0, 0)),
        // The sixteenth pair is the last; the next mark closes, and the one after it is too much.
        ("seventeen quotation marks", name(&"\"\"".repeat(17)), (24, (letters + 2 * CHARACTERS + 1) as u32)),
        ("an empty name", name(""), (0, 0)),
    ]
}
