//! The model that a text becomes (K13): its numbers, its commands, and the outcome of an import.

use crate::model::{
    open, NoTrees, Refusal, CHANCE, CONDITION, END, END_WORTH, FORBIDDEN, LEAF, NAME, NEXT, REWARD, TEST,
};
use crate::text::{self, And, Atom, Cases, Comparison, Factor, Item, Not, Number, Or, Outcome, Sum, Term, Text};
use crate::widths::{Form, New, CONDITIONS, CONSTANT, LETTERS, NUMBERS, TEXT_BYTES};

type Linear = [i64; NUMBERS];

/// Works sums out, and keeps in mind whether a number was beyond 32 bits.
#[derive(Default)]
struct Worker {
    beyond: bool,
}

impl Worker {
    /// Where one is beyond, no later number matters any more.
    fn judged(&mut self, number: i64) -> i64 {
        let within = i32::try_from(number).is_ok();
        self.beyond |= !within;
        if within {
            number
        } else {
            0
        }
    }

    fn number(&mut self, written: Number) -> i64 {
        self.judged(written as i64)
    }

    fn each(&mut self, numbers: impl Fn(usize) -> i64) -> Linear {
        std::array::from_fn(|place| self.judged(numbers(place)))
    }

    fn difference(&mut self, left: &Linear, right: &Linear) -> Linear {
        self.each(|place| left[place] - right[place])
    }

    /// From the left; a leading minus is taken off nothing.
    fn sum(&mut self, Sum(terms): &Sum) -> Linear {
        let mut sum = [0; NUMBERS];
        for (minus, term) in terms {
            let term = self.term(term);
            sum = self.each(|place| if *minus { sum[place] - term[place] } else { sum[place] + term[place] });
        }
        sum
    }

    /// From the left. One of two factors has no level, so of each product one part is 0.
    fn term(&mut self, Term(factors): &Term) -> Linear {
        let mut product = self.factor(&factors[0]);
        for factor in &factors[1..] {
            let factor = self.factor(factor);
            let (by, other) = if has_level(&product) { (factor, product) } else { (product, factor) };
            product = self.each(|place| by[CONSTANT] * other[place]);
        }
        product
    }

    fn factor(&mut self, factor: &Factor) -> Linear {
        match factor {
            Factor::Number(written) => of(CONSTANT, self.number(*written)),
            Factor::Level(level) => of(usize::from(*level) - 1, 1),
            Factor::Bracket(sum) => self.sum(sum),
        }
    }
}

fn of(place: usize, number: i64) -> Linear {
    let mut linear = [0; NUMBERS];
    linear[place] = number;
    linear
}

fn has_level(linear: &Linear) -> bool {
    linear[..CONSTANT].iter().any(|&number| number != 0)
}

/// A place in the list of pieces.
type Id = usize;

/// A diagram's last command, with what stands before it. Copies are one piece, which many may have before them: there are
/// about as many pieces as the text has bytes, however long the model is.
struct Piece {
    command: Vec<u8>,
    branches: Option<[Id; 2]>,
    /// Bytes, or `CEILING` if these are as many or more.
    length: usize,
}

const CEILING: usize = New::MODEL_BYTES + 1;

#[derive(Default)]
struct Pieces {
    list: Vec<Piece>,
    worker: Worker,
}

/// The numbers of a linear, low byte first, behind the command's byte.
fn linear(code: u8, linear: &Linear) -> Vec<u8> {
    std::iter::once(code).chain(linear.iter().flat_map(|&number| (number as i32).to_le_bytes())).collect()
}

impl Pieces {
    fn add(&mut self, command: Vec<u8>, branches: Option<[Id; 2]>) -> Id {
        let before = branches.map_or(0, |both| both.iter().map(|&id| self.list[id].length).sum());
        let length = CEILING.min(command.len() + before);
        self.list.push(Piece { command, branches, length });
        self.list.len() - 1
    }

    fn outcome(&mut self, outcome: &Outcome) -> Id {
        let command = match outcome {
            Outcome::Forbidden => vec![FORBIDDEN],
            Outcome::Sum(sum) => linear(LEAF, &self.worker.sum(sum)),
        };
        self.add(command, None)
    }

    /// In the order of the text all numbers are met, in the reverse order the commands come about.
    fn cases(&mut self, Cases { cases, otherwise }: &Cases) -> Id {
        let mut rest = self.outcome(otherwise);
        for (or, outcome) in cases.iter().rev() {
            let outcome = self.outcome(outcome);
            rest = self.or(or, outcome, rest);
        }
        rest
    }

    /// `c | d`: c with T, (d with T, F).
    fn or(&mut self, Or(ands): &Or, yes: Id, no: Id) -> Id {
        ands.iter().rev().fold(no, |no, and| self.and(and, yes, no))
    }

    /// `c & d`: c with (d with T, F), F.
    fn and(&mut self, And(nots): &And, yes: Id, no: Id) -> Id {
        nots.iter().rev().fold(yes, |yes, not| self.not(not, yes, no))
    }

    fn not(&mut self, Not { negated, atom }: &Not, yes: Id, no: Id) -> Id {
        if *negated {
            self.atom(atom, no, yes)
        } else {
            self.atom(atom, yes, no)
        }
    }

    fn atom(&mut self, atom: &Atom, yes: Id, no: Id) -> Id {
        match atom {
            Atom::Now(number) => self.add(vec![CONDITION, *number], Some([yes, no])),
            Atom::Later(number) => self.add(vec![CONDITION, CONDITIONS as u8 + number], Some([yes, no])),
            Atom::Bracket(or) => self.or(or, yes, no),
            Atom::Compared(left, comparison, right) => self.compared(left, *comparison, right, yes, no),
        }
    }

    /// High is taken where the difference is 0 or less, so with < and > the outcome of no.
    fn compared(&mut self, left: &Sum, comparison: Comparison, right: &Sum, yes: Id, no: Id) -> Id {
        let (left, right) = (self.worker.sum(left), self.worker.sum(right));
        let (test, branches) = match comparison {
            Comparison::AtMost => (self.worker.difference(&left, &right), [yes, no]),
            Comparison::Greater => (self.worker.difference(&left, &right), [no, yes]),
            Comparison::AtLeast => (self.worker.difference(&right, &left), [yes, no]),
            Comparison::Less => (self.worker.difference(&right, &left), [no, yes]),
        };
        self.add(linear(TEST, &test), Some(branches))
    }

    /// A piece with all that stands before it.
    fn write(&self, piece: Id, model: &mut Vec<u8>) {
        enum Todo {
            Whole(Id),
            Last(Id),
        }
        let mut todo = vec![Todo::Whole(piece)];
        while let Some(next) = todo.pop() {
            match next {
                Todo::Last(id) => model.extend(&self.list[id].command),
                Todo::Whole(id) => {
                    todo.push(Todo::Last(id));
                    let [first, second] = self.list[id].branches.map_or([None; 2], |both| both.map(Some));
                    todo.extend(second.into_iter().chain(first).map(Todo::Whole));
                }
            }
        }
    }
}

/// A number of the site or an action, in so many bytes; a larger one is the largest that they hold.
fn header(number: i64, bytes: usize) -> Vec<u8> {
    number.min((1 << (8 * bytes)) - 1).to_le_bytes()[..bytes].to_vec()
}

/// What an item has behind its diagram, if it has one.
fn item(pieces: &mut Pieces, item: &Item) -> (Option<Id>, Vec<u8>) {
    let (code, action, cases, rest) = match item {
        Item::End(cases) => return (Some(pieces.cases(cases)), vec![END_WORTH]),
        Item::Reward(action, cases) => (REWARD, action, Some(cases), vec![]),
        Item::Chance(action, condition, cases) => (CHANCE, action, Some(cases), vec![*condition]),
        Item::Next(action, level, cases) => (NEXT, action, Some(cases), vec![*level]),
        Item::Name(action, letters) => {
            (NAME, action, None, letters.iter().copied().chain([b' '; LETTERS]).take(LETTERS).collect())
        }
    };
    let action = header(pieces.worker.number(*action), New::ACTION_BYTES);
    (cases.map(|cases| pieces.cases(cases)), [vec![code], action, rest].concat())
}

/// The commands of a reading as bytes: 25, then 10.
fn model(text: &Text) -> Result<Vec<u8>, Refusal> {
    let mut pieces = Pieces::default();
    let [m, n, a, w] = text.site.map(|number| pieces.worker.number(number));
    let mut model = [vec![New::SITE], header(m, 1), header(n, 1), header(a, New::ACTION_BYTES), header(w, 1)].concat();
    let items: Vec<_> = text.items.iter().map(|written| item(&mut pieces, written)).collect();
    if pieces.worker.beyond {
        return Refusal::of(25);
    }
    let lengths = items.iter().map(|(diagram, last)| diagram.map_or(0, |id| pieces.list[id].length) + last.len());
    if model.len() + lengths.sum::<usize>() + 1 > New::MODEL_BYTES {
        return Refusal::of(10);
    }
    for (diagram, last) in items {
        diagram.into_iter().for_each(|id| pieces.write(id, &mut model));
        model.extend(last);
    }
    model.push(END);
    Ok(model)
}

/// The model of a text, for a buffer of so many bytes: 10, 24 and 25 of the text, then 10 of the model and its own refusals, then
/// 17.
pub fn import(text: &[u8], room: usize) -> Result<Vec<u8>, Refusal> {
    if text.len() > TEXT_BYTES {
        return Refusal::of(10);
    }
    let reading = text::read(text).map_err(|place| Refusal { number: 24, place: place as u32 })?;
    let model = model(&reading)?;
    open::<NoTrees>(&model, None, None)?;
    if model.len() > room {
        return Refusal::of(17);
    }
    Ok(model)
}
