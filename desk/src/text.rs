//! A model as text (docs/TEXT-MODELS.md), such that importing the text gives a model of the same values.
//!
//! A diagram becomes cases, one for each leaf. Where a side of a question is a leaf, it is the case of that question or of
//! its opposite, and the other side is the rest; nothing is copied by an import then. Where both sides go on, the cases of one
//! side are guarded by the question, those of the other follow without it: whoever comes to them has answered it the other
//! way. An import copies the rest for each guard, so that side is guarded which costs fewer copies.

use crate::model::{Command, Diagram, Item, Linear, Written};
use crate::widths::{LETTERS, MODEL_BYTES_MOST, NEW, NUMBER_BYTES, STACK_MOST};
use crate::words::{self, Term};

/// A case: questions with their answers, all of which have to be so, and the leaf.
struct Case<'a> {
    guards: Vec<(&'a Command, bool)>,
    leaf: &'a Command,
}

/// More guards than these, or so many copies, are too many.
const GUARDS: usize = 16;
const TOO_MANY: u64 = 1 << 40;

/// How often a diagram's cases copy what comes after them, by the guards that stand before each.
struct Copies {
    by_guards: [u64; GUARDS + 1],
    branches: Option<Box<[Copies; 2]>>,
}

fn times(left: u64, right: u64) -> u64 {
    left.saturating_mul(right).min(TOO_MANY)
}

impl Copies {
    fn of(diagram: &Diagram) -> Copies {
        let Some(both) = &diagram.branches else {
            // The last leaf has no guard and nothing after it.
            let by_guards = std::array::from_fn(|guards| guards.max(1) as u64);
            return Copies { by_guards, branches: None };
        };
        let branches = [Copies::of(&both[0]), Copies::of(&both[1])];
        let by_guards = std::array::from_fn(|guards| {
            let [high, low] = Copies::guarded(&branches, guards);
            high.min(low)
        });
        Copies { by_guards, branches: Some(Box::new(branches)) }
    }

    fn at(&self, guards: usize) -> u64 {
        self.by_guards.get(guards).copied().unwrap_or(TOO_MANY)
    }

    /// The copies if the high side is guarded, and if the low side is.
    fn guarded([high, low]: &[Copies; 2], guards: usize) -> [u64; 2] {
        [times(high.at(guards + 1), low.at(guards)), times(low.at(guards + 1), high.at(guards))]
    }
}

fn cases<'a>(diagram: &'a Diagram, copies: &Copies, guards: &mut Vec<(&'a Command, bool)>, list: &mut Vec<Case<'a>>) {
    let (Some(both), Some(their)) = (&diagram.branches, &copies.branches) else {
        return list.push(Case { guards: guards.clone(), leaf: &diagram.command });
    };
    let [high, low] = Copies::guarded(their, guards.len());
    let first = usize::from(high > low);
    guards.push((&diagram.command, first == 0));
    cases(&both[first], &their[first], guards, list);
    guards.pop();
    cases(&both[1 - first], &their[1 - first], guards, list);
}

/// What an import makes of cases: bytes, and the most that waits on the stack.
#[derive(Clone, Copy)]
struct Size {
    bytes: u64,
    stack: usize,
}

impl Size {
    fn of_command(command: &Command) -> u64 {
        let linear = 1 + (NEW.levels + 1) * NUMBER_BYTES;
        match command {
            Command::Forbidden => 1,
            Command::Condition(_) => 2,
            _ => linear as u64,
        }
    }

    fn of(list: &[Case]) -> Size {
        let leaf = |case: &Case| Size { bytes: Size::of_command(case.leaf), stack: 1 };
        let (last, others) = list.split_last().expect("an else");
        others.iter().rev().fold(leaf(last), |rest, case| {
            case.guards.iter().rev().fold(leaf(case), |inner, (command, holds)| {
                let (high, low) = if *holds { (inner, rest) } else { (rest, inner) };
                let bytes = Size::of_command(command).saturating_add(high.bytes).saturating_add(low.bytes);
                Size { bytes, stack: high.stack.max(1 + low.stack) }
            })
        })
    }
}

/// The terms of a linear; -2147483648 is written in two, since its size alone is beyond 32 bits.
fn terms(linear: &Linear) -> Vec<Term> {
    let lowest = i64::from(i32::MIN);
    let halves = |number: i64| if number == lowest { [lowest + 1, -1] } else { [number, 0] };
    let levels = linear.coefficients.iter().enumerate().map(|(level, &number)| (number, Some(level)));
    let numbers = levels.chain([(linear.constant, None)]);
    numbers.flat_map(|(number, level)| halves(number).map(|part| (part, level))).filter_map(words::term).collect()
}

/// The test p <= 0, or p > 0, with p's numbers exactly.
fn comparison(linear: &Linear, holds: bool) -> String {
    let all = linear.coefficients.iter().chain([&linear.constant]);
    let (left, is_least, right) = match all.into_iter().any(|&number| number == i64::from(i32::MIN)) {
        true => (words::sum(&terms(linear)), false, "0".to_string()),
        false => words::sides(terms(linear)),
    };
    let sign = match (is_least, holds) {
        (true, true) => ">=",
        (true, false) => "<",
        (false, true) => "<=",
        (false, false) => ">",
    };
    format!("{left} {sign} {right}")
}

fn guard((command, holds): &(&Command, bool)) -> String {
    match command {
        Command::Test(linear) => comparison(linear, *holds),
        Command::Condition(number) if *holds => words::condition(*number),
        Command::Condition(number) => format!("!{}", words::condition(*number)),
        other => unreachable!("no question: {other:?}"),
    }
}

fn case(case: &Case) -> String {
    let leaf = match case.leaf {
        Command::Leaf(linear) => words::sum(&terms(linear)),
        _ => "forbidden".to_string(),
    };
    match case.guards.as_slice() {
        [] => format!("else : {leaf}"),
        guards => format!("{} : {leaf} ;", guards.iter().map(guard).collect::<Vec<_>>().join(" & ")),
    }
}

const LINE: usize = 100;

/// An item with its cases, on one line or on one each.
fn item(head: &str, list: &[Case]) -> String {
    let written: Vec<String> = list.iter().map(case).collect();
    let line = format!("{head} = {}\n", written.join(" "));
    match line.len() > LINE {
        true => format!("{head} =\n  {}\n", written.join("\n  ")),
        false => line,
    }
}

fn name(action: usize, letters: &[u8; LETTERS]) -> String {
    let letters: String = letters.iter().map(|&letter| char::from(letter)).collect();
    format!("name {action} \"{}\"\n", letters.trim_end_matches(' ').replace('"', "\"\""))
}

/// What an item is called, and the bytes of its own command.
fn head(command: &Command) -> (String, usize) {
    match command {
        Command::Reward(action) => (format!("reward {action}"), 1 + NEW.action_bytes),
        Command::Chance(action, condition) => (format!("chance {action} N{condition}"), 2 + NEW.action_bytes),
        Command::Next(action, level) => (format!("next {action} L{level}"), 2 + NEW.action_bytes),
        _ => ("end".to_string(), 1),
    }
}

/// The text of a model without fault, or why it has none.
pub fn text(written: &Written) -> Result<String, String> {
    let site = written.site().ok_or("it has no site")?;
    // The site and the end.
    let (mut text, mut bytes) = (String::new(), (4 + NEW.action_bytes + 1) as u64);
    text += &format!("site m={} n={} A={} W={}\n", site.levels, site.conditions, site.actions, site.weight);
    for Item { command, diagram, .. } in &written.items {
        let Some(diagram) = diagram else {
            if let Command::Name(action, letters) = command {
                text += &name(*action, letters);
                bytes += (1 + NEW.action_bytes + LETTERS) as u64;
            }
            continue;
        };
        let ((head, own), mut list) = (head(command), Vec::new());
        cases(diagram, &Copies::of(diagram), &mut Vec::new(), &mut list);
        let size = Size::of(&list);
        bytes = bytes.saturating_add(size.bytes).saturating_add(own as u64);
        if bytes > MODEL_BYTES_MOST as u64 {
            return Err(format!("with '{head}' it would become a model of more than {MODEL_BYTES_MOST} bytes"));
        }
        if size.stack > STACK_MOST {
            return Err(format!("the cases of '{head}' would leave more than {STACK_MOST} diagrams on the stack"));
        }
        text += &item(&head, &list);
    }
    match text.len() > MODEL_BYTES_MOST {
        true => Err(format!("it would have {} bytes, and a text has at most {MODEL_BYTES_MOST}", text.len())),
        false => Ok(text),
    }
}

#[cfg(test)]
mod tests {
    use super::*;
    use crate::model::Model;
    use crate::spell::spell;

    fn of(words: &str) -> Result<String, String> {
        let model = spell(words).expect("words");
        text(&Written::read(Model::new(&model)))
    }

    #[test]
    fn cases_of_a_diagram() {
        for (diagram, cases) in [
            ("leaf 2*L1 -3", "else : 2*L1 - 3"),
            ("forbidden", "else : forbidden"),
            ("leaf 1\nleaf 2\ntest -L1 10", "L1 >= 10 : 1 ; else : 2"),
            ("leaf 1\nleaf 2\ntest L1 10", "L1 + 10 <= 0 : 1 ; else : 2"),
            // The side that goes on is the rest, whichever it is.
            ("leaf 1\nleaf 2\nleaf 3\ncondition C1\ntest L1", "L1 <= 0 : 1 ; C1 : 2 ; else : 3"),
            ("leaf 1\nleaf 2\ncondition C1\nleaf 3\ntest L1", "L1 > 0 : 3 ; C1 : 1 ; else : 2"),
            ("leaf 1\nleaf 2\ntest L1\nleaf 3\ncondition C1", "!C1 : 3 ; L1 <= 0 : 1 ; else : 2"),
            // Both sides go on.
            (
                "leaf 1\nleaf 2\ntest L1\nleaf 3\nleaf 4\ntest L2\ncondition C1",
                "C1 & L1 <= 0 : 1 ; C1 : 2 ; L2 <= 0 : 3 ; else : 4",
            ),
            ("leaf -2147483648*L1 -2147483648", "else : -2147483647*L1 - L1 - 2147483647 - 1"),
            ("leaf 1\nleaf 2\ntest -2147483648*L1 7", "-2147483647*L1 - L1 + 7 <= 0 : 1 ; else : 2"),
        ] {
            let written = of(&format!("site 2 1 1 10\n{diagram}\nend_worth\nend")).expect("a text");
            assert_eq!(written, format!("site m=2 n=1 A=1 W=10\nend = {cases}\n"));
        }
    }

    #[test]
    fn names_and_items() {
        let words =
            "site 1 1 2 10\nname 2 a \"b\"\nleaf 1\nreward 2\nleaf 7\nchance 1 1\nleaf L1\nnext 2 1\nname 1\nend";
        let text = "site m=1 n=1 A=2 W=10\nname 2 \"a \"\"b\"\"\"\nreward 2 = else : 1\nchance 1 N1 = else : 7\n\
            next 2 L1 = else : L1\nname 1 \"\"\n";
        assert_eq!(of(words), Ok(text.to_string()));
    }

    /// A full diagram of eight leaves has a text, one of sixteen none.
    #[test]
    fn no_text() {
        fn full(depth: usize) -> String {
            match depth {
                0 => "leaf 1\n".to_string(),
                depth => format!("{0}{0}test L1 {depth}\n", full(depth - 1)),
            }
        }
        assert!(of(&format!("site 1 0 1 1\n{}end_worth\nend", full(3))).is_ok());
        let refused = of(&format!("site 1 0 1 1\n{}end_worth\nend", full(4))).unwrap_err();
        assert_eq!(refused, "with 'end' it would become a model of more than 262144 bytes");
    }
}
