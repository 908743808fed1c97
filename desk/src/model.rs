//! A model's bytes as commands and diagrams, for showing: what can be decoded is, whatever rules it breaks. The judging is
//! the library's.

use crate::widths::{code, Form, LETTERS, LEVELS, NEW, NUMBER_BYTES, OLD};

/// The bytes of a model, and the form that they are read in.
#[derive(Clone, Copy, Debug)]
pub struct Model<'a> {
    pub bytes: &'a [u8],
    pub form: &'static Form,
}

impl<'a> Model<'a> {
    /// In the planner's form.
    pub fn new(bytes: &'a [u8]) -> Model<'a> {
        Model { bytes, form: &NEW }
    }

    pub fn old(bytes: &'a [u8]) -> Model<'a> {
        Model { bytes, form: &OLD }
    }

    pub fn is_old(&self) -> bool {
        self.form.site == OLD.site
    }

    pub fn len(&self) -> usize {
        self.bytes.len()
    }

    /// The byte at an offset, if there is one.
    pub fn byte(&self, offset: usize) -> Option<u8> {
        self.bytes.get(offset).copied()
    }

    /// What stands before an offset.
    pub fn before(&self, offset: usize) -> Model<'a> {
        Model { bytes: &self.bytes[..offset], ..*self }
    }

    /// The bytes that its commands have in another form, as far as they can be read.
    pub fn bytes_in(&self, form: &Form) -> usize {
        let (mut offset, mut bytes) = (0, 0);
        while let Ok((_, behind)) = command_at(*self, offset) {
            let first = Some(self.bytes[offset]).filter(|&first| first != self.form.site).unwrap_or(form.site);
            bytes += command_bytes(form, first).unwrap_or(0);
            offset = behind;
        }
        bytes
    }
}

#[derive(Clone, Debug, PartialEq, Eq)]
pub struct Linear {
    pub coefficients: [i64; LEVELS],
    pub constant: i64,
}

#[derive(Clone, Copy, Debug, PartialEq, Eq)]
pub struct Site {
    pub levels: usize,
    pub conditions: usize,
    pub actions: usize,
    pub weight: usize,
}

#[derive(Clone, Debug, PartialEq, Eq)]
pub enum Command {
    Site(Site),
    Leaf(Linear),
    Condition(usize),
    Test(Linear),
    Forbidden,
    Reward(usize),
    Chance(usize, usize),
    Next(usize, usize),
    EndWorth,
    Name(usize, [u8; LETTERS]),
    End,
}

/// Why no command can be decoded.
#[derive(Clone, Copy, Debug, PartialEq, Eq)]
pub enum Unread {
    Unknown(u8),
    /// So many bytes belong to the command.
    Short(usize),
    /// The bytes end where a command would begin.
    NoEnd,
}

/// Bytes of the command that begins so, this one included.
pub fn command_bytes(form: &Form, first: u8) -> Option<usize> {
    let operands = match first {
        first if first == form.site => 3 + form.action_bytes,
        code::LEAF | code::TEST => NUMBER_BYTES * (form.levels + 1),
        code::CONDITION => 1,
        code::REWARD => form.action_bytes,
        code::CHANCE | code::NEXT => form.action_bytes + 1,
        code::NAME => form.action_bytes + LETTERS,
        code::END_WORTH | code::END => 0,
        code::FORBIDDEN if form.forbids => 0,
        _ => return None,
    };
    Some(1 + operands)
}

fn number(bytes: &[u8]) -> usize {
    bytes.iter().rev().fold(0, |number, &byte| number << 8 | usize::from(byte))
}

/// The last number is the constant; coefficients that the form has no place for are zero.
fn linear(bytes: &[u8]) -> Linear {
    let numbers: Vec<i64> = bytes
        .chunks(NUMBER_BYTES)
        .map(|chunk| i64::from(i32::from_le_bytes(chunk.try_into().expect("the bytes of a number"))))
        .collect();
    let [coefficients @ .., constant] = numbers.as_slice() else { unreachable!("a linear has numbers") };
    let coefficient = |level: usize| coefficients.get(level).copied().unwrap_or(0);
    Linear { coefficients: std::array::from_fn::<i64, LEVELS, _>(coefficient), constant: *constant }
}

/// The command at an offset, and the offset behind it.
pub fn command_at(model: Model, offset: usize) -> Result<(Command, usize), Unread> {
    let Model { bytes: all, form } = model;
    let first = *all.get(offset).ok_or(Unread::NoEnd)?;
    let bytes = command_bytes(form, first).ok_or(Unread::Unknown(first))?;
    let whole = all.get(offset..offset + bytes).ok_or(Unread::Short(bytes))?;
    let (action, rest) = whole[1..].split_at(form.action_bytes.min(bytes - 1));
    let action = number(action);
    let last = || usize::from(rest[0]);
    let command = match first {
        first if first == form.site => Command::Site(site(&whole[1..], form)),
        code::LEAF => Command::Leaf(linear(&whole[1..])),
        code::TEST => Command::Test(linear(&whole[1..])),
        code::CONDITION => Command::Condition(whole[1].into()),
        code::FORBIDDEN => Command::Forbidden,
        code::REWARD => Command::Reward(action),
        code::CHANCE => Command::Chance(action, last()),
        code::NEXT => Command::Next(action, last()),
        code::NAME => Command::Name(action, rest.try_into().expect("the letters of a name")),
        code::END_WORTH => Command::EndWorth,
        _ => Command::End,
    };
    Ok((command, offset + bytes))
}

/// m, n, A, W.
fn site(bytes: &[u8], form: &Form) -> Site {
    let weight = 2 + form.action_bytes;
    Site {
        levels: bytes[0].into(),
        conditions: bytes[1].into(),
        actions: number(&bytes[2..weight]),
        weight: bytes[weight].into(),
    }
}

/// A diagram as written: each of its commands with its offset.
#[derive(Clone, Debug)]
pub struct Diagram {
    pub offset: usize,
    pub command: Command,
    /// High and low, of a condition and a test.
    pub branches: Option<Box<[Diagram; 2]>>,
}

/// A command that stands by itself or takes a diagram.
#[derive(Clone, Debug)]
pub struct Item {
    pub offset: usize,
    pub command: Command,
    pub diagram: Option<Diagram>,
}

/// A model, as far as it can be read.
#[derive(Clone, Debug, Default)]
pub struct Written {
    pub items: Vec<Item>,
    /// Diagrams that nothing has taken.
    pub left: Vec<Diagram>,
    /// Where reading stopped: behind the end command, or before what could not be read.
    pub stop: usize,
    /// What could not be read; none behind an end command, or where the stack is short.
    pub unread: Option<Unread>,
}

impl Written {
    /// Reads up to the end command, a command that cannot be decoded or one whose diagrams are not there.
    pub fn read(model: Model) -> Written {
        let mut written = Written::default();
        loop {
            match command_at(model, written.stop) {
                Err(unread) => {
                    written.unread = Some(unread);
                    return written;
                }
                Ok((command, behind)) => {
                    let last = command == Command::End;
                    if !written.take(command) {
                        return written;
                    }
                    written.stop = behind;
                    if last {
                        return written;
                    }
                }
            }
        }
    }

    /// False where the stack is short.
    fn take(&mut self, command: Command) -> bool {
        let offset = self.stop;
        match command {
            Command::Leaf(_) | Command::Forbidden => self.left.push(Diagram { offset, command, branches: None }),
            Command::Condition(_) | Command::Test(_) => {
                let Some(under) = self.left.len().checked_sub(2) else { return false };
                let (low, high) = (self.left.remove(under + 1), self.left.remove(under));
                self.left.push(Diagram { offset, command, branches: Some(Box::new([high, low])) });
            }
            Command::Reward(_) | Command::Chance(..) | Command::Next(..) | Command::EndWorth => {
                let Some(diagram) = self.left.pop() else { return false };
                self.items.push(Item { offset, command, diagram: Some(diagram) });
            }
            Command::Site(_) | Command::Name(..) | Command::End => {
                self.items.push(Item { offset, command, diagram: None });
            }
        }
        true
    }

    /// The first command, where it is a site.
    pub fn site(&self) -> Option<Site> {
        match self.items.first()?.command {
            Command::Site(site) => Some(site),
            _ => None,
        }
    }

    /// The name that the model gives an action, without trailing spaces.
    pub fn name(&self, action: usize) -> Option<String> {
        self.items.iter().find_map(|item| match &item.command {
            Command::Name(named, letters) if *named == action => {
                let text: String = letters.iter().map(|&letter| printable(letter)).collect();
                Some(text.trim_end_matches(' ').to_string()).filter(|name| !name.is_empty())
            }
            _ => None,
        })
    }
}

/// A letter of a name, or `?` for a byte that is none.
fn printable(letter: u8) -> char {
    match letter {
        0x20..=0x7E => char::from(letter),
        _ => '?',
    }
}

#[cfg(test)]
mod tests {
    use super::*;

    const POND: &[u8] = include_bytes!("../../examples/pond.model");
    const OLD_POND: &[u8] = include_bytes!("../../examples/old/pond.model");

    #[test]
    fn both_forms_have_the_same_commands() {
        let commands = |model| Written::read(model).items.into_iter().map(|item| item.command).collect::<Vec<_>>();
        let (new, old) = (Model::new(POND), Model::old(OLD_POND));
        assert_eq!(commands(new), commands(old));
        assert_eq!(commands(new).len(), 8);
        assert_eq!([new.bytes_in(&OLD), new.bytes_in(&NEW)], [OLD_POND.len(), POND.len()]);
        assert_eq!([old.bytes_in(&OLD), old.bytes_in(&NEW)], [OLD_POND.len(), POND.len()]);
        // Neither is read in the other form.
        assert_eq!([commands(Model::old(POND)), commands(Model::new(OLD_POND))], [vec![], vec![]]);
    }

    #[test]
    fn the_old_form_forbids_nothing() {
        let bytes = [code::FORBIDDEN];
        assert_eq!(command_at(Model::new(&bytes), 0), Ok((Command::Forbidden, 1)));
        assert_eq!(command_at(Model::old(&bytes), 0), Err(Unread::Unknown(code::FORBIDDEN)));
        let codes = [NEW.codes().collect::<Vec<_>>(), OLD.codes().collect()];
        assert_eq!(codes.map(|codes| (codes[0], codes.contains(&code::FORBIDDEN))), [(2, true), (1, false)]);
    }
}
