//! By how much the best action at a state leads the next one. What an action comes to at once is worked from the model's
//! bytes as they are shown; what follows from each next state is the library's plain working.

use crate::fraction::Fraction;
use crate::library::{self, Refusal};
use crate::model::{Command, Diagram, Linear, Model, Site, Written};
use crate::state::State;
use crate::whole::Whole;
use crate::widths::{CONDITIONS, LEVELS, NO_ACTION};

/// The best action and what it comes to, and the largest of the others.
pub struct Lead {
    pub action: u32,
    pub value: Fraction,
    pub next: Option<Fraction>,
}

/// None where no action has a value there.
pub fn lead(model: &[u8], steps: u32, state: &State) -> Result<Option<Lead>, Refusal> {
    let working = Working::new(model);
    let mut best: Option<Lead> = None;
    for action in 1..=working.site.actions as u32 {
        let Some(value) = working.total(steps, action, state)? else { continue };
        best = Some(match best.take() {
            None => Lead { action, value, next: None },
            Some(best) if best.value < value => Lead { action, value, next: Some(best.value) },
            Some(best) => Lead { next: Some(best.next.map_or(value.clone(), |next| next.max(value))), ..best },
        });
    }
    Ok(best)
}

/// A model that the library has accepted.
struct Working<'a> {
    model: &'a [u8],
    site: Site,
    written: Written,
}

impl<'a> Working<'a> {
    fn new(model: &'a [u8]) -> Working<'a> {
        let written = Written::read(Model::new(model));
        Working { model, site: written.site().expect("an accepted model has a site"), written }
    }

    fn diagram(&self, command: &Command) -> &Diagram {
        let given = self.written.items.iter().find(|item| item.command == *command);
        given.and_then(|item| item.diagram.as_ref()).expect("an accepted model gives every diagram")
    }

    /// What an action comes to with so many steps left, or none.
    fn total(&self, steps: u32, action: u32, state: &State) -> Result<Option<Fraction>, Refusal> {
        let action = action as usize;
        let Some(reward) = leaf(self.diagram(&Command::Reward(action)), state, 0) else { return Ok(None) };
        let mut sum = at(reward, state);
        let all = (0..self.site.conditions).fold(1, |all, _| all * self.site.weight as i64);
        for setting in 0..1 << self.site.conditions {
            let weight = self.weight(action, state, setting);
            if weight == 0 {
                continue;
            }
            let Some(value) = self.value(steps - 1, &self.moved(action, state, setting))? else { return Ok(None) };
            sum = &sum + &(&value * &Fraction::new(Whole::from(weight), Whole::from(all)));
        }
        Ok(Some(sum))
    }

    fn weight(&self, action: usize, state: &State, setting: u32) -> i64 {
        let chance = |condition: usize| {
            let chance = self.diagram(&Command::Chance(action, condition + 1));
            let yes = leaf(chance, state, 0).map_or(0, |leaf| leaf.constant);
            if setting >> condition & 1 == 1 {
                yes
            } else {
                self.site.weight as i64 - yes
            }
        };
        (0..self.site.conditions).map(chance).product()
    }

    /// Plain working has accepted that next levels have 32 bits.
    fn moved(&self, action: usize, state: &State, setting: u32) -> State {
        let level = |level: usize| {
            let next = leaf(self.diagram(&Command::Next(action, level + 1)), state, setting);
            let next =
                &at(next.expect("a next level is a number"), state) * &Fraction::from(i64::from(state.denominator));
            next.numerator().to_i32().expect("plain working has 32 bits for it")
        };
        let numerators = std::array::from_fn::<_, LEVELS, _>(|i| if i < self.site.levels { level(i) } else { 0 });
        State { mask: setting, numerators, denominator: state.denominator }
    }

    /// The library's, or with no step left the end worth.
    fn value(&self, steps: u32, state: &State) -> Result<Option<Fraction>, Refusal> {
        if steps == 0 {
            let end = self.written.items.iter().find(|item| item.command == Command::EndWorth);
            let leaf = end.and_then(|item| item.diagram.as_ref()).and_then(|diagram| leaf(diagram, state, 0));
            return Ok(Some(leaf.map_or(Fraction::from(0), |leaf| at(leaf, state))));
        }
        let reading = library::worth(self.model, steps, state)?;
        let weight = Whole::from(self.site.weight as i64);
        let scale = (0..self.site.conditions * steps as usize)
            .fold(Whole::from(i64::from(state.denominator)), |scale, _| &scale * &weight);
        Ok(Some(Fraction::new(Whole::from(reading.numerator), scale)).filter(|_| reading.action != NO_ACTION))
    }
}

/// The leaf of a diagram at a state and a setting of the next conditions; nothing where it is forbidden.
fn leaf<'a>(mut diagram: &'a Diagram, state: &State, setting: u32) -> Option<&'a Linear> {
    loop {
        let holds = match &diagram.command {
            Command::Leaf(linear) => return Some(linear),
            Command::Condition(number) => (state.mask | setting << CONDITIONS) >> (number - 1) & 1 == 1,
            Command::Test(linear) => at(linear, state) <= Fraction::from(0),
            _ => return None,
        };
        let [high, low] = diagram.branches.as_deref().expect("a test has branches");
        diagram = if holds { high } else { low };
    }
}

fn at(linear: &Linear, state: &State) -> Fraction {
    let terms = linear.coefficients.iter().zip(state.numerators);
    let sum: i128 = terms.map(|(&coefficient, numerator)| i128::from(coefficient) * i128::from(numerator)).sum();
    let sum = sum + i128::from(linear.constant) * i128::from(state.denominator);
    Fraction::new(Whole::from(sum), Whole::from(i64::from(state.denominator)))
}
