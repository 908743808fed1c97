//! A model's tables after solving, and what is read from them.

use crate::fraction::Fraction;
use crate::library::{self, Refusal};
use crate::model::{Model, Site, Written};
use crate::state::State;
use crate::whole::Whole;
use crate::widths::*;
use std::io;

pub struct Solved<'a> {
    pub model: &'a [u8],
    pub site: Site,
    pub horizon: usize,
    pub nodes: Vec<i64>,
    pub stages: [u32; STAGE_WORDS],
    /// The needed nodes: at most, while loading, and of each action.
    pub peak: u32,
    pub peaks: [u32; PEAK_WORDS],
}

/// Why there are no tables: refused with tables of so many nodes, or no thread for them.
pub enum Unsolved {
    Refused(Refusal, usize),
    NoThread(io::Error),
}

struct Tables {
    nodes: Vec<i64>,
    stages: [u32; STAGE_WORDS],
    work: Vec<u32>,
    peaks: [u32; PEAK_WORDS],
}

impl<'a> Solved<'a> {
    /// With tables of the given size, or of one size after the other.
    pub fn solve(model: &'a [u8], horizon: u32, nodes: Option<usize>) -> Result<Solved<'a>, Unsolved> {
        let sizes = nodes.map_or(SIZES.to_vec(), |size| vec![size]);
        for &size in &sizes[..sizes.len() - 1] {
            match solve_with(model, horizon, size) {
                Err(Unsolved::Refused(refused, _)) if library::wants_room(refused) => {}
                answer => return answer,
            }
        }
        solve_with(model, horizon, sizes[sizes.len() - 1])
    }

    /// The value with so many steps left, and the action: 0 and `NO_ACTION` where it is none.
    pub fn value(&self, steps: usize, state: &State) -> Result<(Fraction, u32), Refusal> {
        let reading = library::value(self.model, &self.nodes, &self.stages, steps as u32, state)?;
        let denominator = &Whole::from(i64::from(state.denominator)) * &self.scale(steps);
        Ok((Fraction::new(Whole::from(reading.numerator), denominator), reading.action))
    }

    /// The total of this site and another with so many steps left, and both actions: 0 and `NO_ACTION`s where it is none.
    pub fn total(
        &self,
        steps: usize,
        state: &State,
        other: &Solved,
        other_state: &State,
    ) -> Result<(Fraction, [u32; 2]), Refusal> {
        let total = library::total(&self.side(state), &other.side(other_state), steps as u32)?;
        let scale = &self.scale(steps) * &other.scale(steps);
        let denominator = &Whole::from(i64::from(state.denominator)) * &scale;
        Ok((Fraction::new(Whole::from(total.numerator), denominator), total.actions))
    }

    fn side<'b>(&'b self, state: &'b State) -> library::Side<'b> {
        library::Side { model: self.model, nodes: &self.nodes, stages: &self.stages, state }
    }

    /// W^(n*h): what a stage's values are multiplied by.
    pub fn scale(&self, steps: usize) -> Whole {
        let weight = Whole::from(self.site.weight as i64);
        (0..self.site.conditions * steps).fold(Whole::from(1u128), |power, _| &power * &weight)
    }

    pub fn listing(&self) -> Result<Vec<u8>, Refusal> {
        let lines = self.stages.iter().max().map_or(0, |&greatest| greatest as usize) + 1 + STAGE_WORDS;
        library::listing(self.model, self.horizon as u32, &self.nodes, &self.stages, lines * LINE_BYTES_MOST)
    }

    /// The page of a state; no page is longer than so many lines of a listing.
    #[cfg(planner_page)]
    pub fn page(&self, state: &State) -> Result<Vec<u8>, Refusal> {
        let room = STAGE_WORDS * LINE_BYTES_MOST;
        library::page(self.model, self.horizon as u32, &self.nodes, &self.stages, state, room)
    }

    /// An action with its name; a dash where there is none.
    pub fn action(&self, number: u32) -> Result<String, Refusal> {
        if number == NO_ACTION {
            return Ok("-".to_string());
        }
        let name = library::name(self.model, number)?;
        Ok(format!("{number} {name}").trim_end().to_string())
    }
}

/// Solves on a thread with the stack that so many nodes need.
fn solve_with(model: &[u8], horizon: u32, size: usize) -> Result<Solved<'_>, Unsolved> {
    let (nodes, work) = (vec![0; NODE_WORDS * size], vec![0; WORK_WORDS * size]);
    let mut tables = Tables { nodes, stages: [0; STAGE_WORDS], work, peaks: [0; PEAK_WORDS] };
    let stack = STACK_BYTES_BESIDE + STACK_BYTES_A_NODE * size;
    let solved = std::thread::scope(|scope| {
        let Tables { nodes, stages, work, peaks } = &mut tables;
        let job = move || library::solve(model, horizon, nodes, stages, work, peaks);
        let thread =
            std::thread::Builder::new().stack_size(stack).spawn_scoped(scope, job).map_err(Unsolved::NoThread)?;
        Ok(thread.join().expect("solving does not panic"))
    })?;
    let peak = solved.map_err(|refused| Unsolved::Refused(refused, size))?;
    let site = Written::read(Model::new(model)).site().expect("a solved model has a site");
    let Tables { nodes, stages, peaks, .. } = tables;
    Ok(Solved { model, site, horizon: horizon as usize, nodes, stages, peak, peaks })
}
