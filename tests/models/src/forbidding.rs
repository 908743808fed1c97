//! Random models with forbidden leaves, which command 13 pushes.

use crate::random::{commands, Rng};

const LEAF: u8 = 0x10;
const FORBIDDEN: u8 = 0x13;
const REWARD: u8 = 0x20;
const CHANCE: u8 = 0x21;

/// A diagram of a model: the byte of the command that takes it, and the places of its own commands, the root's last.
struct Diagram {
    taken_by: u8,
    parts: Vec<usize>,
}

/// The diagrams of a model as far as its commands find what they take on the stack.
fn diagrams(commands: &[Vec<u8>]) -> Vec<Diagram> {
    let (mut stack, mut diagrams): (Vec<Vec<usize>>, Vec<Diagram>) = (Vec::new(), Vec::new());
    for (place, command) in commands.iter().enumerate() {
        match command[0] {
            LEAF | FORBIDDEN => stack.push(vec![place]),
            0x11 | 0x12 => {
                let (Some(low), Some(mut high)) = (stack.pop(), stack.pop()) else { break };
                high.extend(low.into_iter().chain([place]));
                stack.push(high);
            }
            taken_by @ REWARD..=0x23 => {
                let Some(parts) = stack.pop() else { break };
                diagrams.push(Diagram { taken_by, parts });
            }
            _ => {}
        }
    }
    diagrams
}

/// How much of the rewards is forbidden.
#[derive(Clone, Copy)]
enum Share {
    /// One leaf in so many.
    Leaves(usize),
    /// One whole reward in so many.
    Rewards(usize),
}

/// The model with forbidden leaves in its rewards: one in some, whole rewards, or everywhere. Its chances are now and then
/// 0 or W. One in eight has such a leaf in a chance, a next level or an end worth as well, where it is refused.
pub fn forbidding(rng: &mut Rng, model: &[u8]) -> Vec<u8> {
    let offsets = commands(model);
    let mut commands: Vec<Vec<u8>> = offsets.windows(2).map(|ends| model[ends[0]..ends[1]].to_vec()).collect();
    let diagrams = diagrams(&commands);
    let share = rng.pick(&[
        Share::Leaves(1),
        Share::Leaves(2),
        Share::Leaves(2),
        Share::Leaves(4),
        Share::Leaves(8),
        Share::Rewards(1),
        Share::Rewards(2),
        Share::Rewards(3),
    ]);
    let weight = *model.get(5).unwrap_or(&1);
    let sure = rng.pick(&[0, 0, 2, 3]);
    for Diagram { taken_by, parts } in &diagrams {
        match *taken_by {
            REWARD => forbid(rng, &mut commands, parts, share),
            CHANCE if sure > 0 && rng.once_in(sure) => settle(rng, &mut commands, parts, weight),
            _ => {}
        }
    }
    let others = diagrams.iter().filter(|diagram| diagram.taken_by != REWARD);
    let refused: Vec<usize> = others.flat_map(|diagram| leaves(&commands, &diagram.parts)).collect();
    if !refused.is_empty() && rng.once_in(8) {
        commands[rng.pick(&refused)] = vec![FORBIDDEN];
    }
    commands.concat()
}

fn leaves(commands: &[Vec<u8>], parts: &[usize]) -> Vec<usize> {
    parts.iter().copied().filter(|&place| commands[place].first() == Some(&LEAF)).collect()
}

fn forbid(rng: &mut Rng, commands: &mut [Vec<u8>], parts: &[usize], share: Share) {
    match share {
        Share::Leaves(times) => {
            for place in leaves(commands, parts) {
                if rng.once_in(times) {
                    commands[place] = vec![FORBIDDEN];
                }
            }
        }
        Share::Rewards(times) if rng.once_in(times) => {
            parts.iter().for_each(|&place| commands[place].clear());
            commands[parts[parts.len() - 1]].push(FORBIDDEN);
        }
        Share::Rewards(_) => {}
    }
}

/// Every leaf of a chance 0 or W.
fn settle(rng: &mut Rng, commands: &mut [Vec<u8>], parts: &[usize], weight: u8) {
    for place in leaves(commands, parts) {
        let constant = commands[place].len() - 4;
        commands[place][constant] = rng.pick(&[0, weight]);
    }
}
