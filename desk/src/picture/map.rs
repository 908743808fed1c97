//! A plan over two levels: regions cut exactly by the lines of its tests.

use super::slice::{formula, scale, Fixed, Node};
use crate::fraction::Fraction;
use crate::solved::Solved;
use crate::state::State;
use crate::whole::Whole;
use crate::widths::NO_ACTION;
use std::cmp::Ordering;

/// The line a*x + b*y + c = 0, in whole numbers.
#[derive(Clone, Debug, PartialEq, Eq)]
struct Cut {
    a: Whole,
    b: Whole,
    c: Whole,
}

/// The point (x/z, y/z), z above zero: no division is needed to tell on which side of a line it is.
#[derive(Clone, Debug, PartialEq, Eq)]
struct Point {
    x: Whole,
    y: Whole,
    z: Whole,
}

impl Cut {
    fn new([a, b]: &[Fraction; 2], c: &Fraction) -> Cut {
        let common = &(a.denominator() * b.denominator()) * c.denominator();
        let whole = |part: &Fraction| part.numerator() * &common.divided(part.denominator()).0;
        let (a, b, c) = (whole(a), whole(b), whole(c));
        let divisor = a.common_divisor(&b).common_divisor(&c);
        let reduced = |part: &Whole| {
            let size = part.divided(&divisor).0;
            if part.is_negative() {
                -&size
            } else {
                size
            }
        };
        Cut { a: reduced(&a), b: reduced(&b), c: reduced(&c) }
    }

    fn turned(&self) -> Cut {
        Cut { a: -&self.a, b: -&self.b, c: -&self.c }
    }

    /// Below zero, on it, or above.
    fn side(&self, point: &Point) -> Ordering {
        let sum = &(&(&self.a * &point.x) + &(&self.b * &point.y)) + &(&self.c * &point.z);
        sum.cmp(&Whole::from(0u128))
    }

    /// Where two lines that are not parallel meet.
    fn meets(&self, other: &Cut) -> Point {
        let cross = |p: &Whole, q: &Whole, r: &Whole, s: &Whole| &(p * s) - &(q * r);
        let x = cross(&self.b, &self.c, &other.b, &other.c);
        let y = cross(&self.c, &self.a, &other.c, &other.a);
        let z = cross(&self.a, &self.b, &other.a, &other.b);
        if z.is_negative() {
            return Point { x: -&x, y: -&y, z: -&z };
        }
        Point { x, y, z }
    }
}

impl Point {
    fn levels(&self) -> [Fraction; 2] {
        [Fraction::new(self.x.clone(), self.z.clone()), Fraction::new(self.y.clone(), self.z.clone())]
    }
}

/// A convex polygon: each corner with the line of the edge to the next. Corners are where two lines meet, so their numbers do not
/// grow with the number of cuts.
#[derive(Clone, Debug)]
struct Polygon(Vec<(Point, Cut)>);

impl Polygon {
    fn rectangle(range: &[(Fraction, Fraction); 2]) -> Polygon {
        let (zero, one) = (Fraction::from(0), Fraction::from(1));
        let [(left, right), (bottom, top)] = range;
        let upright = |x: &Fraction| Cut::new(&[one.clone(), zero.clone()], &-x);
        let level = |y: &Fraction| Cut::new(&[zero.clone(), one.clone()], &-y);
        let edges = [level(bottom), upright(right), level(top), upright(left)];
        let corner = |i: usize| (edges[(i + 3) % 4].meets(&edges[i]), edges[i].clone());
        Polygon((0..4).map(corner).collect())
    }

    /// The part where the line's left side is zero or less; none if that has no area.
    fn clipped(&self, cut: &Cut) -> Option<Polygon> {
        let sides: Vec<Ordering> = self.0.iter().map(|(corner, _)| cut.side(corner)).collect();
        if !sides.contains(&Ordering::Less) {
            return None;
        }
        let mut kept = Vec::new();
        for (i, (corner, edge)) in self.0.iter().enumerate() {
            match (sides[i], sides[(i + 1) % sides.len()]) {
                (Ordering::Less, Ordering::Greater) => {
                    kept.push((corner.clone(), edge.clone()));
                    kept.push((edge.meets(cut), cut.clone()));
                }
                (Ordering::Equal, Ordering::Greater) => kept.push((corner.clone(), cut.clone())),
                (Ordering::Greater, Ordering::Less) => kept.push((edge.meets(cut), edge.clone())),
                (Ordering::Greater, _) => {}
                _ => kept.push((corner.clone(), edge.clone())),
            }
        }
        Some(Polygon(kept))
    }

    fn corners(&self) -> Vec<[Fraction; 2]> {
        self.0.iter().map(|(corner, _)| corner.levels()).collect()
    }
}

/// A part of the map with one action and one formula for the value; none has no action, and zeros.
pub struct Region {
    pub corners: Vec<[Fraction; 2]>,
    pub action: u32,
    slopes: [Fraction; 2],
    constant: Fraction,
}

/// A stage of a plan over two levels.
pub struct Map {
    pub levels: [usize; 2],
    pub steps: usize,
    pub regions: Vec<Region>,
}

struct Walk<'a> {
    solved: &'a Solved<'a>,
    fixed: &'a Fixed,
    levels: [usize; 2],
    scale: Fraction,
    regions: Vec<Region>,
}

impl Walk<'_> {
    fn down(&mut self, node: u32, polygon: Polygon) {
        match self.fixed.node(self.solved, node) {
            Node::Decided(branch) => self.down(branch, polygon),
            Node::Leaf { action, words } => {
                let (slopes, constant) = self.fixed.linear(words, self.levels);
                let (slopes, constant) = (slopes.map(|slope| &slope / &self.scale), &constant / &self.scale);
                self.regions.push(Region { corners: polygon.corners(), action, slopes, constant });
            }
            Node::Test { words, high, low } => {
                let (slopes, constant) = self.fixed.linear(words, self.levels);
                if slopes.iter().all(Fraction::is_zero) {
                    let holds = constant.is_zero() || constant.is_negative();
                    return self.down(if holds { high } else { low }, polygon);
                }
                let cut = Cut::new(&slopes, &constant);
                for (branch, cut) in [(high, cut.clone()), (low, cut.turned())] {
                    if let Some(part) = polygon.clipped(&cut) {
                        self.down(branch, part);
                    }
                }
            }
        }
    }
}

impl Region {
    /// Three points within, not on a line: halfway from the corners' mean to the first three.
    fn points(&self) -> Vec<[Fraction; 2]> {
        let (zero, two) = (Fraction::from(0), Fraction::from(2));
        let count = Fraction::from(self.corners.len() as i64);
        let mean = [0, 1].map(|i| &self.corners.iter().fold(zero.clone(), |sum, corner| &sum + &corner[i]) / &count);
        self.corners.iter().take(3).map(|corner| [0, 1].map(|i| &(&mean[i] + &corner[i]) / &two)).collect()
    }

    fn value(&self, at: &[Fraction; 2]) -> Fraction {
        &(&(&self.slopes[0] * &at[0]) + &(&self.slopes[1] * &at[1])) + &self.constant
    }

    pub fn is_none(&self) -> bool {
        self.action == NO_ACTION
    }

    pub fn formula(&self, levels: [usize; 2]) -> String {
        if self.is_none() {
            return "none".to_string();
        }
        formula(&[(&self.slopes[0], levels[0]), (&self.slopes[1], levels[1])], &self.constant)
    }
}

impl Map {
    pub fn cut(
        solved: &Solved,
        fixed: &Fixed,
        levels: [usize; 2],
        steps: usize,
        range: &[(Fraction, Fraction); 2],
    ) -> Map {
        let mut walk = Walk { solved, fixed, levels, scale: scale(solved, steps), regions: Vec::new() };
        walk.down(solved.stages[steps - 1], Polygon::rectangle(range));
        Map { levels, steps, regions: walk.regions }
    }

    /// Holds three points of each region to the value and the action that the library reads there: three settle a formula.
    /// Gives how many were compared and how many are too fine to be a state.
    pub fn read_back(&self, solved: &Solved, fixed: &Fixed) -> Result<(usize, usize), String> {
        let (mut compared, mut too_fine) = (0, 0);
        for region in &self.regions {
            for at in region.points() {
                let Some(state) = State::at(fixed.mask, &fixed.at(self.levels, [&at[0], &at[1]])) else {
                    too_fine += 1;
                    continue;
                };
                self.compare(region, solved, &state, &at)?;
                compared += 1;
            }
        }
        Ok((compared, too_fine))
    }

    fn compare(&self, region: &Region, solved: &Solved, state: &State, at: &[Fraction; 2]) -> Result<(), String> {
        let read = solved.value(self.steps, state);
        let (value, action) = read.map_err(|refused| format!("a value is refused with {}", refused.number))?;
        let drawn = region.value(at);
        if value == drawn && action == region.action {
            return Ok(());
        }
        let drawn = format!("{drawn} with action {}", region.action);
        Err(format!("at {}, {} the drawing has {drawn}, the tables {value} with action {action}", at[0], at[1]))
    }
}

#[cfg(test)]
mod tests {
    use super::*;

    fn fraction(text: &str) -> Fraction {
        Fraction::read(text).unwrap()
    }

    #[test]
    fn cut_polygons() {
        let square = Polygon::rectangle(&[(fraction("0"), fraction("4")), (fraction("0"), fraction("4"))]);
        let corners = |polygon: &Polygon| {
            let words = polygon.corners().iter().map(|[x, y]| format!("{x},{y}")).collect::<Vec<_>>();
            words.join(" ")
        };
        assert_eq!(corners(&square), "0,0 4,0 4,4 0,4");
        let cut = |a, b, c| Cut::new(&[fraction(a), fraction(b)], &fraction(c));
        let below = square.clipped(&cut("1", "1", "-3")).unwrap();
        assert_eq!(corners(&below), "0,0 3,0 0,3");
        let above = square.clipped(&cut("1", "1", "-3").turned()).unwrap();
        assert_eq!(corners(&above), "3,0 4,0 4,4 0,4 0,3");
        let diagonal = square.clipped(&cut("1", "-1", "0")).unwrap();
        assert_eq!(corners(&diagonal), "0,0 4,4 0,4");
        let third = square.clipped(&cut("3/2", "0", "-1/2")).unwrap();
        assert_eq!(corners(&third), "0,0 1/3,0 1/3,4 0,4");
        assert!(square.clipped(&cut("-1", "0", "4")).is_none());
        assert!(square.clipped(&cut("1", "0", "-9")).unwrap().0.len() == 4);
    }
}
