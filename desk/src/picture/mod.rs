//! Pictures of a plan over one level or two, and their numbers as text.

mod atlas;
mod chart;
mod line;
mod map;
mod slice;
mod svg;

use crate::arguments::Along;
use crate::fraction::Fraction;
use crate::library::Refusal;
use crate::model::Site;
use crate::solved::Solved;
use crate::state::Given;
use crate::whole::Whole;
use crate::widths::{CONDITIONS, LEVELS, NO_ACTION};
use crate::words::count;
use line::Line;
use map::Map;
use slice::Fixed;

/// What stands around a drawing.
pub struct Frame {
    pub title: String,
    pub fixed: String,
    /// The site's actions, with number and name.
    pub actions: Vec<(u32, String)>,
}

impl Frame {
    fn heading(&self) -> String {
        format!("{} {}", self.title, self.fixed).trim_end().to_string()
    }

    fn name(&self, action: u32) -> String {
        if action == NO_ACTION {
            return "-".to_string();
        }
        let named = self.actions.iter().find(|(number, _)| *number == action);
        named.map_or(action.to_string(), |(_, name)| name.clone())
    }

    /// What the colours stand for: the actions, and none where some of the drawing is.
    fn legend(&self, has_none: bool) -> Vec<(u32, String)> {
        let none = has_none.then(|| (NO_ACTION, "no value".to_string()));
        self.actions.iter().cloned().chain(none).collect()
    }
}

/// The free levels, each with its range.
enum Free {
    One(usize, (Fraction, Fraction)),
    Two([usize; 2], [(Fraction, Fraction); 2]),
}

/// A plan cut at one setting of the conditions.
enum Cut {
    Lines(Vec<Line>),
    Maps(Vec<Map>),
}

/// What a picture is made of: a solved model, its name, and the words of the call.
pub struct Picture<'a> {
    pub solved: &'a Solved<'a>,
    pub path: &'a str,
    pub given: Given,
    free: Free,
    /// Numbers read back, and those too fine to be a state.
    pub compared: (usize, usize),
}

/// What stops a picture.
pub enum Stopped {
    Usage(String),
    Refused(Refusal),
    /// The drawing and the tables do not agree, or a file cannot be written.
    Around(String),
}

/// Beyond these no break point is looked for; no state is.
const FAR: i64 = 1 << 31;

impl<'a> Picture<'a> {
    pub fn new(solved: &'a Solved, path: &'a str, given: Given, along: &[Along]) -> Result<Picture<'a>, Stopped> {
        let free = free(solved, &given, along).map_err(Stopped::Usage)?;
        Ok(Picture { solved, path, given, free, compared: (0, 0) })
    }

    /// The settings of the conditions that are drawn: the one given, or all that it leaves open.
    pub fn settings(&self, all: bool) -> Vec<u32> {
        let conditions = self.solved.site.conditions.min(CONDITIONS);
        let fits = |mask: &u32| {
            (0..conditions).all(|i| match (self.given.conditions[i], all) {
                (Some(holds), _) => (mask >> i & 1 == 1) == holds,
                (None, true) => true,
                (None, false) => mask >> i & 1 == 0,
            })
        };
        (0..1 << conditions).filter(fits).collect()
    }

    /// Cuts the plan and holds what was cut to what the library reads.
    fn cut(&mut self, fixed: &Fixed) -> Result<Cut, Stopped> {
        let (solved, steps) = (self.solved, 1..=self.solved.horizon);
        let (cut, counts): (Cut, Result<Vec<_>, String>) = match &self.free {
            Free::One(level, range) => {
                let lines: Vec<Line> = steps.map(|steps| Line::cut(solved, fixed, *level, steps, range)).collect();
                let counts = lines.iter().map(|line| line.read_back(solved, fixed)).collect();
                (Cut::Lines(lines), counts)
            }
            Free::Two(levels, range) => {
                let maps: Vec<Map> = steps.map(|steps| Map::cut(solved, fixed, *levels, steps, range)).collect();
                let counts = maps.iter().map(|map| map.read_back(solved, fixed)).collect();
                (Cut::Maps(maps), counts)
            }
        };
        for (compared, too_fine) in counts.map_err(Stopped::Around)? {
            self.compared = (self.compared.0 + compared, self.compared.1 + too_fine);
        }
        Ok(cut)
    }

    fn fixed(&self, mask: u32) -> Fixed {
        Fixed { mask, levels: std::array::from_fn(|i| self.given.levels[i].clone().unwrap_or(Fraction::from(0))) }
    }

    fn is_free(&self, level: usize) -> bool {
        match &self.free {
            Free::One(free, _) => *free == level,
            Free::Two(free, _) => free.contains(&level),
        }
    }

    fn frame(&self, fixed: &Fixed) -> Result<Frame, Stopped> {
        let Site { levels, conditions, actions, .. } = self.solved.site;
        let level = |i: usize| format!("L{} = {}", i + 1, fixed.levels[i]);
        let condition = |i: usize| format!("C{} {}", i + 1, if fixed.mask >> i & 1 == 1 { "yes" } else { "no" });
        let levels = (0..levels).filter(|&i| !self.is_free(i)).map(level);
        let words: Vec<String> = levels.chain((0..conditions).map(condition)).collect();
        let fixed = if words.is_empty() { String::new() } else { format!("at {}", words.join(", ")) };
        let named = |action| self.solved.action(action).map(|name| (action, name));
        let actions: Result<Vec<_>, Refusal> = (1..=actions as u32).map(named).collect();
        let title = format!("Plan of {}", self.file());
        Ok(Frame { title, fixed, actions: actions.map_err(Stopped::Refused)? })
    }

    /// The drawing at one setting of the conditions.
    pub fn svg(&mut self, mask: u32) -> Result<String, Stopped> {
        let fixed = self.fixed(mask);
        let (cut, frame) = (self.cut(&fixed)?, self.frame(&fixed)?);
        match (&cut, &self.free) {
            (Cut::Lines(lines), Free::One(_, range)) => Ok(chart::draw(&frame, lines, range)),
            (Cut::Maps(maps), Free::Two(_, range)) => Ok(atlas::draw(&frame, maps, range)),
            _ => Ok(String::new()),
        }
    }

    /// A page with the drawings of all settings side by side, two in a row.
    pub fn html(&mut self) -> Result<String, Stopped> {
        let (settings, mut figures) = (self.settings(true), String::new());
        for &mask in &settings {
            figures += &format!("<figure>\n{}</figure>\n", self.svg(mask)?);
        }
        let title = svg::escaped(&format!("Plan of {}, {}", self.file(), count(self.solved.horizon, "step")));
        let (columns, ink) = (settings.len().min(2), svg::INK);
        Ok(format!(
            "<!DOCTYPE html>\n<html lang=\"en\">\n<head>\n<meta charset=\"utf-8\">\n<title>{title}</title>\n<style>\n\
             body {{ font-family: 'DejaVu Sans', Verdana, sans-serif; margin: 24px; color: {ink}; background: #F4F4F4; }}\n\
             main {{ display: grid; grid-template-columns: repeat({columns}, minmax(440px, 1fr)); gap: 16px; }}\n\
             figure {{ margin: 0; background: #FFFFFF; border: 1px solid #CCCCCC; max-width: 1100px; }}\n\
             svg {{ display: block; width: 100%; height: auto; }}\n</style>\n</head>\n<body>\n\
             <h1>{title}</h1>\n<main>\n{figures}</main>\n</body>\n</html>\n"
        ))
    }

    fn file(&self) -> &str {
        self.path.rsplit('/').next().unwrap_or(self.path)
    }

    /// The numbers of the drawing at one setting of the conditions.
    pub fn table(&mut self, mask: u32) -> Result<String, Stopped> {
        let fixed = self.fixed(mask);
        let (cut, frame) = (self.cut(&fixed)?, self.frame(&fixed)?);
        let mut text = String::new();
        if !frame.fixed.is_empty() {
            text += &format!("{}\n", frame.fixed);
        }
        match &cut {
            Cut::Lines(lines) => lines.iter().for_each(|line| text += &line_table(line, &frame)),
            Cut::Maps(maps) => maps.iter().for_each(|map| text += &map_table(map, &frame)),
        }
        Ok(text)
    }
}

/// `2 steps left`.
fn steps_left(steps: usize) -> String {
    format!("{} left", count(steps, "step"))
}

fn line_table(line: &Line, frame: &Frame) -> String {
    let row = |piece: &line::Piece| [piece.words(line.level), frame.name(piece.action), piece.formula(line.level)];
    let rows: Vec<[String; 3]> = line.pieces.iter().map(row).collect();
    let width = |column: usize| rows.iter().map(|row| row[column].len()).max().unwrap_or(0);
    let (range, action) = (width(0), width(1));
    let mut text = format!("{}\n", steps_left(line.steps));
    for [piece, name, value] in &rows {
        text += &format!("  {piece:range$}  action {name:action$}  value {value}\n");
    }
    text
}

fn map_table(map: &Map, frame: &Frame) -> String {
    let mut text = format!("{}\n", steps_left(map.steps));
    for region in &map.regions {
        let corners: Vec<String> = region.corners.iter().map(|[x, y]| format!("({x}, {y})")).collect();
        let (name, value) = (frame.name(region.action), region.formula(map.levels));
        text += &format!("  action {name}  value {value}  corners {}\n", corners.join(" "));
    }
    text
}

fn free(solved: &Solved, given: &Given, along: &[Along]) -> Result<Free, String> {
    let beyond = |along: &&Along| along.level >= solved.site.levels;
    if let Some(along) = along.iter().find(beyond) {
        return Err(format!("the site has no level L{}", along.level + 1));
    }
    if let Some(along) = along.iter().find(|along| given.levels[along.level].is_some()) {
        return Err(format!("L{} is free and cannot be fixed with --at", along.level + 1));
    }
    match along {
        [one] => {
            let range = one.range.clone().unwrap_or_else(|| showing(solved, given, one.level));
            Ok(Free::One(one.level, range))
        }
        [one, two] if one.level != two.level => match (&one.range, &two.range) {
            (Some(across), Some(up)) => Ok(Free::Two([one.level, two.level], [across.clone(), up.clone()])),
            _ => Err("over two levels each needs a range, as --along L1=0..40 L2=0..60".to_string()),
        },
        _ => Err("--along names one level, or two different ones".to_string()),
    }
}

/// A range that shows the break points of every stage at every setting, from 0 where none is below.
fn showing(solved: &Solved, given: &Given, level: usize) -> (Fraction, Fraction) {
    let far = (Fraction::from(-FAR), Fraction::from(FAR));
    let levels: [Fraction; LEVELS] = std::array::from_fn(|i| given.levels[i].clone().unwrap_or(Fraction::from(0)));
    let mut breaks = Vec::new();
    for mask in 0..1 << solved.site.conditions {
        let fixed = Fixed { mask, levels: levels.clone() };
        for steps in 1..=solved.horizon {
            breaks.extend(Line::cut(solved, &fixed, level, steps, &far).breaks().cloned());
        }
    }
    let (least, most) = match (breaks.iter().min(), breaks.iter().max()) {
        (Some(least), Some(most)) => (least.clone(), most.clone()),
        _ => (Fraction::from(0), Fraction::from(100)),
    };
    around(&least, &most)
}

/// A quarter more on both sides, in whole ticks.
fn around(least: &Fraction, most: &Fraction) -> (Fraction, Fraction) {
    let span = if least == most { Fraction::from(4) } else { most - least };
    let quarter = &span / &Fraction::from(4);
    let step = &svg::tick_step(least, &(least + &span)) / &Fraction::from(2);
    let whole = |number: Whole| Fraction::new(number, Whole::from(1u128));
    let down = |at: &Fraction| &whole((at / &step).floor()) * &step;
    let zero = Fraction::from(0);
    let from = if *least >= zero && *least <= &span + &span { zero } else { down(&(least - &quarter)) };
    (from, -&down(&-&(most + &quarter)))
}

#[cfg(test)]
mod tests {
    use super::*;
    use crate::spell::spell;

    const SLOPES: &str = include_str!("../../tests/models/slopes.txt");
    const POND: &[u8] = include_bytes!("../../../examples/pond.model");

    fn solved(model: &[u8]) -> Solved<'_> {
        Solved::solve(model, 2, None).ok().expect("a solved model")
    }

    fn range(from: i64, to: i64) -> (Fraction, Fraction) {
        (Fraction::from(from), Fraction::from(to))
    }

    fn nowhere() -> Fixed {
        Fixed { mask: 0, levels: std::array::from_fn(|_| Fraction::from(0)) }
    }

    /// Values, actions and the side that a break point belongs to: each is noticed where it is not the library's.
    #[test]
    fn spoiled_lines_are_noticed() {
        let (solved, fixed) = (solved(POND), nowhere());
        let line = || Line::cut(&solved, &fixed, 0, 2, &range(0, 40));
        assert_eq!(line().read_back(&solved, &fixed), Ok((10, 0)));
        let spoils: [fn(&mut Line); 6] = [
            |line| line.pieces[1].slope = Fraction::from(1),
            |line| (line.pieces[0].to.closed, line.pieces[1].from.closed) = (true, false),
            |line| line.pieces[1].constant = Fraction::from(51),
            |line| line.pieces[2].action = 1,
            |line| line.pieces[0].to.closed = true,
            |line| line.pieces[1].to.at = Fraction::from(21),
        ];
        for spoil in spoils {
            let mut spoiled = line();
            spoil(&mut spoiled);
            assert!(spoiled.read_back(&solved, &fixed).is_err());
        }
    }

    #[test]
    fn spoiled_maps_are_noticed() {
        let model = spell(SLOPES).expect("a spelled model");
        let (solved, fixed) = (solved(&model), nowhere());
        let map = || Map::cut(&solved, &fixed, [0, 1], 2, &[range(0, 20), range(0, 10)]);
        assert_eq!(map().read_back(&solved, &fixed), Ok((9, 0)));
        let mut spoiled = map();
        spoiled.regions[2].action = 1;
        assert!(spoiled.read_back(&solved, &fixed).is_err());
        let mut spoiled = map();
        spoiled.regions.iter_mut().for_each(|region| region.corners.iter_mut().for_each(|corner| corner.reverse()));
        assert!(spoiled.read_back(&solved, &fixed).is_err());
    }

    /// Ranges that show break points.
    #[test]
    fn ranges() {
        assert_eq!(around(&Fraction::from(10), &Fraction::from(20)), range(0, 23));
        assert_eq!(around(&Fraction::from(-10), &Fraction::from(10)), range(-15, 15));
    }
}
