//! Draws a plan over two levels: a map of actions for each number of steps.

use super::map::{Map, Region};
use super::svg::*;
use super::{steps_left, Frame};
use crate::fraction::Fraction;

const SIDE: f64 = 260.0;
const LEFT: f64 = 64.0;
/// From one map to the next, across and down.
const ACROSS: f64 = SIDE + 84.0;
const DOWN: f64 = SIDE + 84.0;

/// A map's place in the drawing, and its scales.
struct Sheet<'a> {
    range: &'a [(Fraction, Fraction); 2],
    left: f64,
    top: f64,
}

impl Sheet<'_> {
    fn share(&self, axis: usize, at: &Fraction) -> f64 {
        let (from, to) = &self.range[axis];
        (&(at - from) / &(to - from)).to_f64() * SIDE
    }

    fn x(&self, at: &Fraction) -> f64 {
        self.left + self.share(0, at)
    }

    fn y(&self, at: &Fraction) -> f64 {
        self.top + SIDE - self.share(1, at)
    }
}

pub fn draw(frame: &Frame, maps: &[Map], range: &[(Fraction, Fraction); 2]) -> String {
    let columns = maps.len().clamp(1, 3);
    let wide = (LEFT + ACROSS * columns as f64).max(560.0);
    let mut body = text(LEFT, 30.0, "start", "font-size=\"15\" font-weight=\"bold\"", &frame.heading());
    let has_none = maps.iter().any(|map| map.regions.iter().any(Region::is_none));
    let (legend, high) = legend(&frame.legend(has_none), LEFT, 46.0, wide - 24.0);
    body += &legend;
    let begin = 46.0 + high + 34.0;
    for (i, map) in maps.iter().enumerate() {
        let (column, row) = ((i % columns) as f64, (i / columns) as f64);
        let sheet = Sheet { range, left: LEFT + ACROSS * column, top: begin + DOWN * row };
        body += &draw_map(frame, map, &sheet);
    }
    let bottom = begin + DOWN * maps.len().div_ceil(columns) as f64;
    let note =
        "Cut exactly by the lines of the tests, drawn light; a line belongs to the side on which its test holds.";
    body += &text(LEFT, bottom - 16.0, "start", "font-size=\"11\" fill=\"#555555\"", note);
    document(wide, bottom, &frame.title, &body)
}

fn draw_map(frame: &Frame, map: &Map, sheet: &Sheet) -> String {
    let heading = steps_left(map.steps);
    let mut body = text(sheet.left, sheet.top - 9.0, "start", "font-size=\"12\" font-weight=\"bold\"", &heading);
    for region in &map.regions {
        body += &draw_region(frame, map, region, sheet);
    }
    let (x, y) = (px(sheet.left), px(sheet.top));
    body += &format!("<rect x=\"{x}\" y=\"{y}\" width=\"{SIDE}\" height=\"{SIDE}\" fill=\"none\" stroke=\"{INK}\"/>\n");
    body + &axes(map, sheet)
}

/// Light edges show where the value's formula changes, and a region carries its action's number, where there is room.
fn draw_region(frame: &Frame, map: &Map, region: &Region, sheet: &Sheet) -> String {
    let points: Vec<(f64, f64)> = region.corners.iter().map(|[x, y]| (sheet.x(x), sheet.y(y))).collect();
    let corners: Vec<String> = points.iter().map(|(x, y)| format!("{},{}", px(*x), px(*y))).collect();
    let (corners, fill) = (corners.join(" "), colour(region.action));
    let words = format!("action {}, value {}", frame.name(region.action), region.formula(map.levels));
    let roomy = area(&points) >= LABELLED;
    let edges = match roomy {
        true => "stroke=\"#FFFFFF\" stroke-width=\"0.8\" stroke-opacity=\"0.6\"".to_string(),
        false => format!("stroke=\"{fill}\" stroke-width=\"0.4\""),
    };
    let title = escaped(&words);
    let body = format!("<polygon points=\"{corners}\" fill=\"{fill}\" {edges}><title>{title}</title></polygon>\n");
    let number = if region.is_none() { "none".to_string() } else { region.action.to_string() };
    if !roomy || extent(&points, |point| point.0) < width(&number, 12.0) || extent(&points, |point| point.1) < 12.0 {
        return body;
    }
    let mean = |part: fn(&(f64, f64)) -> f64| points.iter().map(part).sum::<f64>() / points.len() as f64;
    let style = format!("font-size=\"12\" fill=\"{}\" pointer-events=\"none\"", on_colour(region.action));
    body + &text(mean(|point| point.0), mean(|point| point.1) + 4.0, "middle", &style, &number)
}

/// From the least to the greatest of the points' parts.
fn extent(points: &[(f64, f64)], part: fn(&(f64, f64)) -> f64) -> f64 {
    let parts = || points.iter().map(part);
    parts().fold(f64::MIN, f64::max) - parts().fold(f64::MAX, f64::min)
}

/// A smaller region has no room for a number.
const LABELLED: f64 = 700.0;

fn area(points: &[(f64, f64)]) -> f64 {
    let next = points.iter().cycle().skip(1);
    let doubled: f64 = points.iter().zip(next).map(|(a, b)| a.0 * b.1 - b.0 * a.1).sum();
    doubled.abs() / 2.0
}

fn axes(map: &Map, sheet: &Sheet) -> String {
    let (mut body, bottom) = (String::new(), sheet.top + SIDE);
    for tick in ticks(&sheet.range[0].0, &sheet.range[0].1) {
        let x = sheet.x(&tick);
        body += &segment((x, bottom), (x, bottom + 5.0), INK, 1.0);
        body += &text(x, bottom + 17.0, "middle", "font-size=\"11\"", &tick.decimal(6));
    }
    for tick in ticks(&sheet.range[1].0, &sheet.range[1].1) {
        let y = sheet.y(&tick);
        body += &segment((sheet.left - 5.0, y), (sheet.left, y), INK, 1.0);
        body += &text(sheet.left - 8.0, y + 4.0, "end", "font-size=\"11\"", &tick.decimal(6));
    }
    let [across, up] = map.levels.map(|level| format!("level L{}", level + 1));
    body += &text(sheet.left + SIDE / 2.0, bottom + 33.0, "middle", "font-size=\"12\"", &across);
    let (x, y) = (sheet.left - 44.0, sheet.top + SIDE / 2.0);
    let turned = format!("font-size=\"12\" transform=\"rotate(-90 {} {})\"", px(x), px(y));
    body + &text(x, y, "middle", &turned, &up)
}
