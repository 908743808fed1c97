//! Draws a plan along one level: a panel for each number of steps, the value above, the action in a strip below it.

use super::line::{Line, Piece};
use super::svg::*;
use super::{steps_left, Frame};
use crate::fraction::Fraction;

const WIDE: f64 = 760.0;
const LEFT: f64 = 86.0;
const RIGHT: f64 = WIDE - 24.0;
const PLOT: f64 = 104.0;
const STRIP: f64 = 20.0;
/// From one panel to the next: heading, plot, strip, two rows of labels.
const PANEL: f64 = 24.0 + PLOT + 6.0 + STRIP + 34.0;

/// The scales of a panel.
struct Panel<'a> {
    range: &'a (Fraction, Fraction),
    least: Fraction,
    most: Fraction,
    top: f64,
}

impl Panel<'_> {
    fn x(&self, at: &Fraction) -> f64 {
        let (from, to) = self.range;
        LEFT + (&(at - from) / &(to - from)).to_f64() * (RIGHT - LEFT)
    }

    fn y(&self, value: &Fraction) -> f64 {
        let share = &(value - &self.least) / &(&self.most - &self.least);
        self.top + 6.0 + (1.0 - share.to_f64()) * (PLOT - 12.0)
    }

    fn strip(&self) -> f64 {
        self.top + PLOT + 6.0
    }
}

/// The least and the greatest value at the ends of the pieces that have one, apart at least by one.
fn values(line: &Line) -> (Fraction, Fraction) {
    let valued = line.pieces.iter().filter(|piece| !piece.is_none());
    let ends = valued.flat_map(|piece| [piece.value(&piece.from.at), piece.value(&piece.to.at)]);
    let values: Vec<Fraction> = ends.collect();
    let (least, most) = (values.iter().min().cloned(), values.iter().max().cloned());
    let (least, most) = (least.unwrap_or(Fraction::from(0)), most.unwrap_or(Fraction::from(1)));
    if least == most {
        let one = Fraction::from(1);
        return (&least - &one, &most + &one);
    }
    (least, most)
}

pub fn draw(frame: &Frame, lines: &[Line], range: &(Fraction, Fraction)) -> String {
    let mut body = text(LEFT, 30.0, "start", "font-size=\"15\" font-weight=\"bold\"", &frame.heading());
    let has_none = lines.iter().any(|line| line.pieces.iter().any(Piece::is_none));
    let (legend, high) = legend(&frame.legend(has_none), LEFT, 46.0, RIGHT);
    body += &legend;
    let (mut top, mut crowded) = (46.0 + high + 12.0, false);
    for line in lines {
        let (least, most) = values(line);
        let panel = Panel { range, least, most, top: top + 24.0 };
        body += &draw_panel(frame, line, &panel);
        crowded |= marked(line, &panel).contains(&false);
        top += PANEL;
    }
    let level = lines.first().map_or(1, |line| line.level + 1);
    body += &axis(range, top, level);
    let mut note = "A full dot and a square bracket: the break point belongs to this side.".to_string();
    if crowded {
        note += " Closer ones are not marked; --table has them all.";
    }
    body += &text(LEFT, top + 58.0, "start", "font-size=\"11\" fill=\"#555555\"", &note);
    document(WIDE, top + 72.0, &frame.title, &body)
}

fn axis(range: &(Fraction, Fraction), top: f64, level: usize) -> String {
    let panel = Panel { range, least: Fraction::from(0), most: Fraction::from(1), top };
    let mut body = segment((LEFT, top), (RIGHT, top), INK, 1.0);
    for tick in ticks(&range.0, &range.1) {
        let x = panel.x(&tick);
        body += &segment((x, top), (x, top + 5.0), INK, 1.0);
        body += &text(x, top + 18.0, "middle", "font-size=\"11\"", &tick.decimal(6));
    }
    body + &text((LEFT + RIGHT) / 2.0, top + 36.0, "middle", "font-size=\"12\"", &format!("level L{level}"))
}

fn draw_panel(frame: &Frame, line: &Line, panel: &Panel) -> String {
    let heading = steps_left(line.steps);
    let mut body = text(LEFT, panel.top - 8.0, "start", "font-size=\"12\" font-weight=\"bold\"", &heading);
    body += &grid(panel);
    for piece in &line.pieces {
        body += &draw_piece(frame, line.level, piece, panel);
    }
    for (pair, marked) in line.pieces.windows(2).zip(marked(line, panel)) {
        if marked {
            body += &dots(&pair[0], &pair[1], panel);
        }
    }
    body + &labels(line, panel)
}

/// Break points that are closer to the last marked one have no room for marks of their own.
const APART: f64 = 8.0;

/// Which break points are marked. Both ends of a single point are.
fn marked(line: &Line, panel: &Panel) -> Vec<bool> {
    let mut last = f64::MIN;
    let mut roomy = |at: &Fraction| {
        let x = panel.x(at);
        let marked = x == last || x - last >= APART;
        if marked {
            last = x;
        }
        marked
    };
    line.breaks().map(&mut roomy).collect()
}

/// Values at the left, light lines across.
fn grid(panel: &Panel) -> String {
    let mut body = String::new();
    for tick in ticks(&panel.range.0, &panel.range.1) {
        let x = panel.x(&tick);
        body += &segment((x, panel.top), (x, panel.top + PLOT), FAINT, 0.8);
    }
    for tick in ticks(&panel.least, &panel.most) {
        let y = panel.y(&tick);
        body += &segment((LEFT, y), (RIGHT, y), FAINT, 0.8);
        body += &text(LEFT - 8.0, y + 4.0, "end", "font-size=\"11\"", &tick.decimal(6));
    }
    let middle = panel.top + PLOT / 2.0;
    let turned = format!("font-size=\"11\" fill=\"#555555\" transform=\"rotate(-90 14 {})\"", px(middle));
    body + &text(14.0, middle, "middle", &turned, "value")
}

fn draw_piece(frame: &Frame, level: usize, piece: &Piece, panel: &Panel) -> String {
    let (from, to) = (panel.x(&piece.from.at), panel.x(&piece.to.at));
    let (begin, end) = (panel.y(&piece.value(&piece.from.at)), panel.y(&piece.value(&piece.to.at)));
    let fill = colour(piece.action);
    let (x, wide, strip) = (px(from), px((to - from).max(0.0)), panel.strip());
    let action = frame.name(piece.action);
    let words = escaped(&format!("{}: action {action}, value {}", piece.words(level), piece.formula(level)));
    let mut body = format!("<g><title>{words}</title>\n");
    let shade = format!("fill=\"{fill}\" fill-opacity=\"0.10\"");
    body += &format!("<rect x=\"{x}\" y=\"{}\" width=\"{wide}\" height=\"{PLOT}\" {shade}/>\n", px(panel.top));
    body += &format!("<rect x=\"{x}\" y=\"{}\" width=\"{wide}\" height=\"{STRIP}\" fill=\"{fill}\"/>\n", px(strip));
    if !piece.is_none() {
        body += &segment((from, begin), (to, end), &fill, 2.6);
    }
    let number = piece.action.to_string();
    let labels = if piece.is_none() { ["none", "-"] } else { [action.as_str(), &number] };
    let fitting = labels.into_iter().find(|words| width(words, 11.0) + 12.0 < to - from);
    if let Some(words) = fitting {
        let style = format!("font-size=\"11\" fill=\"{}\"", on_colour(piece.action));
        body += &text((from + to) / 2.0, strip + 14.0, "middle", &style, words);
    }
    body + "</g>\n"
}

/// At a break point: a full dot where it belongs, an open one at the other side's limit if that differs, and a bracket. None
/// has no dot.
fn dots(left: &Piece, right: &Piece, panel: &Panel) -> String {
    let at = &right.from.at;
    let (x, owner, other) = if right.from.closed { (panel.x(at), right, left) } else { (panel.x(at), left, right) };
    let (mine, limit) = (owner.value(at), other.value(at));
    let circle = |value: &Fraction, action: u32, fill: &str| {
        let (x, y, stroke) = (px(x), px(panel.y(value)), colour(action));
        format!("<circle cx=\"{x}\" cy=\"{y}\" r=\"3.6\" fill=\"{fill}\" stroke=\"{stroke}\" stroke-width=\"1.6\"/>\n")
    };
    let mut body = String::new();
    if !other.is_none() && (owner.is_none() || limit != mine) {
        body += &circle(&limit, other.action, "#FFFFFF");
    }
    if !owner.is_none() {
        body += &circle(&mine, owner.action, &colour(owner.action));
    }
    let (top, bottom) = (px(panel.strip() - 2.0), px(panel.strip() + STRIP + 2.0));
    let tip = px(if right.from.closed { x + 5.0 } else { x - 5.0 });
    let x = px(x);
    body + &format!(
        "<path d=\"M{tip} {top}H{x}V{bottom}H{tip}\" fill=\"none\" stroke=\"{INK}\" stroke-width=\"1.6\"/>\n"
    )
}

/// The break points below the strip, in two rows; those that find no room are in the tool tips only.
fn labels(line: &Line, panel: &Panel) -> String {
    let (mut body, mut free) = (String::new(), [f64::MIN; 2]);
    let top = panel.strip() + STRIP;
    for (at, _) in line.breaks().zip(marked(line, panel)).filter(|(_, marked)| *marked) {
        let exact = at.to_string();
        let words = if exact.len() > 11 { at.decimal(4) } else { exact };
        let (x, half) = (panel.x(at), width(&words, 10.5) / 2.0 + 3.0);
        let Some(row) = (0..2).find(|&row| x - half > free[row]) else { continue };
        free[row] = x + half;
        body += &text(x, top + 14.0 + 12.0 * row as f64, "middle", "font-size=\"10.5\"", &words);
    }
    body
}
