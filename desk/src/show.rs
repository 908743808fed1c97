//! A model's commands in words, one to a line with its offset: each item with its diagram below it.

use crate::model::{Command, Diagram, Model, Unread, Written};
use crate::words;

/// Deeper lines are not indented further; they say how deep they are.
const INDENTED_MOST: usize = 16;

pub fn show(model: Model) -> String {
    let written = Written::read(model);
    let mut text = String::new();
    for item in &written.items {
        line(&mut text, item.offset, 0, &words::command(&item.command, &written));
        if let Some(diagram) = &item.diagram {
            show_diagram(&mut text, diagram, 1, "");
        }
    }
    for diagram in &written.left {
        text += "        not taken by any command:\n";
        show_diagram(&mut text, diagram, 1, "");
    }
    stopped(&mut text, model, &written);
    text
}

fn line(text: &mut String, offset: usize, depth: usize, words: &str) {
    let deep = if depth > INDENTED_MOST { format!("[{depth}] ") } else { String::new() };
    *text += &format!("{offset:6}  {}{deep}{words}\n", "  ".repeat(depth.min(INDENTED_MOST)));
}

fn show_diagram(text: &mut String, diagram: &Diagram, depth: usize, before: &str) {
    let words = match &diagram.command {
        Command::Leaf(leaf) => words::linear(leaf),
        Command::Forbidden => "forbidden".to_string(),
        Command::Test(test) => format!("if {}", words::test(test)),
        Command::Condition(number) => format!("if {}", words::condition(*number)),
        other => format!("{other:?}"),
    };
    line(text, diagram.offset, depth, &format!("{before}{words}"));
    if let Some(both) = &diagram.branches {
        show_diagram(text, &both[0], depth + 1, "then ");
        show_diagram(text, &both[1], depth + 1, "else ");
    }
}

/// What stands where reading stopped, if that is not behind the end command with nothing more.
fn stopped(text: &mut String, model: Model, written: &Written) {
    let (stop, bytes) = (written.stop, words::bytes_at(model, written.stop));
    let words = match written.unread {
        Some(Unread::Unknown(_)) => format!("{bytes}: no command; what follows cannot be read"),
        Some(Unread::Short(whole)) => format!("{bytes}: a command of {whole} bytes, cut"),
        Some(Unread::NoEnd) => "the file ends without the end command".to_string(),
        None if stop == model.len() => return,
        None if matches!(written.items.last(), Some(item) if item.command == Command::End) => {
            format!("{} behind the end command", words::count(model.len() - stop, "byte"))
        }
        None => format!("{bytes}: takes diagrams that are not there; what follows is not read"),
    };
    line(text, stop, 0, &words);
}
