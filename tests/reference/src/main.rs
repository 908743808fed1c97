//! A small command line over the second program.

use reference::widths::{LEVELS, NODES_MOST, NODE_WORDS, WORK_WORDS};
use reference::{
    find, import, name, program, prune, same, solve_with_room, to_new, to_old, validate, validate_old, value,
    with_deep_stack, worth, Reading, Refusal, State,
};
use std::str::FromStr;
use std::time::Instant;

const USAGE: &str = "reference validate MODEL
reference validate_old MODEL
reference solve MODEL HORIZON NODES
reference list MODEL HORIZON
reference print INPUT
reference value MODEL HORIZON STEPS MASK L1 .. L8 D
reference worth MODEL STEPS MASK L1 .. L8 D
reference name MODEL ACTION
reference find MODEL NAME
reference prune MODEL HORIZON NODES STAGE TURNS MULTIPLIER ..
reference to_new OLD FILE
reference to_old MODEL FILE
reference import TEXT FILE
reference same MODEL MODEL STATES SEED
MODEL is a file, TEXT one with a model written as text, INPUT one with what the listing program reads, TURNS digits, 1 high and 0 low, or - for none. Each prints
number and place first, and after a success solve: peak; value and worth: action, low word, high word; name: the name; find:
the action; prune: the plan's nodes before and after; to_new, to_old and import: the bytes written to FILE.
list and print print what the listing program prints; same prints 1 if both models have the same site, names, and rewards,
chances, next levels and end worth at so many random states, else 0.";

fn number<T: FromStr>(args: &[String], place: usize) -> T {
    let parsed = args.get(place).and_then(|arg| arg.parse().ok());
    parsed.unwrap_or_else(|| usage())
}

fn usage() -> ! {
    eprintln!("{USAGE}");
    std::process::exit(2)
}

fn state(args: &[String], place: usize) -> State {
    State {
        mask: number(args, place),
        nums: std::array::from_fn(|i| number(args, place + 1 + i)),
        d: number(args, place + 1 + LEVELS),
    }
}

fn show(reading: Reading) {
    let Reading { number, place, action, low, high } = reading;
    println!("{number} {place} {action} {low} {high}");
}

fn show_solve(model: &[u8], horizon: u32, nodes: usize) {
    let start = Instant::now();
    let done = solve_with_room(model, horizon, nodes);
    let time = start.elapsed().as_secs_f64();
    println!("{} {} {}", done.number, done.place, done.peak);
    if let [loading, actions @ ..] = &done.peaks[..] {
        let last = actions.iter().rposition(|&peak| peak > 0).map_or(0, |place| place + 1);
        eprintln!("peaks: loading {loading}, actions {:?}", &actions[..last]);
    }
    eprintln!("roots {:?}, {} rule calls, {} deep, {time:.3} s", done.stages, done.calls, done.deepest);
}

/// Solves in the largest tables, and cuts off one path in tables of so many nodes.
fn show_prune(model: &[u8], args: &[String]) {
    let (horizon, room, stage): (u32, usize, u32) = (number(args, 2), number(args, 3), number(args, 4));
    let mut done = solve_with_room(model, horizon, NODES_MOST);
    if done.number != 0 {
        return println!("{} {} 0 0", done.number, done.place);
    }
    let rows = done.nodes.len() / NODE_WORDS;
    done.nodes.resize(NODE_WORDS * room, 0);
    let turns: Vec<u8> =
        args.get(5).map_or("", |turns| turns).bytes().filter(|&b| b != b'-').map(|b| b.wrapping_sub(b'0')).collect();
    let multipliers: Vec<i32> = (6..args.len()).map(|place| number(args, place)).collect();
    match prune(model, &done.nodes, &done.stages, WORK_WORDS * room, stage, &turns, &multipliers) {
        Ok(left) => println!("0 0 {rows} {}", left.nodes.len() / NODE_WORDS),
        Err(refusal) => println!("{} {} 0 0", refusal.number, refusal.place),
    }
}

fn write(converted: Result<Vec<u8>, Refusal>, path: &str) {
    match converted {
        Ok(bytes) => match std::fs::write(path, &bytes) {
            Ok(()) => println!("0 0 {}", bytes.len()),
            Err(error) => fail(path, &error),
        },
        Err(refusal) => println!("{} {} 0", refusal.number, refusal.place),
    }
}

fn fail(path: &str, error: &std::io::Error) -> ! {
    eprintln!("{path}: {error}");
    std::process::exit(2)
}

fn main() {
    let args: Vec<String> = std::env::args().skip(1).collect();
    with_deep_stack(|| run(&args));
}

fn run(args: &[String]) {
    let (Some(command), Some(path)) = (args.first(), args.get(1)) else { usage() };
    let model = std::fs::read(path).unwrap_or_else(|error| fail(path, &error));
    match command.as_str() {
        "validate" => {
            let (number, place) = validate(&model);
            println!("{number} {place}");
        }
        "validate_old" => {
            let (number, place) = validate_old(&model);
            println!("{number} {place}");
        }
        "solve" => show_solve(&model, number(args, 2), number(args, 3)),
        "list" => {
            let input: Vec<u8> = std::iter::once(number(args, 2)).chain(model).collect();
            print!("{}", program(&input));
        }
        "print" => print!("{}", program(&model)),
        "value" => {
            let mut done = solve_with_room(&model, number(args, 2), NODES_MOST);
            if done.number != 0 {
                return println!("{} {} 0 0 0", done.number, done.place);
            }
            done.nodes.resize(NODE_WORDS * NODES_MOST, 0);
            show(value(&model, &done.nodes, &done.stages, number(args, 3), state(args, 4)));
        }
        "worth" => show(worth(&model, number(args, 2), state(args, 3))),
        "name" => match name(&model, number(args, 2)) {
            Ok(name) => println!("0 0 {}", String::from_utf8_lossy(name)),
            Err(refusal) => println!("{} {}", refusal.number, refusal.place),
        },
        "find" if args.len() == 3 => match find(&model, args[2].as_bytes()) {
            Ok(action) => println!("0 0 {action}"),
            Err(refusal) => println!("{} {} 0", refusal.number, refusal.place),
        },
        "prune" => show_prune(&model, args),
        "to_new" if args.len() == 3 => write(to_new(&model, usize::MAX), &args[2]),
        "to_old" if args.len() == 3 => write(to_old(&model, usize::MAX), &args[2]),
        "import" if args.len() == 3 => write(import(&model, usize::MAX), &args[2]),
        "same" if args.len() == 5 => {
            let other = std::fs::read(&args[2]).unwrap_or_else(|error| fail(&args[2], &error));
            println!("{}", u32::from(same(&model, &other, number(args, 3), number(args, 4))));
        }
        _ => usage(),
    }
}
