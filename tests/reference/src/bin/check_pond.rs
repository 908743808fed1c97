//! What `crates/check_pond` has to print, worked out by the second program.

use reference::check_hex::bytes;
use reference::diagram::{condition, divided, Id, Kind, Store};
use reference::model::{open, Model, Tree};
use reference::widths::{NODE_WORDS, NUMBERS};
use reference::{listing, solve_with_room};

/// Nodes that the tables have room for.
const ROOM: usize = 32;

/// Kind, x, y, z, and the place of the result.
const ROWS: &str = "00004 11405 20515 13406 22626 35605 11506 20616 13507 22727 36706";

/// The roots in order: of each action its reward and its next level.
fn load(model: &Model, store: &mut Store) -> Vec<Id> {
    let mut made: Vec<Id> = Vec::new();
    for tree in &model.trees {
        let id = match *tree {
            Tree::Leaf(nums) => store.leaf(nums, 0),
            Tree::Forbidden => store.none(),
            Tree::Condition { number, high, low } => {
                store.choose(condition(number.into()), made[high as usize], made[low as usize])
            }
            Tree::Test { linear, high, low } => store.choose(divided(linear), made[high as usize], made[low as usize]),
        };
        made.push(id.expect("room"));
    }
    let diagrams = (0..model.site.a).flat_map(|action| [model.reward(action), model.nexts(action)[0]]);
    diagrams.map(|tree| made[tree as usize]).collect()
}

fn operation(store: &mut Store, roots: &[Id], row: &[usize]) -> Id {
    let (x, y) = (roots.get(row[1]), roots.get(row[2]));
    let (x, y) = (*x.expect("a root"), *y.expect("a root"));
    let made = match row[0] {
        0 => store.leaf([0; NUMBERS], 0),
        1 => store.substitute(y, &[x]),
        2 => store.scale(1, x).and_then(|reward| store.sum(y, reward)).and_then(|sum| store.number(row[3] as Id, sum)),
        _ => store.best(x, y),
    };
    made.expect("room")
}

fn main() {
    let pond = bytes(
        "S 01 00 02A 01 P 20 01A 10 01000000 OOOKO 22 01A 01 10 OOOOK 32000000 10 OOOOK ffffffff 12 ffffffff OOOK 0a000000
        20 02A 10 01000000 OOOK f6ffffff 10 01000000 OOOKO 12 ffffffff OOOK 0a000000 22 02A 01 ff",
    );
    let Ok(model) = open(&pond, None, None) else { panic!("the pond is accepted") };
    let mut store = Store::new(ROOM);
    let mut roots = load(&model, &mut store);
    println!("0 {} loaded, roots {} ", store.count(), roots.len());
    let mut peak = store.count();
    for row in ROWS.split(' ') {
        let row: Vec<usize> = row.bytes().map(|b| (b - b'0').into()).collect();
        store.keep(roots.iter_mut());
        let made = operation(&mut store, &roots, &row);
        roots.truncate(row[4]);
        roots.push(made);
        peak = peak.max(store.count());
        print!("0 {} {peak} : ", store.count());
        let (node, label) = (store.node(made), store.label(made));
        let (kind, low) = if label.kind == Kind::Leaf { (0, 0) } else { (label.kind as i64, node.low) };
        print!("{kind} ");
        label.nums.iter().for_each(|x| print!("{x} "));
        println!("{} {low} ", node.high);
    }
    let done = solve_with_room(&pond, 2, ROOM);
    let text = listing(&pond, 2, &done.nodes, &done.stages, usize::MAX, 0);
    println!("0 0 listed");
    print!("{}", text.expect("a listing"));
    println!("{} nodes, peak {peak} ", done.nodes.len() / NODE_WORDS);
    assert_eq!(peak, done.peak as usize);
}
