//! The verbs: each reads its words, makes the library's calls and writes what it has to say.

use crate::arguments::Arguments;
use crate::lead;
use crate::library::{self, Refusal};
use crate::model::{Model, Written};
use crate::picture::{Picture, Stopped};
use crate::progress::Teller;
use crate::prune::{self, Progress, Pruned, Sent, Watch};
use crate::refusals::{explain, Subject};
use crate::solved::{Solved, Unsolved};
use crate::state::{Given, State};
use crate::widths::{LEVELS, LOADING, MODEL_BYTES_MOST, NODES_MOST, NO_ACTION};
use crate::{help, importing, show, text, words, Failure};
use std::io::{Read, Write};
use std::time::{Duration, Instant};

type Done = Result<(), Failure>;

pub fn run(given: &[String], out: &mut Vec<u8>) -> Done {
    let Some(first) = given.first() else {
        return Err(Failure::Usage("a model and a horizon are needed, or a verb".to_string()));
    };
    let rest = &given[1..];
    match first.as_str() {
        "check" => verb(rest, &["--raw"], help::CHECK, out, check),
        "show" => verb(rest, &["--raw", "--text"], help::SHOW, out, show),
        "find" => verb(rest, &["--raw"], help::FIND, out, find),
        "picture" => verb(rest, &PICTURE_OPTIONS, help::PICTURE, out, picture),
        "--to-new" => verb(rest, &["--raw"], help::TO_NEW, out, to_new),
        "--to-old" => verb(rest, &["--raw"], help::TO_OLD, out, to_old),
        "--import" => verb(rest, &["--raw"], help::IMPORT, out, import),
        "--peaks" => verb(rest, &["--nodes", "--raw"], help::PEAKS, out, peaks),
        "prune" | "--prune" => verb(rest, &PRUNE_OPTIONS, help::PRUNE, out, prune),
        "--sure" => verb(rest, &["--at", "--raw"], help::SURE, out, sure),
        "--two" => verb(rest, &["--at", "--and", "--nodes", "--raw"], help::TWO, out, two),
        "help" => helped(rest, out),
        _ => verb(given, &["--at", "--nodes", "--raw", "--page"], help::PLAN, out, plan),
    }
}

const PRUNE_OPTIONS: [&str; 4] = ["--nodes", "--seconds", "--paths", "--raw"];

const PICTURE_OPTIONS: [&str; 7] = ["--along", "--at", "--nodes", "-o", "--html", "--table", "--raw"];

/// `help VERB` is `VERB --help`.
fn helped(rest: &[String], out: &mut Vec<u8>) -> Done {
    let asked: Vec<String> = rest.iter().take(1).cloned().chain(["--help".to_string()]).collect();
    match asked[0].as_str() {
        "help" => run(&asked[1..], out),
        _ => run(&asked, out),
    }
}

fn verb(
    given: &[String],
    known: &[&str],
    help: &str,
    out: &mut Vec<u8>,
    run: fn(&Arguments, &mut Vec<u8>) -> Done,
) -> Done {
    let arguments = Arguments::read(given, known).map_err(Failure::Usage)?;
    if arguments.help {
        out.extend(help.as_bytes());
        return Ok(());
    }
    run(&arguments, out)
}

fn usage(words: &str) -> Failure {
    Failure::Usage(words.to_string())
}

/// A model's file, and one byte more than a model may have at most, so that a longer one is refused and not cut.
fn load(path: &str) -> Result<Vec<u8>, Failure> {
    let mut model = Vec::new();
    let file = std::fs::File::open(path);
    let read = file.and_then(|file| file.take(MODEL_BYTES_MOST as u64 + 1).read_to_end(&mut model));
    read.map(|_| model).map_err(|error| Failure::Around(format!("cannot read {path}: {error}")))
}

/// The model of a file, in bytes or written as text.
fn load_model(path: &str, arguments: &Arguments, out: &mut Vec<u8>) -> Result<Vec<u8>, Failure> {
    let file = load(path)?;
    if !importing::is_text(&file) {
        return Ok(file);
    }
    library::import(&file)
        .map_err(|refused| refuse_with(arguments, refused, out, || importing::explain(refused, path, &file)))
}

/// The refusal as the call wants it.
fn refuse(arguments: &Arguments, refused: Refusal, subject: &Subject, out: &mut Vec<u8>) -> Failure {
    refuse_with(arguments, refused, out, || explain(refused, subject))
}

fn refuse_with(arguments: &Arguments, refused: Refusal, out: &mut Vec<u8>, words: impl FnOnce() -> String) -> Failure {
    if arguments.raw {
        out.extend(format!("R {} {}\n", refused.number, refused.place).into_bytes());
        return Failure::Raw;
    }
    Failure::Refused(words())
}

fn subject<'a>(path: &'a str, model: &'a [u8]) -> Subject<'a> {
    Subject { path, model: Model::new(model), nodes: None, state: None }
}

fn one_model<'a>(arguments: &'a Arguments, out: &mut Vec<u8>) -> Result<(&'a str, Vec<u8>), Failure> {
    match arguments.words.as_slice() {
        [path] => Ok((path, load_model(path, arguments, out)?)),
        _ => Err(usage("one model is needed")),
    }
}

fn check(arguments: &Arguments, out: &mut Vec<u8>) -> Done {
    let (path, model) = one_model(arguments, out)?;
    library::validate(&model).map_err(|refused| refuse(arguments, refused, &subject(path, &model), out))?;
    if arguments.raw {
        out.extend(b"R 0 0\n");
        return Ok(());
    }
    let site = Written::read(Model::new(&model)).site().map(words::site).unwrap_or_default();
    out.extend(format!("{path}: accepted\n  {site}, {}\n", words::count(model.len(), "byte")).bytes());
    Ok(())
}

fn show(arguments: &Arguments, out: &mut Vec<u8>) -> Done {
    let (path, model) = one_model(arguments, out)?;
    if arguments.text {
        library::validate(&model).map_err(|refused| refuse(arguments, refused, &subject(path, &model), out))?;
        let text = text::text(&Written::read(Model::new(&model)));
        out.extend(text.map_err(|why| Failure::Around(format!("{path} cannot be written as text: {why}")))?.bytes());
        return Ok(());
    }
    out.extend(show::show(Model::new(&model)).bytes());
    library::validate(&model).map_err(|refused| refuse(arguments, refused, &subject(path, &model), out))
}

#[cfg(planner_find)]
fn find(arguments: &Arguments, out: &mut Vec<u8>) -> Done {
    let [path, name] = arguments.words.as_slice() else { return Err(usage("a model and a name are needed")) };
    let model = load_model(path, arguments, out)?;
    let found = library::find(&model, name.as_bytes());
    let action = found.map_err(|refused| refuse(arguments, refused, &subject(path, &model), out))?;
    out.extend(format!("{action}\n").bytes());
    Ok(())
}

#[cfg(not(planner_find))]
fn find(_: &Arguments, _: &mut Vec<u8>) -> Done {
    Err(Failure::Around("this library does not find actions by name".to_string()))
}

fn to_new(arguments: &Arguments, out: &mut Vec<u8>) -> Done {
    let [from, to] = arguments.words.as_slice() else {
        return Err(usage("an old model and a file for the new one are needed"));
    };
    let old = load(from)?;
    let subject = Subject { model: Model::old(&old), ..subject(from, &old) };
    let written = library::to_new(&old).map_err(|refused| refuse(arguments, refused, &subject, out))?;
    keep(to, &written, out)
}

fn to_old(arguments: &Arguments, out: &mut Vec<u8>) -> Done {
    let [from, to] = arguments.words.as_slice() else {
        return Err(usage("a model and a file for the old one are needed"));
    };
    let model = load_model(from, arguments, out)?;
    let written = library::to_old(&model).map_err(|refused| refuse(arguments, refused, &subject(from, &model), out))?;
    keep(to, &written, out)
}

/// The bytes that a text becomes.
fn import(arguments: &Arguments, out: &mut Vec<u8>) -> Done {
    let [from, to] = arguments.words.as_slice() else {
        return Err(usage("a text and a file for its model are needed"));
    };
    let text = load(from)?;
    let written = library::import(&text)
        .map_err(|refused| refuse_with(arguments, refused, out, || importing::explain(refused, from, &text)))?;
    keep(to, &written, out)
}

/// A model to a file that is not there yet: what is there stays, so that no model is lost by a slip.
fn keep(path: &str, model: &[u8], out: &mut Vec<u8>) -> Done {
    let unwritten = |error: std::io::Error| match error.kind() {
        std::io::ErrorKind::AlreadyExists => Failure::Around(format!(
            "{path} is there already and stays as it is: give another name, or remove it first"
        )),
        _ => Failure::Around(format!("cannot write {path}: {error}")),
    };
    let mut file = std::fs::File::create_new(path).map_err(unwritten)?;
    file.write_all(model).map_err(|error| {
        // What is half written is no model.
        let _ = std::fs::remove_file(path);
        unwritten(error)
    })?;
    out.extend(format!("{path}: written, {}\n", words::count(model.len(), "byte")).bytes());
    Ok(())
}

/// The words of a call that solves: model, horizon, and a state in numbers or with --at.
pub struct Asked<'a> {
    pub arguments: &'a Arguments,
    pub path: &'a str,
    pub model: Vec<u8>,
    pub horizon: u32,
}

impl<'a> Asked<'a> {
    pub fn read(arguments: &'a Arguments, out: &mut Vec<u8>) -> Result<Asked<'a>, Failure> {
        let [path, horizon, ..] = arguments.words.as_slice() else {
            return Err(usage("a model and a horizon are needed"));
        };
        let horizon =
            horizon.parse().map_err(|_| Failure::Usage(format!("the horizon '{horizon}' is no number of steps")))?;
        Ok(Asked { arguments, path, model: load_model(path, arguments, out)?, horizon })
    }

    pub fn solve(&self, state: Option<&State>, out: &mut Vec<u8>) -> Result<Solved<'_>, Failure> {
        Solved::solve(&self.model, self.horizon, self.arguments.nodes).map_err(|unsolved| match unsolved {
            Unsolved::Refused(refused, size) => self.refuse(refused, Some((size, size < NODES_MOST)), state, out),
            Unsolved::NoThread(error) => {
                Failure::Around(format!("no thread with the stack that solving needs: {error}"))
            }
        })
    }

    pub fn refuse(
        &self,
        refused: Refusal,
        nodes: Option<(usize, bool)>,
        state: Option<&State>,
        out: &mut Vec<u8>,
    ) -> Failure {
        let subject = Subject { path: self.path, model: Model::new(&self.model), nodes, state };
        refuse(self.arguments, refused, &subject, out)
    }
}

/// The state of a call, if it has one. In numbers it has a numerator for each level of the site, or for all that there are.
fn state(arguments: &Arguments, numbers: &[String], model: &[u8]) -> Result<Option<State>, Failure> {
    let levels = || Written::read(Model::new(model)).site().map_or(LEVELS, |site| site.levels);
    match (&arguments.at, numbers.len()) {
        (None, 0) => Ok(None),
        (Some(at), 0) => Given::read(at).and_then(|given| given.state()).map(Some).map_err(Failure::Usage),
        (None, count) if count == LEVELS + 2 || count > 2 && count == levels() + 2 => {
            State::read(numbers).map(Some).map_err(Failure::Usage)
        }
        (Some(_), _) => Err(usage("the state is given twice, or there is a word too many")),
        _ => Err(Failure::Usage(format!(
            "a state has a mask, a numerator for each of the site's levels or for all {LEVELS}, and a denominator"
        ))),
    }
}

fn plan(arguments: &Arguments, out: &mut Vec<u8>) -> Done {
    let asked = Asked::read(arguments, out)?;
    let state = state(arguments, &arguments.words[2..], &asked.model)?;
    if arguments.page && state.is_none() {
        return Err(usage("--page is for a state: --at STATE"));
    }
    let solved = asked.solve(state.as_ref(), out)?;
    let read = match &state {
        None => solved.listing(),
        Some(state) if arguments.page => page(&solved, state)?,
        Some(state) => values(&solved, state),
    };
    match read {
        Ok(text) => out.extend(text),
        Err(refused) => return Err(asked.refuse(refused, None, state.as_ref(), out)),
    }
    Ok(())
}

#[cfg(planner_page)]
fn page(solved: &Solved, state: &State) -> Result<Result<Vec<u8>, Refusal>, Failure> {
    Ok(solved.page(state))
}

#[cfg(not(planner_page))]
fn page(_: &Solved, _: &State) -> Result<Result<Vec<u8>, Refusal>, Failure> {
    Err(Failure::Around("this library does not write pages".to_string()))
}

/// Places of a decimal.
const PLACES: usize = 6;

/// For each number of steps the value, exactly and as a decimal, and the action; or that it is none.
fn values(solved: &Solved, state: &State) -> Result<Vec<u8>, Refusal> {
    let mut rows = vec![["steps", "value", "decimal", "action"].map(str::to_string)];
    for steps in 1..=solved.horizon {
        let (value, action) = solved.value(steps, state)?;
        let [exact, decimal] = match action {
            NO_ACTION => ["none", "-"].map(str::to_string),
            _ => [value.to_string(), value.decimal(PLACES)],
        };
        rows.push([steps.to_string(), exact, decimal, solved.action(action)?]);
    }
    let width = |column: usize| rows.iter().map(|row| row[column].len()).max().unwrap_or(0);
    let (value, decimal) = (width(1), width(2));
    let mut text = format!("at {}\n", state.words(solved.site.levels, solved.site.conditions));
    for row in &rows {
        text += &format!("{:>5}  {:>value$}  {:>decimal$}  {}\n", row[0], row[1], row[2], row[3]);
    }
    Ok(text.into_bytes())
}

/// Two sites that share nothing, as one: for each number of steps the total and both actions.
fn two(arguments: &Arguments, out: &mut Vec<u8>) -> Done {
    let [one, other, steps] = arguments.words.as_slice() else {
        return Err(usage("two models and a number of steps are needed"));
    };
    let steps: u32 = steps.parse().map_err(|_| Failure::Usage(format!("'{steps}' is no number of steps")))?;
    let mut asked = |path| Ok(Asked { arguments, path, model: load_model(path, arguments, out)?, horizon: steps });
    let (first, second) = (asked(one)?, asked(other)?);
    let state = |at: &Option<String>| Given::read(at.as_deref().unwrap_or("")).and_then(|given| given.state());
    let (at, and) = (state(&arguments.at).map_err(Failure::Usage)?, state(&arguments.and).map_err(Failure::Usage)?);
    let (at, and) = at.together(&and).ok_or(usage("over one denominator the levels do not fit 32 bits"))?;
    let solved = first.solve(Some(&at), out)?;
    let others = second.solve(Some(&and), out)?;
    // A refusal of one side is told of it; what is left concerns both.
    solved.value(1, &at).map_err(|refused| first.refuse(refused, None, Some(&at), out))?;
    others.value(1, &and).map_err(|refused| second.refuse(refused, None, Some(&and), out))?;
    let text = total_lines((&solved, &at), (&others, &and)).map_err(|refused| {
        let path = format!("{one} and {other}");
        refuse(arguments, refused, &Subject { path: &path, ..subject(one, &first.model) }, out)
    })?;
    out.extend(text.bytes());
    Ok(())
}

fn total_lines((one, at): (&Solved, &State), (two, and): (&Solved, &State)) -> Result<String, Refusal> {
    let mut rows = vec![["steps", "total", "decimal", "first", "second"].map(str::to_string)];
    for steps in 1..=one.horizon {
        let (total, actions) = one.total(steps, at, two, and)?;
        let [exact, decimal] = match actions {
            [NO_ACTION, NO_ACTION] => ["none", "-"].map(str::to_string),
            _ => [total.to_string(), total.decimal(PLACES)],
        };
        rows.push([steps.to_string(), exact, decimal, one.action(actions[0])?, two.action(actions[1])?]);
    }
    let words = |solved: &Solved, state: &State| state.words(solved.site.levels, solved.site.conditions);
    let width = |column: usize| rows.iter().map(|row| row[column].len()).max().unwrap_or(0);
    let (total, decimal, first) = (width(1), width(2), width(3));
    let mut text = format!("the first at {}\nthe second at {}\n", words(one, at), words(two, and));
    for row in &rows {
        text += &format!("{:>5}  {:>total$}  {:>decimal$}  {:first$}  {}\n", row[0], row[1], row[2], row[3], row[4]);
    }
    Ok(text)
}

/// The needed nodes of loading and of each action, and their share of the largest of these, to the nearest percent.
fn peaks(arguments: &Arguments, out: &mut Vec<u8>) -> Done {
    let asked = Asked::read(arguments, out)?;
    if arguments.words.len() > 2 {
        return Err(usage("peaks are those of a model and a horizon: there is a word too many"));
    }
    let solved = asked.solve(None, out)?;
    let text = peak_lines(&solved).map_err(|refused| asked.refuse(refused, None, None, out))?;
    out.extend(text.bytes());
    Ok(())
}

fn peak_lines(solved: &Solved) -> Result<String, Refusal> {
    let largest = u64::from(solved.peak);
    let width = largest.to_string().len().max("peak".len());
    let mut text = format!("{:>width$}  share  of\n", "peak");
    for (word, &peak) in (0..).zip(&solved.peaks[..=solved.site.actions]) {
        let of = if word == LOADING { "loading".to_string() } else { solved.action(word)? };
        let share = (200 * u64::from(peak) + largest) / (2 * largest);
        text += &format!("{peak:>width$}  {share:>3} %  {of}\n");
    }
    Ok(text)
}

/// Seconds that paths are looked for, where the call does not say.
const SECONDS: u64 = 60;

/// How many nodes the plan had, and has without the paths that no state can take.
fn prune(arguments: &Arguments, out: &mut Vec<u8>) -> Done {
    let asked = Asked::read(arguments, out)?;
    if arguments.words.len() > 2 {
        return Err(usage("paths are those of a model and a horizon: there is a word too many"));
    }
    let solved = asked.solve(None, out)?;
    let (seconds, mut teller) = (arguments.seconds.unwrap_or(SECONDS), Teller::new());
    let horizon = solved.horizon;
    let mut tell = |progress: &Progress| teller.say(|| progress_words(progress, horizon));
    let watch = Watch { until: Instant::now() + Duration::from_secs(seconds), tell: &mut tell };
    let pruned = prune::prune(&solved, arguments.nodes, watch);
    let pruned = pruned.map_err(|refused| asked.refuse(refused, None, None, out))?;
    if arguments.paths {
        out.extend(pruned.paths.iter().flat_map(|path| path_line(path).into_bytes()));
    }
    out.extend(pruned_lines(&pruned, seconds).bytes());
    Ok(())
}

fn progress_words(progress: &Progress, horizon: usize) -> String {
    let Progress { stage, paths, nodes } = progress;
    format!("stage {stage} of {horizon}, {} cut off, {}", words::count(*paths, "path"), words::count(*nodes, "node"))
}

/// A path as it is sent: `P stage turns multipliers`.
fn path_line(path: &Sent) -> String {
    let turns: String = path.turns.iter().map(u8::to_string).collect();
    let multipliers: String = path.multipliers.iter().map(|multiplier| format!(" {multiplier}")).collect();
    format!("P {} {turns}{multipliers}\n", path.stage)
}

fn pruned_lines(pruned: &Pruned, seconds: u64) -> String {
    let paths = |count: usize| words::count(count, "path");
    let width = pruned.had.all.max(pruned.has.all).to_string().len().max("had".len());
    let mut text = format!("stage  {:>width$}  {:>width$}\n", "had", "has");
    for (stage, (had, has)) in (1..).zip(pruned.had.stages.iter().zip(&pruned.has.stages)) {
        text += &format!("{stage:>5}  {had:>width$}  {has:>width$}\n");
    }
    text += &format!("the plan had {} and has {}\n", words::count(pruned.had.all, "node"), pruned.has.all);
    text += &format!("{} cut off that no state can take\n", paths(pruned.paths.len()));
    if pruned.left.wide > 0 {
        text += &format!("{} left alone: the smallest multipliers do not fit 32 bits\n", paths(pruned.left.wide));
    }
    if pruned.left.full > 0 {
        text += &format!("{} left alone: the tables have no room for the copied nodes\n", paths(pruned.left.full));
    }
    if !pruned.whole {
        let time = words::count(seconds as usize, "second");
        text += &format!("ended after {time}: not all paths were looked at\n");
    }
    text
}

/// The best action at a state, whether it stays so, and by how much it leads.
fn sure(arguments: &Arguments, out: &mut Vec<u8>) -> Done {
    let [change, path, steps, numbers @ ..] = arguments.words.as_slice() else {
        return Err(usage("a change of rewards, a model, a number of steps and a state are needed"));
    };
    let change: i32 =
        change.parse().map_err(|_| Failure::Usage(format!("the change '{change}' is no whole number of 32 bits")))?;
    let steps: u32 = steps.parse().map_err(|_| Failure::Usage(format!("'{steps}' is no number of steps")))?;
    let model = load_model(path, arguments, out)?;
    let Some(state) = state(arguments, numbers, &model)? else { return Err(usage("a state is needed: --at STATE")) };
    let asked = Subject { state: Some(&state), ..subject(path, &model) };
    let lines = sure_lines(&model, steps, &state, change).map_err(|refused| refuse(arguments, refused, &asked, out))?;
    out.extend(lines.bytes());
    Ok(())
}

fn sure_lines(model: &[u8], steps: u32, state: &State, change: i32) -> Result<String, Refusal> {
    let is_sure = library::sure(model, steps, state, change)?;
    let site = Written::read(Model::new(model)).site().expect("an accepted model has a site");
    let mut text = format!("at {}\n", state.words(site.levels, site.conditions));
    let Some(lead) = lead::lead(model, steps, state)? else { return Ok(text + "none: not sure\n") };
    assert_eq!(lead.action, library::worth(model, steps, state)?.action, "the desk's best action is the library's");
    let name = library::name(model, lead.action)?;
    text += format!("{} {name}", lead.action).trim_end();
    text += if is_sure { ": sure\n" } else { ": not sure\n" };
    text += &match lead.next {
        Some(next) => format!("it leads the next action by {}\n", &lead.value - &next),
        None => "no other action has a value\n".to_string(),
    };
    Ok(text)
}

fn picture(arguments: &Arguments, out: &mut Vec<u8>) -> Done {
    let asked = Asked::read(arguments, out)?;
    if arguments.words.len() > 2 || arguments.along.is_empty() {
        return Err(usage("a picture needs a model, a horizon and --along LEVEL"));
    }
    if arguments.table == arguments.output.is_some() {
        return Err(usage("a picture needs -o FILE, or --table for its numbers"));
    }
    let given = Given::read(arguments.at.as_deref().unwrap_or("")).map_err(Failure::Usage)?;
    // The library says whether the state is one of the model's; the free levels are 0 in it.
    let state = given.state().map_err(Failure::Usage)?;
    let solved = asked.solve(Some(&state), out)?;
    solved.value(1, &state).map_err(|refused| asked.refuse(refused, None, Some(&state), out))?;
    let written =
        Picture::new(&solved, asked.path, given, &arguments.along).and_then(|mut p| write(&mut p, arguments, out));
    written.map_err(|stopped| match stopped {
        Stopped::Usage(words) => Failure::Usage(words),
        Stopped::Around(words) => Failure::Around(words),
        Stopped::Refused(refused) => asked.refuse(refused, None, Some(&state), out),
    })
}

/// The numbers as text, or the drawing to its file.
fn write(picture: &mut Picture, arguments: &Arguments, out: &mut Vec<u8>) -> Result<(), Stopped> {
    let Some(path) = &arguments.output else {
        for mask in picture.settings(arguments.html) {
            out.extend(picture.table(mask)?.bytes());
        }
        return Ok(());
    };
    let first = picture.settings(false)[0];
    let text = if arguments.html { picture.html()? } else { picture.svg(first)? };
    std::fs::write(path, text).map_err(|error| Stopped::Around(format!("cannot write {path}: {error}")))?;
    let (compared, too_fine) = picture.compared;
    let too_fine = if too_fine > 0 { format!(", {too_fine} too fine to be a state") } else { String::new() };
    let points = words::count(compared, "point");
    out.extend(format!("{path}: written; {points} read back from the tables{too_fine}\n").bytes());
    Ok(())
}
