//! Refusals in words: what stands at their place, the rule it breaks and what may help.

use crate::library::Refusal;
use crate::model::{command_at, Command, Diagram, Item, Linear, Model, Site, Unread, Written};
use crate::state::State;
use crate::widths::*;
use crate::words;

/// What was asked about, as far as the words of a refusal need it.
pub struct Subject<'a> {
    pub path: &'a str,
    pub model: Model<'a>,
    /// The nodes of the tables, and whether more can be had.
    pub nodes: Option<(usize, bool)>,
    pub state: Option<&'a State>,
}

/// A rule, and advice.
type Told = (String, String);

fn told(rule: impl Into<String>, advice: impl Into<String>) -> Told {
    (rule.into(), advice.into())
}

/// The lines that are printed for a refusal.
pub fn explain(refused: Refusal, subject: &Subject) -> String {
    let Refusal { number, place } = refused;
    let mut text = format!("plan: {}: refusal {number}, place {place}\n", subject.path);
    let offset = place as usize;
    if number <= refusal::AFTER_END && offset <= subject.model.len() {
        text += &format!("  there:  {}\n", there(subject.model, offset));
    }
    let (rule, advice) = match number {
        ..=refusal::AFTER_END => of_model(number, subject.model, offset),
        refusal::LIMITS | refusal::ROOM => of_solve(refused, subject),
        refusal::STATE => of_state(subject),
        refusal::NAMELESS | refusal::AMBIGUOUS => of_name(number, subject.model),
        refusal::NO_FIT => of_fit(subject.model),
        refusal::SIZE => of_size(subject.model),
        _ => of_call(number),
    };
    text += &format!("  rule:   {rule}\n  advice: {advice}\n");
    text
}

/// What the bytes at an offset are.
fn there(model: Model, offset: usize) -> String {
    let bytes = words::bytes_at(model, offset);
    match command_at(model, offset) {
        Ok((command, _)) => format!("byte {offset}: {bytes}: {}", words::command(&command, &Written::read(model))),
        Err(Unread::Unknown(_)) => format!("byte {offset}: {bytes}: no command"),
        Err(Unread::Short(whole)) => format!("byte {offset}: {bytes}: a command of {whole} bytes, cut"),
        Err(Unread::NoEnd) => format!("the end of the file, {}", words::count(model.len(), "byte")),
    }
}

fn of_model(number: u32, model: Model, offset: usize) -> Told {
    match number {
        refusal::FIRST if offset == 0 => told(
            format!("the first command is site ({:02X})", model.form.site),
            "is the file a model? One begins with its site: levels, conditions, actions, weight total",
        ),
        refusal::FIRST => told("site is the first command and no other", "leave this second site out"),
        refusal::SHORT => short(model, offset),
        refusal::UNKNOWN => unknown(model, offset),
        refusal::RULE => rule_broken(model, offset),
        refusal::STACK => stack(model, offset),
        refusal::TWICE => twice(model, offset),
        refusal::MISSING => missing(model, offset),
        _ => told(
            "nothing stands behind the end command",
            format!("leave out what follows: {}", words::count(model.len() - offset, "byte")),
        ),
    }
}

fn short(model: Model, offset: usize) -> Told {
    match command_at(model, offset) {
        Err(Unread::Short(whole)) => {
            let lacking = words::count(offset + whole - model.len(), "byte");
            told("a command has all its bytes", format!("{lacking} more would make it whole: was the file cut?"))
        }
        _ => told("a model ends with the end command (FF)", "was the file cut? Else add the end command"),
    }
}

fn unknown(model: Model, offset: usize) -> Told {
    let before = Written::read(model.before(offset));
    let codes: Vec<String> = model.form.codes().map(|code| format!("{code:02X}")).collect();
    let (last, first) = codes.split_last().expect("a form has commands");
    let commands = format!("a command begins with {} or {last}", first.join(", "));
    if offset == 0 {
        let advice = match (model.is_old(), model.byte(0)) {
            (false, Some(code::OLD_SITE)) => {
                "it may be a model of the old form: './plan --to-new OLD NEW' makes a new one of it".to_string()
            }
            (true, Some(code::SITE)) => {
                "it may be a new model already; './plan --to-old NEW OLD' is the way back".to_string()
            }
            _ => format!("is the file a model? One begins with its site ({:02X})", model.form.site),
        };
        return told(commands, advice);
    }
    let last = last_before(model, offset).map_or(String::new(), |(place, command)| {
        format!("; the one before is at byte {place}: {}", words::command(&command, &before))
    });
    told(commands, format!("check the lengths of the commands before it{last}"))
}

fn last_before(model: Model, offset: usize) -> Option<(usize, Command)> {
    let (mut place, mut last) = (0, None);
    while place < offset {
        let (command, behind) = command_at(model, place).ok()?;
        last = Some((place, command));
        place = behind;
    }
    last
}

fn rule_broken(model: Model, offset: usize) -> Told {
    let written = Written::read(model);
    let (Ok((command, _)), Some(site)) = (command_at(model, offset), written.site()) else {
        return told("operands and diagrams keep to the rules", "see the rules for this command");
    };
    operand_broken(&command, site, model.form)
        .or_else(|| diagram_broken(written.items.iter().find(|item| item.offset == offset)?, model, site))
        .unwrap_or_else(|| told("operands and diagrams keep to the rules", "see the rules for this command"))
}

/// A number of the site that is out of its bounds.
fn bounded(what: &str, least: usize, most: usize, number: usize) -> Option<Told> {
    let advice = format!("it is {number} here: bring it within these bounds");
    (number < least || number > most).then(|| told(format!("the {what} is {least} to {most}"), advice))
}

/// An operand that the site has not.
fn of_site(what: &str, most: usize, number: usize) -> Option<Told> {
    let rule = match most {
        0 => format!("the site has no {what}s"),
        1 => format!("the site has {what} 1 alone"),
        most => format!("the site has {what}s 1 to {most}"),
    };
    let advice = format!("it is {number} here: name one that the site has, or give the site more");
    (number < 1 || number > most).then(|| told(rule, advice))
}

/// The first rule on operands that a command breaks.
fn operand_broken(command: &Command, site: Site, form: &Form) -> Option<Told> {
    let action = |number: usize| of_site("action", site.actions, number);
    match command {
        Command::Site(site) => bounded("number of levels", 1, form.levels, site.levels)
            .or_else(|| bounded("number of conditions", 0, CONDITIONS, site.conditions))
            .or_else(|| bounded("number of actions", 1, form.actions, site.actions))
            .or_else(|| bounded("weight total", 1, WEIGHT_MOST, site.weight)),
        Command::Leaf(linear) => beyond(linear, site),
        Command::Test(linear) => beyond(linear, site).or_else(|| idle(linear)),
        Command::Condition(number) => condition(*number, site),
        Command::Reward(number) => action(*number),
        Command::Chance(number, chosen) => action(*number).or_else(|| of_site("condition", site.conditions, *chosen)),
        Command::Next(number, level) => action(*number).or_else(|| of_site("level", site.levels, *level)),
        Command::Name(number, letters) => action(*number).or_else(|| {
            let bad = letters.iter().position(|letter| !(0x20..=0x7E).contains(letter))?;
            let rule = format!("a name has {LETTERS} bytes, each 20 to 7E");
            Some(told(rule, format!("its byte {} is {:02X}; fill up with spaces (20)", bad + 1, letters[bad])))
        }),
        Command::Forbidden | Command::EndWorth | Command::End => None,
    }
}

fn beyond(linear: &Linear, site: Site) -> Option<Told> {
    let levels = linear.coefficients.iter().enumerate().skip(site.levels);
    let (place, number) = levels.into_iter().find(|(_, &number)| number != 0)?;
    let rule = format!("coefficients beyond the site's {} are zero", words::count(site.levels, "level"));
    Some(told(rule, format!("that of L{} is {number} here: make it 0, or give the site more levels", place + 1)))
}

fn idle(linear: &Linear) -> Option<Told> {
    let idle = linear.coefficients.iter().all(|&number| number == 0);
    idle.then(|| {
        told("a test has some coefficient that is not zero", "a constant decides already: keep that branch alone")
    })
}

fn condition(number: usize, site: Site) -> Option<Told> {
    let n = site.conditions;
    let good = (1..=n).contains(&number) || (CONDITIONS + 1..=CONDITIONS + n).contains(&number);
    let first_next = CONDITIONS + 1;
    let rule = match n {
        0 => "a site without conditions has no condition command".to_string(),
        n => format!("a condition is 1 to {n} for now, {first_next} to {} for the next step", CONDITIONS + n),
    };
    let advice = format!("it is {number} here: name one that the site has, or give the site more");
    (!good).then(|| told(rule, advice))
}

/// The rule on diagrams that what takes this one breaks.
fn diagram_broken(item: &Item, model: Model, site: Site) -> Option<Told> {
    let diagram = item.diagram.as_ref()?;
    let next_step = |command: &Command| matches!(command, Command::Condition(number) if *number > CONDITIONS);
    if let Some(place) = first(diagram, &next_step).filter(|_| !matches!(item.command, Command::Next(..))) {
        let rule = "next-step conditions stand in next levels only";
        return Some(told(rule, format!("one is at byte {place}: ask for the condition now instead")));
    }
    let forbidden = |command: &Command| *command == Command::Forbidden;
    if let Some(place) = first(diagram, &forbidden).filter(|_| !matches!(item.command, Command::Reward(_))) {
        let rule = "forbidden leaves stand in rewards only";
        return Some(told(rule, format!("one is at byte {place}: forbid the action in its reward instead")));
    }
    let weight = |command: &Command| match command {
        Command::Leaf(linear) => {
            linear.coefficients.iter().any(|&number| number != 0)
                || !(0..=site.weight as i64).contains(&linear.constant)
        }
        _ => false,
    };
    let place = first(diagram, &weight).filter(|_| matches!(item.command, Command::Chance(..)))?;
    let rule = format!("the leaves of a chance are constants 0 to W, here {}", site.weight);
    let leaf = command_at(model, place).map(|(leaf, _)| words::command(&leaf, &Written::default())).unwrap_or_default();
    Some(told(rule, format!("at byte {place} is the {leaf}: give the weight, out of W, that the condition is yes")))
}

/// The offset of the first command of a diagram that is as asked.
fn first(diagram: &Diagram, asked: &dyn Fn(&Command) -> bool) -> Option<usize> {
    let below = diagram.branches.iter().flat_map(|both| both.iter()).filter_map(|branch| first(branch, asked));
    below.chain(asked(&diagram.command).then_some(diagram.offset)).min()
}

fn stack(model: Model, offset: usize) -> Told {
    let held = Written::read(model.before(offset)).left.len();
    if matches!(model.byte(offset), Some(code::LEAF | code::FORBIDDEN)) {
        let rule = format!("the stack holds at most {STACK_MOST} diagrams");
        return told(rule, "combine branches sooner: a test or condition right behind its high and low");
    }
    let needed = match model.byte(offset) {
        Some(code::CONDITION | code::TEST) => "low and then high",
        _ => "a diagram",
    };
    told(
        format!("this command takes {needed} off the stack"),
        format!("the stack holds {held} here: write what it takes before it"),
    )
}

fn twice(model: Model, offset: usize) -> Told {
    let written = Written::read(model);
    let rule = "a reward, chance, next level, end worth or name is given once";
    let here = command_at(model, offset).map(|(command, _)| command);
    let same = |item: &&Item| match (&item.command, here.as_ref()) {
        (Command::Name(first, _), Ok(Command::Name(second, _))) => first == second,
        (first, Ok(second)) => first == second,
        _ => false,
    };
    match written.items.iter().find(same).filter(|item| item.offset < offset) {
        Some(item) => told(rule, format!("it was given at byte {}: leave one of the two out", item.offset)),
        None => told(rule, "leave one of the two out"),
    }
}

fn missing(model: Model, offset: usize) -> Told {
    let written = Written::read(model);
    if let Some(diagram) = written.left.first() {
        let left = words::count(written.left.len(), "diagram");
        let advice = format!("{left} left over, the first with its last command at byte {}", diagram.offset);
        if absent(&written).is_empty() {
            return told("at the end the stack is empty", advice);
        }
    }
    let absent: Vec<String> = absent(&written).iter().map(|command| words::command(command, &written)).collect();
    let more = absent.len().saturating_sub(3);
    let more = if more > 0 { format!(" and {more} more") } else { String::new() };
    let listed: Vec<String> = absent.into_iter().take(3).collect();
    told(
        "every action has a reward, a chance for each condition and a next level for each level",
        format!("add before byte {offset}: {}{more}", listed.join(", ")),
    )
}

/// What a model does not give.
fn absent(written: &Written) -> Vec<Command> {
    let Some(site) = written.site() else { return Vec::new() };
    let mut wanted = Vec::new();
    for action in 1..=site.actions {
        wanted.push(Command::Reward(action));
        wanted.extend((1..=site.conditions).map(|condition| Command::Chance(action, condition)));
        wanted.extend((1..=site.levels).map(|level| Command::Next(action, level)));
    }
    wanted.retain(|command| written.items.iter().all(|item| item.command != *command));
    wanted
}

fn of_solve(refused: Refusal, subject: &Subject) -> Told {
    let stage = match refused.place {
        0 => "while the model is loaded".to_string(),
        stage => format!("in stage {stage}"),
    };
    if refused.number == refusal::LIMITS {
        let rule = format!("every number stays within 2^62 - 1; {stage} one does not");
        return told(rule, "take smaller coefficients and weights, or a shorter horizon");
    }
    let (nodes, more) = subject.nodes.unwrap_or((NODES_MOST, false));
    let advice = match more {
        true => format!("leave --nodes out, or give more, up to {NODES_MOST}"),
        false => "these are the largest tables: take a shorter horizon or a simpler model".to_string(),
    };
    told(format!("the needed nodes fit the tables; {stage} they exceed {nodes}"), advice)
}

fn of_state(subject: &Subject) -> Told {
    let site = Written::read(subject.model).site();
    let (Some(site), Some(state)) = (site, subject.state) else { return of_call(refusal::STATE) };
    if state.denominator < 1 {
        let advice = format!("it is {} here: a level's sign goes to its numerator", state.denominator);
        return told("the denominator is 1 or more", advice);
    }
    if u64::from(state.mask) >> site.conditions != 0 {
        let rule = format!("a state names conditions of the site only; it has {}", site.conditions);
        let most = site.conditions;
        let named = match most {
            0 => "name none".to_string(),
            1 => "name C1 only".to_string(),
            most => format!("name C1 to C{most} only"),
        };
        return told(rule, format!("the mask is {} here: {named}", state.mask));
    }
    let level = (site.levels..LEVELS).find(|&level| state.numerators[level] != 0).map_or(0, |level| level + 1);
    let rule = format!("levels beyond the site's {} are zero", words::count(site.levels, "level"));
    told(rule, format!("L{level} is not zero here: leave it out"))
}

fn of_name(number: u32, model: Model) -> Told {
    let written = Written::read(model);
    let actions = 1..=written.site().map_or(0, |site| site.actions);
    let names: Vec<String> =
        actions.filter_map(|action| Some(format!("{action} '{}'", written.name(action)?))).collect();
    let advice = match names.is_empty() {
        true => "the model names no action".to_string(),
        false => format!("the names are: {}", names.join(", ")),
    };
    match number {
        refusal::NAMELESS => told("some action carries the name", advice),
        _ => told("no more than one action carries the name", advice),
    }
}

fn of_size(model: Model) -> Told {
    let what = if model.is_old() { "a model of the old form" } else { "a model" };
    let rule = format!("{what} has at most {} bytes", model.form.model_bytes);
    told(rule, "is the file a model? Else write its diagrams shorter")
}

/// Why a model has no old form: levels, actions, a forbidden leaf, bytes.
fn of_fit(model: Model) -> Told {
    let site = Written::read(model).site();
    let fewer = |what: &str, most: usize, number: usize| {
        (number > most).then(|| {
            let rule = format!("a model of the old form has at most {most} {what}s");
            told(rule, format!("it has {number} here: keep the model as it is, or write one with fewer"))
        })
    };
    site.and_then(|site| fewer("level", OLD.levels, site.levels).or_else(|| fewer("action", OLD.actions, site.actions)))
        .or_else(|| {
            let place = forbidden_at(model)?;
            let rule = format!("the old form has no forbidden leaf ({:02X})", code::FORBIDDEN);
            Some(told(rule, format!("one is at byte {place}: keep the model as it is, or give a loss in its place")))
        })
        .unwrap_or_else(|| {
            let rule = format!("a model of the old form has at most {} bytes", OLD.model_bytes);
            let bytes = words::count(model.bytes_in(&OLD), "byte");
            told(rule, format!("it would have {bytes}: keep the model as it is, or write its diagrams shorter"))
        })
}

/// The offset of the first forbidden leaf.
fn forbidden_at(model: Model) -> Option<usize> {
    let mut offset = 0;
    while let Ok((command, behind)) = command_at(model, offset) {
        if command == Command::Forbidden {
            return Some(offset);
        }
        offset = behind;
    }
    None
}

fn of_call(number: u32) -> Told {
    match number {
        refusal::STEPS => {
            told(format!("the horizon is 1 to {STAGE_WORDS}"), "ask for fewer steps, and for one at least")
        }
        refusal::STATE => told("the state is one of the model's", "see its denominator, conditions and levels"),
        refusal::NODE => told("the tables are as solving leaves them", "solve again"),
        refusal::STAGE => told("the tables have the stage that is asked for", "solve with a longer horizon"),
        refusal::ACTION => told("the action is one of the site's", "see './plan show MODEL' for its actions"),
        refusal::BUFFER => told("the text fits its buffer", "take smaller tables, with --nodes"),
        refusal::NOT_SHOWN => told(
            "the multipliers show that no state can take the path",
            "the sum of p on high sides and -p on low sides has no coefficients, and a constant above 0",
        ),
        refusal::NO_PATH => told(
            "a path has a turn 0 or 1 at each node on its way, and a multiplier for each linear test",
            "compare it with the plan: './plan MODEL HORIZON' has the nodes",
        ),
        refusal::CHANGE => told("rewards move by 0 or more", "ask for a change that is not below zero"),
        refusal::SCALES => told(
            "two sites have one weight total W and their states one denominator",
            "write one of the models over the other's W: a chance w of W is 10 w of 10 W",
        ),
        _ => told("not known here", "see include/planner.h"),
    }
}
