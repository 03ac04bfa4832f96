//! Step rules that fight, what they fight against, what mends the sheet, and a search that found no room, in words. Rules are counted from
//! 0 here and from 1 in the words.

use crate::mends::Tried;
use crate::model::{Rule, Sheet};
use crate::plan::Trial;
use crate::proved::MOST_STATES;
use crate::story::count;
use crate::text::print;

/// What stands above the rules that fight, so many of them.
pub fn head(sheet: &Sheet, fighting: usize) -> String {
    match (fighting, sheet.steps.len()) {
        (1, 1) => "Its one step rule fights".to_string(),
        (1, of) => format!("1 of its {of} step rules fights"),
        (many, of) => format!("{many} of its {of} step rules fight"),
    }
}

/// What is said where no step rule fights.
pub fn none_to_blame(sheet: &Sheet) -> String {
    let blame = if sheet.steps.is_empty() { "It has no step rules" } else { "No step rule is to blame" };
    format!("{blame}; its limits, first rules and promises clash by themselves.")
}

/// The rules that fight, a line for each, and what is so of them; said only of what the proved check has accepted.
pub fn tell(sheet: &Sheet, chosen: &[usize]) -> String {
    let accepted = match chosen.len() {
        0 => return format!("{}\nThe proved check accepts this.\n", none_to_blame(sheet)),
        1 => "no endless run keeps this step rule with all limits, first rules and promises.".to_string(),
        many => {
            let all = format!("no endless run keeps these {many} step rules with all limits, first rules and promises");
            format!("{all},\nand each of the {many} is needed for that.")
        }
    };
    let rules = listed(sheet, chosen.iter().map(|&rule| Rule::Step(rule)));
    format!("{}:\n\n{rules}\nThe proved check accepts this: {accepted}{}\n", head(sheet, chosen.len()), others(sheet, chosen))
}

/// Rules one below the other, each with its number, its line and its text.
pub fn listed(sheet: &Sheet, rules: impl IntoIterator<Item = Rule>) -> String {
    rules.into_iter().map(|rule| format!("  {}: {}\n", print::numbered(sheet, rule), print::rule(sheet, rule))).collect()
}

/// What is said of the rules that do not fight here.
fn others(sheet: &Sheet, chosen: &[usize]) -> String {
    match sheet.steps.len() - chosen.len() {
        0 => String::new(),
        1 => " The other step rule has no part in it.".to_string(),
        many => format!(" The other {many} step rules have no part in it."),
    }
}

/// What the rules fight against: limits, first rules and promises, found by trials with the proved judge.
pub fn against(sheet: &Sheet, fighting: usize, tried: &Tried) -> String {
    let they = if fighting == 1 { "It fights" } else { "They fight" };
    let found = tried.yes.len() + tried.unknown.len();
    if found == 0 {
        let them = if fighting == 1 { "it" } else { "them" };
        return format!("{they} against nothing else: no endless run keeps {them} even without limits, first rules and promises.\n");
    }
    let mut told = match (fighting, found) {
        (0, 1) => "What cannot be met; without it, this clash is over:\n\n".to_string(),
        (0, _) => "What clashes; without any one of these, this clash is over:\n\n".to_string(),
        (_, 1) => format!("{they} against this; without it, this fight is over:\n\n"),
        (_, _) => format!("{they} against these; without any one of them, this fight is over:\n\n"),
    };
    told += &listed(sheet, tried.yes.iter().copied());
    for &rule in &tried.unknown {
        told += &format!("  {}: {}  (not known: without it there is no room)\n", print::numbered(sheet, rule), print::rule(sheet, rule));
    }
    match sheet.limits.len() + sheet.first.len() + sheet.promises.len() - found {
        0 => told,
        1 => told + "\nThe one other limit, first rule or promise has no part in it.\n",
        many => format!("{told}\nThe other {many} limits, first rules and promises have no part in it.\n"),
    }
}

/// Which single rules, left out of the whole sheet, let it be kept, by trials with the proved judge.
pub fn mends(sheet: &Sheet, tried: &Tried) -> String {
    let head = match (tried.yes.len(), tried.unknown.len()) {
        (0, 0) => return "No single rule mends the sheet: with any one rule left out, it still cannot be kept.\n".to_string(),
        (0, _) => "No single rule is known to mend the sheet.\n",
        (1, _) => "Left out of the whole sheet, this one rule mends it:\n\n",
        _ => "Left out of the whole sheet, any one of these mends it:\n\n",
    };
    let unknown = match tried.unknown.len() {
        0 => String::new(),
        _ => format!(
            "\nNot known of these, for without them there is no room to judge the sheet:\n\n{}",
            listed(sheet, tried.unknown.iter().copied())
        ),
    };
    format!("{head}{}{unknown}", listed(sheet, tried.yes.iter().copied()))
}

/// The words above the run that leaving out this rule allows.
pub fn without(sheet: &Sheet, rule: usize) -> String {
    format!("Without {}, the other rules that fight allow this run:\n\n", print::named(sheet, Rule::Step(rule)))
}

/// Where there was no room.
pub fn crowded(sheet: &Sheet, trial: &Trial) -> String {
    let more = format!("ore than {} can be reached.", count(MOST_STATES, "state"));
    let Some(rule) = trial.left_out else {
        return format!("there is no room to judge this sheet (answer 17). M{more}");
    };
    let dropped = match trial.dropped.len() {
        0 => String::new(),
        _ => format!(" and without {}, dropped before", numbers(&trial.dropped)),
    };
    format!(
        "this sheet cannot be kept, but there is no room to find the rules that fight (answer 17).\nWithout {}{dropped}, m{more}",
        print::named(sheet, Rule::Step(rule))
    )
}

/// Fewer rules that cannot be kept, where those that fight are not known.
pub fn narrowed(sheet: &Sheet, chosen: &[usize]) -> String {
    if chosen.len() == sheet.steps.len() {
        return String::new();
    }
    let perhaps = if chosen.len() > 1 { "; perhaps not all of them are needed" } else { "" };
    let head = format!("With {} of its {} step rules alone it cannot be kept, either{perhaps}:", chosen.len(), sheet.steps.len());
    format!("\n{head}\n\n{}", listed(sheet, chosen.iter().map(|&rule| Rule::Step(rule))))
}

/// Rules by their numbers, those in a row as `2 to 5`.
fn numbers(rules: &[usize]) -> String {
    let mut rows: Vec<(usize, usize)> = Vec::new();
    for &rule in rules {
        match rows.last_mut() {
            Some((_, last)) if *last + 1 == rule => *last = rule,
            _ => rows.push((rule, rule)),
        }
    }
    let rows = rows.iter().map(|&(first, last)| match last - first {
        0 => (first + 1).to_string(),
        1 => format!("{}, {}", first + 1, last + 1),
        _ => format!("{} to {}", first + 1, last + 1),
    });
    format!("step{} {}", if rules.len() == 1 { "" } else { "s" }, rows.collect::<Vec<_>>().join(", "))
}
