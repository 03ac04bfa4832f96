//! `clash FILE`: which step rules fight, against what, and which single rule mends the sheet? This command tries the rules with the proved
//! judge; that rules fight it puts to the proved check, and tells nothing as true that the check has not accepted.

use crate::answers::{NO_ROOM, REFUSED};
use crate::as_json;
use crate::brief;
use crate::bytes;
use crate::call::{Call, Choice};
use crate::input::{self, Source};
use crate::json::Json;
use crate::mends::{self, Tried};
use crate::model::{Rule, Sheet};
use crate::out::{Page, Progress};
use crate::plan::{self, plan, Plan, Stage, Trial};
use crate::proved::{self, Judged, Room};
use crate::story::{self, count, fight, run};
use crate::text::print;
use crate::verbs::Verb;

/// The verb.
pub const VERB: Verb = Verb {
    name: "clash",
    usage: "FILE",
    about: "say which step rules of a sheet fight, and what mends it",
    help: "Finds, for a sheet that cannot be kept, a few step rules that fight: with these rules and all limits, first
rules and promises no endless run is left, and each of them is needed for that. Then it tells what they fight
against, and which single rule of the whole sheet, left out by itself, would let it be kept. A sheet may have
other rules that fight, too: mend one of these, and ask again.

Rules are dropped from the last to the first wherever the rest still cannot be kept. That rules fight is told only
if the proved check accepts it; all else comes from trials with the proved judge. Where it takes longer than a
second, it tells how far it is.

  bin/sheet clash examples/clock.txt
  bin/sheet clash examples/clock.txt --out fight.txt

Exit status: 0 the sheet can be kept, 1 it cannot, and the rules that fight are told, 2 a bad sheet, file or call,
3 no room (over 16,384 states can be reached, with all of the step rules or with some of them dropped).
",
    files: (1, 1),
    choices: &[
        Choice { name: "--runs", value: None, about: "show, for each rule that fights, a sample run of the others" },
        Choice {
            name: "--out",
            value: Some("FILE"),
            about: "write the sheet with these rules alone: bytes if FILE ends in .sheet, else text; - prints it",
        },
        Choice { name: "--numbers", value: None, about: "only numbers: the answer (0, 12 or 17), then the rules that fight" },
        Choice { name: "--json", value: None, about: "the result as JSON, on one line; docs/GUIDE.md has the names" },
        Choice { name: "--all", value: None, about: "show long runs in full" },
    ],
    act,
};

fn act(call: &Call, page: &mut Page) -> Result<(), String> {
    if call.value("--out").is_some_and(|out| input::is_same_file(out, &call.files[0])) {
        return Err("--out would write over the sheet".to_string());
    }
    if call.has("--json") && call.has("--numbers") {
        return Err("--json and --numbers cannot both be given".to_string());
    }
    match input::sheet(&call.files[0], call, page.message_colour) {
        Ok(source) => search(&source, call, page),
        Err(trouble) => {
            if let (true, Some(answer)) = (call.has("--numbers"), trouble.answer) {
                numbers(answer, &[], page);
            }
            if call.has("--json") {
                page.print(&format!("{}\n", as_json::trouble(&input::shown(&call.files[0]), &trouble)));
            }
            page.trouble(&trouble);
        }
    }
    Ok(())
}

/// Looks for the rules that fight, and tells what was found.
fn search(source: &Source, call: &Call, page: &mut Page) {
    let (mut room, mut progress) = (Room::new(), Progress::new());
    let plan = plan(source, &mut room, &mut |stage| {
        progress.tell(page, || told(stage));
        true
    });
    match plan {
        Plan::Fight(chosen) => {
            progress.tell(page, || format!("clash: the proved check of {}", count(chosen.len(), "rule")));
            match room.check_clash(&source.bytes, &numbered(&chosen)) {
                0 => fought(source, &chosen, &mut room, &mut progress, call, page),
                answer => page.went_wrong(&source.name, &format!("the proved check answers {answer} to {:?}", numbered(&chosen))),
            }
        }
        Plan::Kept => kept(source, call, page),
        Plan::Crowded(trial) => crowded(source, &trial, &mut room, &mut progress, call, page),
        Plan::Stopped => page.went_wrong(&source.name, "the search ended by itself"),
    }
}

/// A line of progress.
fn told(stage: Stage) -> String {
    match stage {
        Stage::Dropping(rule, rules) => format!("clash: rule {rule} of {rules}, from the last to the first"),
        Stage::LeavingOut(rule, rules) => format!("clash: {} left; leaving out rule {rule} of {rules}", count(rules, "rule")),
    }
}

/// Rules by their numbers, counted from 1.
fn numbered(chosen: &[usize]) -> Vec<u32> {
    chosen.iter().map(|&rule| rule as u32 + 1).collect()
}

/// The answer, and the numbers of the rules that fight.
fn numbers(answer: u32, rules: &[u32], page: &mut Page) {
    let rules: String = rules.iter().map(|rule| format!(" {rule}")).collect();
    page.print(&format!("{answer}{rules}\n"));
}

/// Tells the rules that fight, which the proved check has accepted, and writes the sheet with only these.
fn fought(source: &Source, chosen: &[usize], room: &mut Room, progress: &mut Progress, call: &Call, page: &mut Page) {
    page.raise(REFUSED);
    if call.has("--numbers") {
        numbers(0, &numbered(chosen), page);
    } else if call.value("--out") != Some("-") {
        tell_fight(source, chosen, room, progress, call, page);
    }
    if let Some(file) = call.value("--out") {
        let reduced = source.sheet.with_steps(chosen);
        let as_bytes = std::path::Path::new(file).extension().is_some_and(|end| end == "sheet");
        page.write_to(file, &if as_bytes { bytes::write(&reduced) } else { print::print(&reduced).into_bytes() });
    }
}

/// The rules that fight at once, for that is known; then what they fight against, what mends the sheet, and the runs if they are wanted.
fn tell_fight(source: &Source, chosen: &[usize], room: &mut Room, progress: &mut Progress, call: &Call, page: &mut Page) {
    let sheet = &source.sheet;
    if !call.has("--json") {
        let verdict = page.colour.red("this sheet cannot be kept");
        page.print(&format!("{}: {verdict}. {}", source.name, fight::tell(sheet, chosen)));
    }
    let against = against(source, chosen, room, progress, page);
    let fighting = chosen.iter().map(|&rule| Rule::Step(rule)).chain(against.yes.clone()).chain(against.unknown.clone());
    let mends = mends(source, fighting.collect(), room, progress, page);
    let runs = if call.has("--runs") { runs(source, chosen, progress, page) } else { Vec::new() };
    if call.has("--json") {
        return fight_json(source, chosen, (&against, &mends), &runs, page);
    }
    page.print(&format!("\n{}\n{}", fight::against(sheet, chosen.len(), &against), fight::mends(sheet, &mends)));
    for (rule, reduced, judged) in &runs {
        let table = run::table(reduced, &judged.run, judged.numbers.a, call.has("--all"));
        page.print(&format!("\n{}{table}", fight::without(sheet, *rule)));
    }
}

/// The same as JSON.
fn fight_json(source: &Source, chosen: &[usize], (against, mends): (&Tried, &Tried), runs: &[Run], page: &mut Page) {
    let mut members = as_json::head(&source.name, 0, "cannot be kept");
    members.push(("rules", as_json::steps(&source.sheet, chosen)));
    members.push(("against", as_json::tried(&source.sheet, against)));
    members.push(("mends", as_json::tried(&source.sheet, mends)));
    if !runs.is_empty() {
        let one = |(rule, sheet, judged): &Run| {
            let without = as_json::rule(&source.sheet, Rule::Step(*rule));
            Json::Object(vec![("without", without), ("run", as_json::run(sheet, judged))])
        };
        members.push(("runs", Json::list(runs.iter().map(one))));
    }
    page.print(&format!("{}\n", Json::Object(members)));
}

/// What the rules fight against.
fn against(source: &Source, chosen: &[usize], room: &mut Room, progress: &mut Progress, page: &mut Page) -> Tried {
    mends::against(source, chosen, room, &mut |at, of| {
        progress.tell(page, || format!("clash: what they fight against, limit, first rule or promise {at} of {of}"));
    })
}

/// Which of these rules, each left out of the whole sheet by itself, mend it.
fn mends(source: &Source, mut rules: Vec<Rule>, room: &mut Room, progress: &mut Progress, page: &mut Page) -> Tried {
    rules.sort_unstable();
    mends::mends(source, &rules, room, &mut |at, of| {
        progress.tell(page, || format!("clash: what mends the sheet, rule {at} of {of}"));
    })
}

/// A rule left out, the sheet without it and without all rules that do not fight, and what the judge says to that.
type Run = (usize, Sheet, Judged);

/// The sample run that leaving out each of the rules allows.
fn runs(source: &Source, chosen: &[usize], progress: &mut Progress, page: &mut Page) -> Vec<Run> {
    let mut runs = Vec::new();
    for (at, &rule) in chosen.iter().enumerate() {
        progress.tell(page, || format!("clash: run {} of {}", at + 1, chosen.len()));
        let sheet = source.sheet.with_steps(&plan::without(chosen, rule));
        let judged = proved::judge(&bytes::write(&sheet));
        match judged.numbers.answer {
            0 => runs.push((rule, sheet, judged)),
            answer => page.went_wrong(&source.name, &format!("the judge answers {answer} without rule {}", rule + 1)),
        }
    }
    runs
}

/// The whole sheet can be kept.
fn kept(source: &Source, call: &Call, page: &mut Page) {
    if call.has("--numbers") {
        numbers(12, &[], page);
    } else if call.has("--json") {
        page.print(&format!("{}\n", Json::Object(as_json::head(&source.name, 12, "can be kept"))));
    } else {
        let verdict = page.colour.green("this sheet can be kept");
        page.print(&format!("{}: {verdict}, so no rules fight.\n", source.name));
    }
    nothing_to_write(source, call, page);
}

/// A trial reached more states than there is room for: tells what is known all the same.
fn crowded(source: &Source, trial: &Trial, room: &mut Room, progress: &mut Progress, call: &Call, page: &mut Page) {
    page.raise(NO_ROOM);
    if call.has("--numbers") {
        numbers(17, &[], page);
    } else if call.has("--json") {
        crowded_json(source, trial, room, progress, page);
    } else {
        page.print(&format!("{}: {}\n", source.name, fight::crowded(&source.sheet, trial)));
        if trial.left_out.is_some() {
            known(source, room, progress, page);
        }
    }
    nothing_to_write(source, call, page);
}

/// What is known of a sheet whose fighting rules are not: its reachable states, the rules that forbid the way on, what mends it.
fn known(source: &Source, room: &mut Room, progress: &mut Progress, page: &mut Page) {
    let judged = proved::judge(&source.bytes);
    let reached = match judged.numbers.count {
        1 => "1 state can be reached, and it is struck".to_string(),
        many => format!("{} can be reached, and all are struck", count(many as usize, "state")),
    };
    page.print(&format!("With all of its rules {reached}.\n"));
    page.print(&story::brief::tell(&source.sheet, &brief::reasons(source, &judged)));
    let narrowed = narrowed(source, room, progress, page);
    page.print(&fight::narrowed(&source.sheet, &narrowed));
    let mends = mends(source, source.sheet.rules(), room, progress, page);
    page.print(&format!("\n{}", fight::mends(&source.sheet, &mends)));
}

/// Fewer rules that cannot be kept, by trials with the proved judge.
fn narrowed(source: &Source, room: &mut Room, progress: &mut Progress, page: &mut Page) -> Vec<usize> {
    plan::narrowed(source, room, &mut |stage| progress.tell(page, || told(stage)))
}

/// The same as JSON.
fn crowded_json(source: &Source, trial: &Trial, room: &mut Room, progress: &mut Progress, page: &mut Page) {
    let Some(rule) = trial.left_out else {
        return page.print(&format!("{}\n", Json::Object(as_json::head(&source.name, 17, "no room"))));
    };
    let judged = proved::judge(&source.bytes);
    let mut members = as_json::head(&source.name, 17, "cannot be kept");
    members.push(("no_room_without", as_json::rule(&source.sheet, Rule::Step(rule))));
    members.push(("count", Json::number(judged.numbers.count)));
    members.extend(as_json::brief(&source.sheet, &brief::reasons(source, &judged)));
    members.push(("narrowed", as_json::steps(&source.sheet, &narrowed(source, room, progress, page))));
    members.push(("mends", as_json::tried(&source.sheet, &mends(source, source.sheet.rules(), room, progress, page))));
    page.print(&format!("{}\n", Json::Object(members)));
}

/// There is no sheet for `--out`.
fn nothing_to_write(source: &Source, call: &Call, page: &mut Page) {
    if call.has("--out") {
        page.say(&format!("{}: there is no sheet of fighting rules to write\n", source.name));
    }
}
