//! `check SHEET PAPER`: is a run or a strike list accepted? The verdict is the proved checker's; where it is not, this command says why.

use crate::answers::{GOOD, REFUSED};
use crate::call::{Call, Choice};
use crate::explain;
use crate::input::{self, Source};
use crate::json::Json;
use crate::out::Page;
use crate::paper::{parse, Paper};
use crate::proved;
use crate::story::count;
use crate::verbs::{walk, Verb};

/// The verb.
pub const VERB: Verb = Verb {
    name: "check",
    usage: "SHEET PAPER",
    about: "check a run or a strike list against a sheet",
    help: "Checks a paper: a run that obeys the sheet for ever, or a strike list that shows that no run does. The paper
is a text, by hand or by `judge --paper`; docs/TEXT.md has its form. A run names its states in turn:

  run
  motor, file, summer
  motor, repeated
  motor, file
  motor
  back to 3

The verdict is the proved checker's. If it does not accept, this command looks for the reason and says so. A run
without `back to` is no run, and so many moves prove nothing: then the command says what the proved judge says
of the sheet. docs/GUIDE.md has the names in --json.

  bin/sheet judge examples/clock.txt --paper clock.paper
  bin/sheet check examples/clock.txt clock.paper

Exit status: 0 accepted, 1 not accepted, 2 a bad sheet, paper, file or call.
",
    files: (2, 2),
    choices: &[Choice { name: "--json", value: None, about: "for programs: the verdict and the reason as JSON" }],
    act,
};

fn act(call: &Call, page: &mut Page) -> Result<(), String> {
    if call.files[0] == "-" && call.files[1] == "-" {
        return Err("standard input can be the sheet or the paper, not both".to_string());
    }
    match take(call, page) {
        Ok((source, paper)) if call.has("--json") => as_json(&source, &paper, &input::shown(&call.files[1]), page),
        Ok((source, paper)) => verdict(&source, &paper, page),
        Err(trouble) => page.trouble(&trouble),
    }
    Ok(())
}

/// The sheet, and the paper in that sheet's letters.
fn take(call: &Call, page: &Page) -> Result<(Source, Paper), input::Trouble> {
    let source = input::sheet(&call.files[0], call, page.message_colour)?;
    let text = input::paper_text(&call.files[1], page.message_colour)?;
    match parse::parse(&text, &source.sheet) {
        Ok(paper) => Ok((source, paper)),
        Err(fault) => {
            let shown = fault.show(&input::shown(&call.files[1]), page.message_colour);
            let walk = parse::walk(&text, &source.sheet).map(|states| walk::told(&source, &states)).unwrap_or_default();
            Err(input::Trouble { message: shown + &walk, ..input::Trouble::new(String::new()) })
        }
    }
}

/// The proved checker's answer.
fn answer(source: &Source, paper: &Paper) -> u32 {
    match paper {
        Paper::Run(states, a) => proved::check_run(&source.bytes, states, *a),
        Paper::Strikes(states, words) => proved::check_strikes(&source.bytes, states, words),
    }
}

/// The answer and the reason as JSON, in one line.
fn as_json(source: &Source, paper: &Paper, paper_file: &str, page: &mut Page) {
    let answer = answer(source, paper);
    let (kind, size, back) = match paper {
        Paper::Run(states, a) => ("run", states.len(), Some(Json::number(*a))),
        Paper::Strikes(states, _) => ("strikes", states.len(), None),
    };
    let why = if answer == 0 { Vec::new() } else { explain::reason(source, paper).unwrap_or_default() };
    let members = vec![
        ("sheet", Json::text(&*source.name)),
        ("paper", Json::text(paper_file)),
        ("kind", Json::text(kind)),
        ("states", Json::number(size)),
        ("back_to", Json::or_null(back)),
        ("answer", Json::number(answer)),
        ("accepted", Json::Bool(answer == 0)),
        ("why", Json::list(why.iter().map(|line| Json::text(line.trim())))),
    ];
    page.raise(if answer == 0 { GOOD } else { REFUSED });
    page.print(&format!("{}\n", Json::Object(members)));
}

/// The proved checker's answer, and then, if it does not accept, this command's reason.
fn verdict(source: &Source, paper: &Paper, page: &mut Page) {
    let answer = answer(source, paper);
    let (what, shows) = match paper {
        Paper::Run(states, a) => {
            (format!("this run of {}", count(states.len(), "moment")), format!("Read on from moment {a} for ever, it obeys the sheet."))
        }
        Paper::Strikes(states, _) => {
            (format!("this strike list of {}", count(states.len(), "state")), "No run obeys the sheet.".to_string())
        }
    };
    if answer == 0 {
        let accepted = page.colour.green("accepted");
        page.print(&format!("The proved checker: {what} is {accepted}. {shows}\n"));
        return;
    }
    page.raise(REFUSED);
    let refused = page.colour.red("not accepted");
    page.print(&format!("The proved checker: {what} is {refused} (answer {answer}).\n"));
    page.print(&format!("Why (this command's own account, not proved):\n{}", explain::why(source, paper)));
}
