//! `audit SHEET LOG`: does a recorded log obey the sheet? The verdict and the tallies are the proved audit's.

use crate::answers::{BAD, REFUSED};
use crate::call::{Call, Choice};
use crate::input::{self, Trouble};
use crate::log::breach::Audit;
use crate::log::read::{Form, Log};
use crate::log::{json, told};
use crate::out::{Page, Progress};
use crate::story::count;
use crate::verbs::Verb;

/// The verb.
pub const VERB: Verb = Verb {
    name: "audit",
    usage: "SHEET LOG",
    about: "hold a recorded log against a sheet",
    help: "Audits a log: the states that a monitor recorded, in the order in which they came. Tells how many moments were
read, every breach with the letters that held before it and at it (of more than 20 the first 20), how often each
rule was broken and when first and last, and for each step rule how many moves kept it and how many broke it.
After a breach the log is held against the sheet as if nothing had happened. Promises are not judged on a log.

A log is text, one state a line as `check` takes it: a number, the letters that hold, or `none`; # begins a
comment. Or a table (CSV) that begins with the line `time,state` and has a time before each state; times are
shown, and moments are counted as they came. Or four bytes for each state, the highest first: a log that begins
with a byte below 9 is taken so. --states, --numbers and --table overrule that. At most 1,000,000 moments.

  bin/sheet audit examples/clock-year.txt year.log

Moments, kinds of breaches, step rules and tallies are the proved audit's; which limit or first rule is broken,
this command looks up. docs/GUIDE.md has the names in --json.

Exit status: 0 no breach, 1 a breach, 2 a bad sheet, log or call.
",
    files: (2, 2),
    choices: &[
        Choice { name: "--states", value: None, about: "take the log as states of four bytes each" },
        Choice { name: "--numbers", value: None, about: "take the log as text, a state a line" },
        Choice { name: "--table", value: None, about: "take the log as a table (CSV): time,state" },
        Choice { name: "--all", value: None, about: "tell every breach" },
        Choice { name: "--json", value: None, about: "for programs: all of it as JSON" },
    ],
    act,
};

fn act(call: &Call, page: &mut Page) -> Result<(), String> {
    if call.files[0] == "-" && call.files[1] == "-" {
        return Err("standard input can be the sheet or the log, not both".to_string());
    }
    let form = form(call)?;
    if let Err(trouble) = audited(call, form, page) {
        page.trouble(&trouble);
    }
    Ok(())
}

/// The log's form, if it is given.
fn form(call: &Call) -> Result<Option<Form>, String> {
    let forms = [("--states", Form::Bytes), ("--numbers", Form::Text), ("--table", Form::Table)];
    let mut given = forms.iter().filter(|(name, _)| call.has(name));
    match (given.next(), given.next()) {
        (Some((one, _)), Some((other, _))) => Err(format!("{one} and {other} cannot both be given")),
        (form, _) => Ok(form.map(|&(_, form)| form)),
    }
}

/// Audits the log and tells it.
fn audited(call: &Call, form: Option<Form>, page: &mut Page) -> Result<(), Trouble> {
    let source = input::sheet(&call.files[0], call, page.message_colour)?;
    let (sheet, name) = (&source.sheet, input::shown(&call.files[1]));
    let mut log = Log::new(&call.files[1], form, sheet, page.message_colour)?;
    let (mut audit, mut progress) = (Audit::new(sheet, &source.bytes, call.has("--all")), Progress::new());
    while let Some(piece) = log.piece()? {
        audit.take(&piece).map_err(|answer| refused(&name, answer))?;
        progress.tell(page, || format!("audit: {} so far", count(audit.account.count() as usize, "moment")));
    }
    if audit.account.count() == 0 {
        return Err(Trouble::new(format!("{name}: the log is empty; there is no moment to audit")));
    }
    page.raise(if audit.count() > 0 { REFUSED } else { 0 });
    if call.has("--json") {
        page.print(&format!("{}\n", json::whole(sheet, &audit, &source.name, &name)));
        return Ok(());
    }
    page.print(&told::verdict(sheet, &audit, page.colour));
    page.print(&told::broken(sheet, &audit));
    page.print(&told::tallies(sheet, &audit.account));
    page.print(&told::promises(sheet));
    Ok(())
}

/// Why the proved audit took no more.
fn refused(name: &str, answer: u32) -> Trouble {
    let said = match answer {
        15 => "the log has more than 1,000,000 moments, which is the most that is audited (answer 15)".to_string(),
        _ => format!("the audit refuses the sheet (answer {answer})"),
    };
    Trouble { answer: Some(answer), status: BAD, ..Trouble::new(format!("{name}: {said}")) }
}
