//! A log's audit as JSON. docs/GUIDE.md has the names.

use crate::as_json::{self, Members};
use crate::json::Json;
use crate::log::breach::{Audit, Breach, Moment, Tally, What};
use crate::model::{Rule, Sheet};

/// The whole audit.
pub fn whole(sheet: &Sheet, audit: &Audit<'_>, sheet_file: &str, log_file: &str) -> Json {
    let broken = audit.tallies.iter().map(|(&what, tally)| tallied(sheet, what, tally));
    Json::Object(vec![
        ("sheet", Json::text(sheet_file)),
        ("log", Json::text(log_file)),
        ("moments", Json::number(audit.account.count())),
        ("breaches", Json::number(audit.count())),
        ("broken", Json::list(broken)),
        ("list", Json::list(audit.told.iter().map(|breach| one(sheet, breach)))),
        ("steps", Json::list((0..sheet.steps.len()).map(|at| step(sheet, audit, at)))),
        ("promises_judged", Json::Bool(false)),
    ])
}

/// What was broken how often, and when first and last.
fn tallied(sheet: &Sheet, what: What, tally: &Tally) -> Json {
    let when = vec![("breaches", Json::number(tally.count)), ("first", Json::number(tally.first)), ("last", Json::number(tally.last))];
    Json::Object([rule(sheet, what), when].concat())
}

/// How many moves kept and broke a step rule, counted from 0.
fn step(sheet: &Sheet, audit: &Audit<'_>, at: usize) -> Json {
    let (kept, broken) = (audit.account.kept()[at], audit.account.broken()[at]);
    let tally = vec![("kept", Json::number(kept)), ("broken", Json::number(broken))];
    Json::Object([as_json::rule_members(sheet, Rule::Step(at)), tally].concat())
}

/// Kind, number, line and text of what was broken.
fn rule(sheet: &Sheet, what: What) -> Members {
    what.rule(sheet).map_or_else(
        || vec![("kind", Json::text("no state")), ("number", Json::Null), ("line", Json::Null), ("text", Json::Null)],
        |rule| as_json::rule_members(sheet, rule),
    )
}

fn one(sheet: &Sheet, breach: &Breach) -> Json {
    let before = breach.before.as_ref().map(|before| moment(sheet, before));
    let moments = vec![("moment", Json::number(breach.number)), ("at", moment(sheet, &breach.at)), ("before", Json::or_null(before))];
    Json::Object([moments, rule(sheet, breach.what)].concat())
}

fn moment(sheet: &Sheet, moment: &Moment) -> Json {
    let time = vec![("time", Json::or_null(moment.time.as_deref().map(Json::text)))];
    Json::Object([time, as_json::state(sheet, moment.state)].concat())
}
