//! `draw FILE`: the reachable states as a picture.

use crate::answers::NO_ROOM;
use crate::call::{Call, Choice};
use crate::input::{self, Source};
use crate::out::Page;
use crate::picture::dot;
use crate::picture::graph::explore;
use crate::picture::svg::{draw, Picture};
use crate::picture::MOST_DRAWN;
use crate::proved;
use crate::story::count;
use crate::verbs::Verb;
use plain::rules::Rules;
use std::path::Path;

/// The verb.
pub const VERB: Verb = Verb {
    name: "draw",
    usage: "FILE",
    about: "draw the reachable states as a picture (SVG)",
    help: "Draws the states that can be reached, up to 60 of them, and the moves between them. Livable states are green,
struck ones red with their round and reason; the sample run lies on top. Any browser shows the picture. Of more
than 16 states with many moves not all are drawn: one into each state, one out of it, and those of the sample
run; each state then tells how many moves lead on from it. --dot writes all moves as a text for Graphviz.

  bin/sheet draw examples/clock.txt --out clock.svg
  bin/sheet draw --dot examples/clock.txt | dot -Tpdf > clock.pdf

Exit status: 0 done, 2 a bad sheet, file or call, 3 more than 60 states.
",
    files: (1, 1),
    choices: &[
        Choice { name: "--dot", value: None, about: "a text for Graphviz instead of a picture" },
        Choice { name: "--out", value: Some("FILE"), about: "write to this file; else it is printed" },
    ],
    act,
};

fn act(call: &Call, page: &mut Page) -> Result<(), String> {
    if call.value("--out").is_some_and(|out| input::is_same_file(out, &call.files[0])) {
        return Err("--out would write over the sheet".to_string());
    }
    match input::sheet(&call.files[0], call, page.message_colour) {
        Ok(source) => picture(&source, call, page),
        Err(trouble) => page.trouble(&trouble),
    }
    Ok(())
}

/// Draws a sheet if its states are few enough.
fn picture(source: &Source, call: &Call, page: &mut Page) {
    let rules = Rules::new(&plain::sheet::read(&source.bytes).expect("a good sheet"));
    let Some(mut graph) = explore(&source.sheet, &rules) else {
        page.say(&format!("{}: more than {MOST_DRAWN} states can be reached, too many to draw\n", source.name));
        page.raise(NO_ROOM);
        return;
    };
    let judged = proved::judge(&source.bytes);
    let can_be_kept = judged.numbers.answer == 0;
    // Where the judge says what is struck, its word counts.
    for (&state, &word) in judged.table.iter().zip(&judged.words) {
        if let Some(place) = graph.place_of(state) {
            graph.words[place] = Some(word);
        }
    }
    let name = Path::new(&source.name).file_stem().map_or(source.name.clone(), |stem| stem.to_string_lossy().into_owned());
    let verdict = if can_be_kept { "can be kept" } else { "cannot be kept" };
    let reached = match graph.states.len() {
        0 => "there is no first state".to_string(),
        many => format!("{} reachable", count(many, "state")),
    };
    let title = format!("{name}: {verdict}; {reached}");
    let run = can_be_kept.then_some((&judged.run[..], judged.numbers.a));
    let picture = Picture { sheet: &source.sheet, graph: &graph, run, title };
    let drawn = if call.has("--dot") { dot::write(&picture) } else { draw(&picture) };
    page.write_to(call.value("--out").unwrap_or("-"), drawn.as_bytes());
}
