//! The picture as a text for Graphviz, with all moves.

use crate::picture::svg::{colours, run_moves, struck, Picture};
use crate::text::print;

/// The picture as Graphviz reads it.
pub fn write(picture: &Picture<'_>) -> String {
    let mut dot = format!("digraph {} {{\n", quoted("states"));
    dot += &format!("  graph [rankdir=LR, labelloc=t, label={}];\n", quoted(&picture.title));
    dot += "  node [shape=box, style=\"rounded,filled\", fontname=\"Helvetica\"];\n  edge [color=\"#777777\"];\n";
    for place in 0..picture.graph.states.len() {
        dot += &node(picture, place);
    }
    for place in 0..picture.graph.first {
        dot += &format!("  first{place} [shape=point, color=\"#777777\"];\n  first{place} -> {};\n", name(picture, place));
    }
    let run = run_moves(picture);
    for (from, tos) in picture.graph.moves.iter().enumerate() {
        for &to in tos {
            let bold = if run.contains(&(from, to)) { " [color=\"#1557b0\", penwidth=2.5]" } else { "" };
            dot += &format!("  {} -> {}{bold};\n", name(picture, from), name(picture, to));
        }
    }
    dot + "}\n"
}

/// A state's name in the text: its number behind a letter.
fn name(picture: &Picture<'_>, place: usize) -> String {
    format!("s{}", picture.graph.states[place])
}

/// A state with its letters, when it is struck, and its colours.
fn node(picture: &Picture<'_>, place: usize) -> String {
    let (state, word) = (picture.graph.states[place], picture.graph.words[place]);
    let (fill, stroke) = colours(word);
    let kept: Vec<String> = picture.sheet.kept(state).iter().map(|promise| format!("promise {}", promise + 1)).collect();
    let kept = if kept.is_empty() { None } else { Some(format!("keeps {}", kept.join(", "))) };
    let lines: Vec<String> = [Some(print::state(picture.sheet, state)), word.map(struck), kept].into_iter().flatten().collect();
    let label = quoted(&lines.join("\n"));
    format!("  {} [label={label}, fillcolor={}, color={}];\n", name(picture, place), quoted(fill), quoted(stroke))
}

/// A string of Graphviz; a line's end is written as `\n`.
fn quoted(text: &str) -> String {
    format!("\"{}\"", text.replace('\\', "\\\\").replace('"', "\\\"").replace('\n', "\\n"))
}
