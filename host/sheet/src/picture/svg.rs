//! The picture itself.

use crate::model::{Sheet, State};
use crate::paper::{print::heading, REASONS};
use crate::picture::curve::{arrow, Point};
use crate::picture::graph::Graph;
use crate::picture::layout::{lay_out, Spot};
use crate::picture::{legend, thin};
use crate::story::count;
use crate::text::print;

/// The height of a line of letters, and of a smaller line below them.
const LINE: f64 = 24.0;
const SMALL_LINE: f64 = 19.0;
/// About the width of a character.
const CHARACTER: f64 = 10.4;
/// A state's letters are broken into lines of about so many characters.
const MOST_CHARACTERS: usize = 20;
/// Space round the whole.
const BORDER: f64 = 60.0;
/// The space that the title takes.
const TITLE: f64 = 60.0;
/// About the width of a character of the title.
const TITLE_CHARACTER: f64 = 15.6;
/// With more moves than this they are drawn paler.
const MANY_MOVES: usize = 90;
/// So many moments are written at a state; of more, the first.
const MOST_MOMENTS: usize = 4;

/// What is drawn.
pub struct Picture<'s> {
    /// The sheet.
    pub sheet: &'s Sheet,
    /// Its reachable states.
    pub graph: &'s Graph,
    /// The sample run and the moment that it goes back to, if there is one.
    pub run: Option<(&'s [State], u32)>,
    /// What stands over the picture.
    pub title: String,
}

/// The picture as SVG.
pub fn draw(picture: &Picture<'_>) -> String {
    let labels: Vec<Vec<String>> = picture.graph.states.iter().map(|&state| label(picture.sheet, state)).collect();
    let longest = labels.iter().flatten().map(|line| line.chars().count()).max().unwrap_or(1);
    let most_lines = labels.iter().map(Vec::len).max().unwrap_or(1);
    let struck = picture.graph.words.iter().any(Option::is_some);
    let kept = !picture.sheet.promises.is_empty();
    let drawn = thin::drawn(picture.graph, &run_moves(picture));
    let thinned = thin::is_thinned(picture.graph);
    let captions = f64::from(u8::from(struck)) + f64::from(u8::from(kept)) + f64::from(u8::from(thinned));
    let captions_width =
        picture.graph.words.iter().flatten().map(|&word| self::struck(word).chars().count()).max().unwrap_or(0) as f64 * 7.6;
    let least = if struck { 186.0_f64.max(captions_width + 24.0) } else { 120.0 };
    let width = (longest as f64 * CHARACTER + 32.0).max(least);
    let height = most_lines as f64 * LINE + captions * SMALL_LINE + 22.0;
    let spots = lay_out(picture.graph, &drawn, width, height);
    let (low, high) = extent(&drawn, &spots);
    let notes = legend::lines(picture, drawn.iter().map(Vec::len).sum());
    let wide = (high.0 - low.0).max(legend::width(&notes)).max(picture.title.chars().count() as f64 * TITLE_CHARACTER);
    let mut svg = head(wide + 2.0 * BORDER, high.1 - low.1 + 2.4 * BORDER + TITLE + legend::height(&notes), &picture.title);
    svg += &format!("<g transform=\"translate({:.1} {:.1})\">\n", BORDER - low.0, BORDER + TITLE - low.1);
    svg += &moves(picture, &drawn, &spots);
    svg += &run_arrows(picture, &drawn, &spots);
    for (place, spot) in spots.iter().enumerate() {
        svg += &state_box(picture, place, spot, &labels[place]);
    }
    svg += &run_moments(picture, &spots);
    svg += &legend::draw(&notes, low.0, high.1 + BORDER);
    svg + "</g>\n</svg>\n"
}

/// The corners of the room that boxes and arrows take.
fn extent(drawn: &[Vec<usize>], spots: &[Spot]) -> (Point, Point) {
    let boxes = spots.iter().map(|spot| {
        let half = (spot.width / 2.0, spot.height / 2.0);
        ((spot.x - half.0, spot.y - half.1), (spot.x + half.0, spot.y + half.1))
    });
    let arrows = drawn.iter().enumerate().flat_map(|(from, tos)| tos.iter().map(move |&to| (from, to)));
    let arrows = arrows.map(|(from, to)| arrow(spots, drawn, from, to)).map(|arrow| (arrow.low, arrow.high));
    boxes.chain(arrows).fold(((0.0, 0.0), (0.0, 0.0)), |(low, high): (Point, Point), (lower, higher)| {
        ((low.0.min(lower.0), low.1.min(lower.1)), (high.0.max(higher.0), high.1.max(higher.1)))
    })
}

/// The size, the styles, the title.
fn head(width: f64, height: f64, title: &str) -> String {
    let title = escape(title);
    format!(
        "<svg xmlns=\"http://www.w3.org/2000/svg\" viewBox=\"0 0 {width:.0} {height:.0}\" width=\"{width:.0}\" height=\"{height:.0}\" \
         font-family=\"Helvetica, Arial, sans-serif\">\n<title>{title}</title>\n<defs>\n{}{}</defs>\n\
         <rect width=\"100%\" height=\"100%\" fill=\"#ffffff\"/>\n\
         <text x=\"{BORDER:.0}\" y=\"{:.0}\" font-size=\"26\" font-weight=\"bold\" fill=\"#202020\">{title}</text>\n",
        marker("move", "#777777"),
        marker("run", "#1557b0"),
        BORDER + 6.0,
    )
}

/// An arrow's head.
fn marker(name: &str, colour: &str) -> String {
    format!(
        "<marker id=\"{name}\" viewBox=\"0 0 10 10\" refX=\"9\" refY=\"5\" markerWidth=\"11\" markerHeight=\"11\" \
         markerUnits=\"userSpaceOnUse\" orient=\"auto\"><path d=\"M0 0.5L10 5L0 9.5z\" fill=\"{colour}\"/></marker>\n"
    )
}

/// The moves as grey arrows, and a short arrow to each first state.
fn moves(picture: &Picture<'_>, drawn: &[Vec<usize>], spots: &[Spot]) -> String {
    let many = thin::is_thinned(picture.graph) || drawn.iter().map(Vec::len).sum::<usize>() > MANY_MOVES;
    let (thick, pale) = if many { (1.0, 0.45) } else { (1.8, 1.0) };
    let mut svg = format!("<g fill=\"none\" stroke=\"#777777\" stroke-width=\"{thick}\" opacity=\"{pale}\">\n");
    for (from, tos) in drawn.iter().enumerate() {
        for &to in tos {
            svg += &format!("<path d=\"{}\" marker-end=\"url(#move)\"/>\n", arrow(spots, drawn, from, to).path);
        }
    }
    svg += "</g>\n<g fill=\"none\" stroke=\"#777777\" stroke-width=\"2.6\">\n";
    for spot in &spots[..picture.graph.first] {
        let left = spot.x - spot.width / 2.0;
        svg += &format!("<path d=\"M{:.1} {1:.1}L{left:.1} {1:.1}\" marker-end=\"url(#move)\"/>\n", left - 38.0, spot.y);
    }
    svg + "</g>\n"
}

/// A state: its letters, when it is struck, which promises are kept.
fn state_box(picture: &Picture<'_>, place: usize, spot: &Spot, label: &[String]) -> String {
    let word = picture.graph.words[place];
    let (fill, stroke) = colours(word);
    let (left, top) = (spot.x - spot.width / 2.0, spot.y - spot.height / 2.0);
    let mut svg = format!(
        "<rect x=\"{left:.1}\" y=\"{top:.1}\" width=\"{:.1}\" height=\"{:.1}\" rx=\"12\" fill=\"{fill}\" stroke=\"{stroke}\" \
         stroke-width=\"2.4\"/>\n",
        spot.width, spot.height
    );
    let kept: Vec<String> = picture.sheet.kept(picture.graph.states[place]).iter().map(|promise| (promise + 1).to_string()).collect();
    let mut small: Vec<(String, &str)> = Vec::new();
    if let Some(word) = word {
        small.push((struck(word), "#8c1d18"));
    }
    if thin::is_thinned(picture.graph) {
        small.push((count(picture.graph.moves[place].len(), "move") + " on", "#555555"));
    }
    if !kept.is_empty() {
        small.push((format!("\u{2605} {}", kept.join(", ")), "#2e5d2e"));
    }
    let mut y = spot.y - (label.len() as f64 * LINE + small.len() as f64 * SMALL_LINE) / 2.0;
    for line in label {
        y += LINE;
        svg += &text(spot.x, y - 6.0, 19, "#202020", line);
    }
    for (line, colour) in &small {
        y += SMALL_LINE;
        svg += &text(spot.x, y - 4.0, 15, colour, line);
    }
    svg
}

/// When a state is struck and why. From a state without a way on no arrow leads; from one that is struck later arrows do, to struck states.
pub fn struck(word: u32) -> String {
    match (word / REASONS, word % REASONS) {
        (round, 0) if round > 1 => format!("round {round}, all ways on struck"),
        _ => heading(word),
    }
}

/// Fill and line of a state: green if it is livable, red if it is struck, paler the later.
pub fn colours(word: Option<u32>) -> (&'static str, &'static str) {
    match word.map(|word| word / REASONS) {
        None => ("#dff3df", "#2e7d32"),
        Some(0 | 1) => ("#f6b8b0", "#b3261e"),
        Some(2) => ("#f9cfc9", "#b3261e"),
        Some(3) => ("#fbdfdb", "#b3261e"),
        Some(_) => ("#fdeeec", "#b3261e"),
    }
}

/// The sample run's places, moment by moment; none without a run.
fn run_places(picture: &Picture<'_>) -> Vec<usize> {
    let states = picture.run.map_or(&[][..], |(run, _)| run);
    states.iter().filter_map(|&state| picture.graph.place_of(state)).collect()
}

/// The sample run's moves, each once; none without a run.
pub fn run_moves(picture: &Picture<'_>) -> Vec<(usize, usize)> {
    let (places, back) = (run_places(picture), picture.run.map_or(0, |(_, a)| a as usize));
    let mut moves: Vec<(usize, usize)> = Vec::new();
    for (moment, &from) in places.iter().enumerate() {
        let to = *places.get(moment + 1).unwrap_or(&places[back]);
        if !moves.contains(&(from, to)) {
            moves.push((from, to));
        }
    }
    moves
}

/// The sample run's moves, on top of the others: blue arrows.
fn run_arrows(picture: &Picture<'_>, drawn: &[Vec<usize>], spots: &[Spot]) -> String {
    let mut svg = "<g fill=\"none\" stroke=\"#1557b0\" stroke-width=\"3.4\">\n".to_string();
    for (from, to) in run_moves(picture) {
        svg += &format!("<path d=\"{}\" marker-end=\"url(#run)\"/>\n", arrow(spots, drawn, from, to).path);
    }
    svg + "</g>\n"
}

/// The sample run's moments at the states.
fn run_moments(picture: &Picture<'_>, spots: &[Spot]) -> String {
    let places = run_places(picture);
    let mut svg = String::new();
    for (place, spot) in spots.iter().enumerate() {
        let moments: Vec<String> = (0..places.len()).filter(|&moment| places[moment] == place).map(|moment| moment.to_string()).collect();
        if !moments.is_empty() {
            svg += &badge(spot, &moments);
        }
    }
    svg
}

/// The moments at which the run comes to a state, at its upper left corner.
fn badge(spot: &Spot, moments: &[String]) -> String {
    let more = if moments.len() > MOST_MOMENTS { ", .." } else { "" };
    let moments = moments[..moments.len().min(MOST_MOMENTS)].join(", ") + more;
    let width = 18.0 + moments.len() as f64 * 8.6;
    let (left, top) = (spot.x - spot.width / 2.0 - 12.0, spot.y - spot.height / 2.0 - 14.0);
    let pill = format!("<rect x=\"{left:.1}\" y=\"{top:.1}\" width=\"{width:.1}\" height=\"27\" rx=\"13.5\" fill=\"#1557b0\"/>\n");
    pill + &text(left + width / 2.0, top + 19.0, 16, "#ffffff", &moments)
}

/// A line of text round its middle.
fn text(x: f64, y: f64, size: u32, colour: &str, line: &str) -> String {
    format!("<text x=\"{x:.1}\" y=\"{y:.1}\" font-size=\"{size}\" text-anchor=\"middle\" fill=\"{colour}\">{}</text>\n", escape(line))
}

/// A text between tags.
pub fn escape(text: &str) -> String {
    text.replace('&', "&amp;").replace('<', "&lt;").replace('>', "&gt;")
}

/// A state's letters, broken into lines.
fn label(sheet: &Sheet, state: State) -> Vec<String> {
    let mut lines: Vec<String> = Vec::new();
    for name in print::state(sheet, state).split(", ") {
        match lines.last_mut() {
            Some(line) if line.chars().count() + name.chars().count() + 2 <= MOST_CHARACTERS => *line += &format!(", {name}"),
            Some(line) => {
                line.push(',');
                lines.push(name.to_string());
            }
            None => lines.push(name.to_string()),
        }
    }
    lines
}
