//! The plot, on one page: a dot for each row, the plain time across and ours upwards, each step ten times the last. On the middle line both take
//! the same time; the lines beside it are ten times more and ten times less. Only rows far from the line are named.

use crate::orders::by_family;
use crate::{time, Row, Table};

const LEFT: f64 = 70.0;
const TOP: f64 = 50.0;
const SIDE: f64 = 560.0;
const RIGHT: f64 = 230.0;
const BELOW: f64 = 60.0;

/// A row that takes more than so many times the plain time is named, and so is one that takes longer than so many nanoseconds.
const FAR: f64 = 10.0;
const LONG: f64 = 1e9;

/// A theme's colour, by how its tables' titles begin.
const THEMES: [(&str, &str); 6] = [
    ("Reading", "#6b6b6b"),
    ("Checking", "#1f5fa8"),
    ("Judging", "#b3400e"),
    ("Exploring", "#c79a00"),
    ("Auditing", "#2f7d32"),
    ("Which rules", "#7a3e9d"),
];

/// The scale, the same across and upwards: from one power of ten to another, in nanoseconds.
struct Scale {
    least: f64,
    most: f64,
}

impl Scale {
    fn of(tables: &[Table]) -> Scale {
        let times = || tables.iter().flat_map(shown).flat_map(|row| [row.ours, row.plain]);
        let least = times().fold(f64::INFINITY, f64::min).log10().floor();
        let most = times().fold(0.0, f64::max).log10().ceil();
        Scale { least, most: most.max(least + 1.0) }
    }

    fn share(&self, nanoseconds: f64) -> f64 {
        SIDE * (nanoseconds.log10() - self.least) / (self.most - self.least)
    }

    fn x(&self, nanoseconds: f64) -> f64 {
        LEFT + self.share(nanoseconds)
    }

    fn y(&self, nanoseconds: f64) -> f64 {
        TOP + SIDE - self.share(nanoseconds)
    }
}

/// The rows that are shown: of a family in several orders the slowest. Counting literals measures no call of the library.
fn shown(table: &Table) -> impl Iterator<Item = &Row> {
    let rows: &[Row] = if table.title.starts_with("Counting") { &[] } else { &table.rows };
    by_family(rows).filter_map(|rows| rows.iter().max_by(|one, other| one.ours.total_cmp(&other.ours)))
}

fn colour(table: &Table) -> &'static str {
    THEMES.iter().find(|(front, _)| table.title.starts_with(front)).map_or("#000000", |(_, colour)| colour)
}

fn escape(text: &str) -> String {
    text.replace('&', "&amp;").replace('<', "&lt;").replace('>', "&gt;")
}

/// The frame: a line and a time for each power of ten, both ways, the lines of equal time and of ten times more and less, the axes' names.
fn frame(scale: &Scale) -> Vec<String> {
    let (bottom, end) = (TOP + SIDE, LEFT + SIDE);
    let mut parts = vec![];
    for power in scale.least as i32..=scale.most as i32 {
        let nanoseconds = 10f64.powi(power);
        let (x, y) = (scale.x(nanoseconds), scale.y(nanoseconds));
        parts.push(format!("<line x1=\"{x:.1}\" y1=\"{TOP}\" x2=\"{x:.1}\" y2=\"{bottom}\" stroke=\"#e4e4e4\"/>"));
        parts.push(format!("<line x1=\"{LEFT}\" y1=\"{y:.1}\" x2=\"{end}\" y2=\"{y:.1}\" stroke=\"#e4e4e4\"/>"));
        parts.push(format!("<text x=\"{x:.1}\" y=\"{}\" text-anchor=\"middle\">{}</text>", bottom + 18.0, tick(nanoseconds)));
        parts.push(format!("<text x=\"{}\" y=\"{:.1}\" text-anchor=\"end\">{}</text>", LEFT - 6.0, y + 4.0, tick(nanoseconds)));
    }
    let step = SIDE / (scale.most - scale.least);
    for (up, dash, name) in
        [(0.0, "", "the same"), (step, " stroke-dasharray=\"4 4\"", "10 times"), (-step, " stroke-dasharray=\"4 4\"", "a tenth")]
    {
        let (from, to) = (f64::max(0.0, -up), f64::min(SIDE, SIDE - up));
        parts.push(format!(
            "<line x1=\"{:.1}\" y1=\"{:.1}\" x2=\"{:.1}\" y2=\"{:.1}\" stroke=\"#888888\"{dash}/>",
            LEFT + from,
            bottom - from - up,
            LEFT + to,
            bottom - to - up
        ));
        parts.push(format!(
            "<text x=\"{:.1}\" y=\"{:.1}\" fill=\"#666666\">{name}</text>",
            LEFT + to + if up > 0.0 { -4.0 } else { 6.0 },
            bottom - to - up + if up > 0.0 { -6.0 } else { 4.0 }
        ));
    }
    parts.push(format!("<text x=\"{}\" y=\"{}\" text-anchor=\"middle\">plain Rust</text>", LEFT + SIDE / 2.0, bottom + 44.0));
    parts.push(format!(
        "<text x=\"14\" y=\"{}\" transform=\"rotate(-90 14 {})\" text-anchor=\"middle\">ours</text>",
        TOP + SIDE / 2.0,
        TOP + SIDE / 2.0
    ));
    parts
}

/// The themes' colours, right of the frame.
fn legend() -> Vec<String> {
    let x = LEFT + SIDE + 70.0;
    THEMES
        .iter()
        .enumerate()
        .flat_map(|(place, (name, colour))| {
            let y = TOP + 110.0 + 20.0 * place as f64;
            [
                format!("<circle cx=\"{x}\" cy=\"{y}\" r=\"4\" fill=\"{colour}\"/>"),
                format!(
                    "<text x=\"{}\" y=\"{}\">{}</text>",
                    x + 10.0,
                    y + 4.0,
                    if *name == "Which rules" { "Which rules fight" } else { name }
                ),
            ]
        })
        .collect()
}

/// A row's dot, with its name and times for who points at it; named on the page where it is far from the line.
fn dot(scale: &Scale, row: &Row, colour: &str) -> Vec<String> {
    let (x, y) = (scale.x(row.plain), scale.y(row.ours));
    let name = escape(&row.name);
    let mut parts = vec![format!(
        "<circle cx=\"{x:.1}\" cy=\"{y:.1}\" r=\"4\" fill=\"{colour}\" fill-opacity=\"0.7\"><title>{name}: {} against {}</title></circle>",
        time(row.ours),
        time(row.plain)
    )];
    if row.ours > FAR * row.plain || row.ours > LONG {
        parts.push(format!("<text x=\"{:.1}\" y=\"{:.1}\" font-size=\"10\" text-anchor=\"end\">{name}</text>", x - 7.0, y + 3.0));
    }
    parts
}

pub fn svg(tables: &[Table]) -> String {
    let scale = Scale::of(tables);
    let (width, height) = (LEFT + SIDE + RIGHT, TOP + SIDE + BELOW);
    let mut parts = vec![
        format!("<svg xmlns=\"http://www.w3.org/2000/svg\" viewBox=\"0 0 {width} {height}\" font-family=\"sans-serif\" font-size=\"12\">"),
        format!("<rect width=\"{width}\" height=\"{height}\" fill=\"white\"/>"),
        format!("<text x=\"{LEFT}\" y=\"26\" font-weight=\"bold\">Our time and the plain one, a dot for each row</text>"),
    ];
    parts.extend(frame(&scale));
    parts.extend(legend());
    for table in tables {
        parts.extend(shown(table).flat_map(|row| dot(&scale, row, colour(table))));
    }
    parts.push("</svg>".to_string());
    parts.join("\n") + "\n"
}

/// A power of ten, without its zeros after the point.
fn tick(nanoseconds: f64) -> String {
    time(nanoseconds).replace(".00 ", " ").replace(".0 ", " ")
}
