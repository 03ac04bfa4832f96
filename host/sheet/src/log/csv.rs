//! A log as a table (CSV): a first line `time,state`, then a time and a state a line. The time is shown and never counted by.

/// What can part the time from the state.
const PARTED_BY: [char; 3] = [',', ';', '\t'];

/// What parts the cells of a table that begins with this line, if a table begins like this.
pub fn head(line: &str) -> Option<char> {
    let is_head = |by: char| line.split_once(by).is_some_and(|(time, state)| is(time, "time") && is(state, "state"));
    PARTED_BY.into_iter().find(|&by| is_head(by))
}

fn is(cell: &str, name: &str) -> bool {
    bare(cell).eq_ignore_ascii_case(name)
}

/// A cell without spaces and quotation marks round it.
fn bare(cell: &str) -> &str {
    cell.trim().trim_matches('"').trim()
}

/// A line's time, and the line with blanks for all but the state, so that every word of it stays at its place.
pub fn row(line: &str, by: char) -> (String, String) {
    let at = cell_end(line, by);
    let time = bare(&line[..at]).to_string();
    let mut state: String = line[..at].chars().map(|_| ' ').collect();
    state.extend(line[at..].chars().enumerate().map(|(place, sign)| if place == 0 || sign == '"' { ' ' } else { sign }));
    (time, state)
}

/// Where the first cell ends; a cell in quotation marks may hold what parts the cells.
fn cell_end(line: &str, by: char) -> usize {
    let mut quoted = false;
    for (at, sign) in line.char_indices() {
        match sign {
            '"' => quoted = !quoted,
            sign if sign == by && !quoted => return at,
            _ => (),
        }
    }
    line.len()
}
