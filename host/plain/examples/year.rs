//! `year FOLDER [SEED]` writes two logs of a year for the sheet `clock-year`, a
//! state for each minute, four bytes each with the highest first:
//!
//! - `year.log`, 525,600 moments, the clock going forward and back once: a good one;
//! - `year-over.log`, the same as a recorder leaves it that files by the clock:
//!   the repeated hour is recorded over the first, so an hour is missing.

use plain::make::Rng;
use plain::State;

const MOTOR: State = 1;
const FILE: State = 2;
const SUMMER: State = 4;
const REPEATED: State = 8;

const HOUR: usize = 60;
const DAY: usize = 24 * HOUR;
const YEAR: usize = 365 * DAY;
/// Two in the morning of the ninetieth day: summer begins.
const FORWARD: usize = 89 * DAY + 2 * HOUR;
/// The clock, at three, goes back to two on the three-hundredth day; minutes
/// are counted as they come, so summer's last hour ends here.
const BACK: usize = 299 * DAY + 2 * HOUR;

/// The state of each minute. The file is closed now and then; always for the
/// last minute before the repeated hour, and never within the minute before
/// the first hour and in the repeated hour.
fn year(rng: &mut Rng) -> Vec<State> {
    let state = |minute: usize| {
        let hour = match minute {
            FORWARD..BACK => SUMMER,
            _ if (BACK..BACK + HOUR).contains(&minute) => REPEATED,
            _ => 0,
        };
        let open = match minute {
            _ if minute + 1 == BACK => false,
            _ if minute + 1 + HOUR == BACK || hour == REPEATED => true,
            _ => !rng.once_in(HOUR),
        };
        MOTOR | hour | if open { FILE } else { 0 }
    };
    (0..YEAR).map(state).collect()
}

/// The same with the repeated hour over the first.
fn recorded_over(year: &[State]) -> Vec<State> {
    [&year[..BACK - HOUR], &year[BACK..]].concat()
}

fn main() -> std::io::Result<()> {
    let mut arguments = std::env::args().skip(1);
    let Some(folder) = arguments.next() else {
        return Err(std::io::Error::other("year FOLDER [SEED]"));
    };
    let seed = arguments.next().map_or(1, |seed| seed.parse().expect("the seed is a number"));
    let year = year(&mut Rng::new(seed));
    for (name, log) in [("year.log", &year), ("year-over.log", &recorded_over(&year))] {
        // A log is a file of states of four bytes each.
        let bytes: Vec<u8> = log.iter().flat_map(|&state| (state as u32).to_be_bytes()).collect();
        std::fs::write(format!("{folder}/{name}"), bytes)?;
        println!("{folder}/{name}: {} moments", log.len());
    }
    Ok(())
}
