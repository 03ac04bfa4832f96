//! What is said of one file of a class. The numbers are the proved judge's and the proved reader's.

use crate::answers::{Fault, BAD, GOOD, NO_ROOM, REFUSED};
use crate::call::Call;
use crate::class::phrase;
use crate::explain::fault::account;
use crate::input::{content, is_bytes, shown, text_of};
use crate::proved::{self, MOST_STATES};
use crate::story::count;
use crate::text::{names, parse};
use crate::{bytes, model::Sheet};
use std::sync::atomic::{AtomicUsize, Ordering};
use std::sync::mpsc;

/// The stack of a thread: four times what the proved judge takes, and what the words about a sheet take.
const STACK: usize = 8 << 20;

/// What a file is.
#[derive(Clone, Copy, Debug, PartialEq, Eq)]
pub enum Verdict {
    /// Can be kept: so many livable states, so many moments of the sample run.
    Kept(u32, u32),
    /// Cannot be kept: so many reachable states.
    Cannot(u32),
    /// A bad sheet of bytes: the number of its fault, and the place.
    Bad(u32, usize),
    /// A text that is no sheet: the line of its first fault, if it is one line's.
    NoSheet(Option<usize>),
    /// A file that cannot be read.
    Unreadable,
    /// A sheet with too many states.
    NoRoom,
}

/// The words for the verdicts, as they are counted.
pub const WORDS: [&str; 6] = ["can be kept", "cannot be kept", "bad", "no sheet", "unreadable", "no room"];

impl Verdict {
    /// Which of the words it is.
    pub fn kind(self) -> usize {
        match self {
            Verdict::Kept(..) => 0,
            Verdict::Cannot(_) => 1,
            Verdict::Bad(..) => 2,
            Verdict::NoSheet(_) => 3,
            Verdict::Unreadable => 4,
            Verdict::NoRoom => 5,
        }
    }

    /// The exit status that it gives.
    pub fn status(self) -> u8 {
        match self {
            Verdict::Kept(..) => GOOD,
            Verdict::Cannot(_) => REFUSED,
            Verdict::Bad(..) | Verdict::NoSheet(_) | Verdict::Unreadable => BAD,
            Verdict::NoRoom => NO_ROOM,
        }
    }
}

/// A file and what is said of it.
#[derive(Clone, Debug)]
pub struct Seen {
    /// The file's name for messages.
    pub file: String,
    /// What it is.
    pub verdict: Verdict,
    /// Why, in one phrase; nothing for a sheet that can be kept.
    pub why: String,
}

/// Looks at all files, on all processors; tells how many are done after each. What is said stands in the files' order.
pub fn all(files: &[String], call: &Call, mut tell: impl FnMut(usize)) -> Vec<Seen> {
    let next = AtomicUsize::new(0);
    let workers = std::thread::available_parallelism().map_or(1, usize::from).min(files.len());
    let mut seen: Vec<Option<Seen>> = vec![None; files.len()];
    std::thread::scope(|scope| {
        let (sender, receiver) = mpsc::channel();
        for _ in 0..workers {
            let (sender, next) = (sender.clone(), &next);
            let work = move || loop {
                let at = next.fetch_add(1, Ordering::Relaxed);
                let Some(file) = files.get(at) else { return };
                if sender.send((at, one(file, call))).is_err() {
                    return;
                }
            };
            std::thread::Builder::new().stack_size(STACK).spawn_scoped(scope, work).expect("a thread can be started");
        }
        drop(sender);
        for (done, (at, one)) in receiver.into_iter().enumerate() {
            seen[at] = Some(one);
            tell(done + 1);
        }
    });
    seen.into_iter().flatten().collect()
}

/// Looks at one file.
fn one(file: &str, call: &Call) -> Seen {
    let (verdict, why) = match content(file) {
        Err(why) => (Verdict::Unreadable, why),
        Ok(content) if is_bytes(&content, call) => of_bytes(&content),
        Ok(content) => of_text(content),
    };
    Seen { file: shown(file), verdict, why }
}

fn of_bytes(content: &[u8]) -> (Verdict, String) {
    match bytes::read(content) {
        Err(fault) => bad(&fault, content),
        Ok(mut sheet) => {
            sheet.names = names::defaults(sheet.names.len());
            judged(&sheet, content)
        }
    }
}

fn bad(fault: &Fault, content: &[u8]) -> (Verdict, String) {
    (Verdict::Bad(fault.number, fault.place), account(fault.number, fault.place, content))
}

fn of_text(content: Vec<u8>) -> (Verdict, String) {
    let faults = match text_of(content).map_err(|fault| vec![fault]).and_then(|text| parse::parse(&text)) {
        Ok(sheet) => return judged(&sheet, &bytes::write(&sheet)),
        Err(faults) => faults,
    };
    match faults.first() {
        Some(fault) => (Verdict::NoSheet(fault.place.as_ref().map(|place| place.line)), fault.said.clone()),
        None => (Verdict::NoSheet(None), String::new()),
    }
}

/// What the proved judge says of a good sheet.
fn judged(sheet: &Sheet, bytes: &[u8]) -> (Verdict, String) {
    let judged = proved::judge(bytes);
    let numbers = judged.numbers;
    match numbers.answer {
        0 => (Verdict::Kept(numbers.count, numbers.b), String::new()),
        13 => (Verdict::Cannot(numbers.count), phrase::first_clash(sheet, &judged)),
        _ => (Verdict::NoRoom, format!("over {} can be reached", count(MOST_STATES, "state"))),
    }
}
