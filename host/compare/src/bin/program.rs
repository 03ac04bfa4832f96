//! The built program, run as a user runs it: sheets on standard input, one line of four numbers back.
//!
//! `program PATH CRATE`, the program and its crate's folder. Every example sheet, a sheet for each answer from 0 to 13, sheets that just fit
//! the program's room and just do not, and inputs of awkward lengths, each handed over whole and through a pipe that delivers a byte at a
//! time. What is expected comes from the plain implementation, for the wall's sheets W1 to W6 and W15 from document 01, for the program's
//! room from reckoning by hand. The last line is 'N passed, M failed'.

#![deny(warnings)]

use plain::lent::Lent;
use plain::make::{counter, counter_to_dead_end, counter_with_a_beginning, long_run_back_to};
use plain::make::{damage, free, long_run, random_sheet, Draft, Rng, DAMAGES};
use plain::named;
use std::io::{Read, Write};
use std::process::{Command, Stdio};

/// What the program prints for an input, handed over in pieces of the given length.
fn printed(program: &str, input: &[u8], piece: usize) -> String {
    let mut child = Command::new(program).stdin(Stdio::piped()).stdout(Stdio::piped()).spawn().expect("the program starts");
    let mut pipe = child.stdin.take().expect("its input is a pipe");
    for part in input.chunks(piece.max(1)) {
        // A program that has read all it needs may close its end; that is no failure.
        if pipe.write_all(part).and_then(|()| pipe.flush()).is_err() {
            break;
        }
    }
    drop(pipe);
    let mut text = String::new();
    child.stdout.take().expect("its output is a pipe").read_to_string(&mut text).expect("it prints text");
    let status = child.wait().expect("it ends");
    if status.success() {
        text
    } else {
        format!("{text}{status}")
    }
}

/// What the program lends by document 01: places for the table, the words, the scratch and the run.
const LENT: [(&str, usize); 4] = [("table", 4096), ("words", 4096), ("scratch", 8192), ("run", 4096)];

/// What it should print, by the plain judge with the program's own room.
fn expected(input: &[u8]) -> String {
    let Lent { mut table, mut words, mut scratch, mut run } = Lent::all(0, LENT.map(|(_, places)| places));
    let a = plain::judge::judge(input, &mut table, &mut words, &mut scratch, &mut run);
    format!("{} {} {} {}\n", a.answer, a.count, a.a, a.b)
}

/// Sheets for the answers 1 to 10: damaged ones, looked for until each fault has been met.
fn faulty() -> Vec<Vec<u8>> {
    let mut rng = Rng::new(5);
    let mut found: Vec<Option<Vec<u8>>> = vec![None; 11];
    while found[1..].iter().any(Option::is_none) {
        let sheet = random_sheet(&mut rng, 6);
        for way in 0..DAMAGES {
            let bad = damage(&mut rng, &sheet, way);
            let number = plain::sheet::read_number(&bad) as usize;
            found[number].get_or_insert(bad);
        }
    }
    found.into_iter().skip(1).flatten().collect()
}

/// Sheets at the bounds of the program's room, with lines reckoned by hand: 4,096 states and 4,096 moments fit, one more does not.
///
/// A counter of 12 letters has 4,096 states. A long run over a counter of 11 letters has `back` moments before the circle and then goes
/// round the other 2,048 - `back` once for each promise: 1,024 + 3 x 1,024 moments, and 1,365 + 4 x 683.
fn at_its_bounds() -> Vec<(&'static str, Draft, &'static str)> {
    vec![
        ("a run of 4,096", long_run_back_to(11, 3, 1024), "0 2048 1024 4096\n"),
        ("a run of 4,097", long_run_back_to(11, 4, 1365), "12 0 0 4097\n"),
        ("4,096 states", counter(12), "0 4096 0 4096\n"),
        ("4,097 states", counter_with_a_beginning(12), "11 0 0 0\n"),
        ("4,096 states that cannot be kept", counter_to_dead_end(12), "13 4096 0 0\n"),
    ]
}

/// How many of the slices the program's source does not lend as document 01 says. Table and words lent longer change nothing that is
/// printed, for the room is the least of them and half the scratch; so these numbers are also read where they are written.
fn lent_otherwise(source: &str) -> usize {
    let lends = |(slice, places): &(&str, usize)| {
        let (states, words) =
            (format!("let mut {slice}: [State; {places}] = [0; {places}];"), format!("let mut {slice} = [0u32; {places}];"));
        source.contains(&states) || source.contains(&words)
    };
    LENT.iter().filter(|lent| !lends(lent)).inspect(|(slice, places)| println!("{slice} is not lent {places} places")).count()
}

/// Each input with its name and the line that it should give. The crate's stored input is the run of 4,096 moments.
fn inputs(stored: Vec<u8>) -> Vec<(String, Vec<u8>, String)> {
    let mut inputs: Vec<(String, Vec<u8>, String)> = Vec::new();
    for sheet in named::all() {
        let line = expected(&sheet.sheet);
        inputs.push((sheet.file.to_string(), sheet.sheet, line));
    }
    for (i, sheet) in faulty().into_iter().enumerate() {
        inputs.push((format!("fault {}", i + 1), sheet, format!("{} 0 0 0\n", i + 1)));
    }
    inputs.push(("the stored input".into(), stored, at_its_bounds()[0].2.into()));
    for (name, draft, line) in at_its_bounds() {
        inputs.push((name.into(), draft.bytes(), line.into()));
    }
    inputs.push(("no room".into(), free(13).bytes(), "11 0 0 0\n".into()));
    let long = long_run(12, 2).bytes();
    inputs.push(("run too long for its room".into(), long.clone(), expected(&long)));
    for length in [0usize, 1, 7, 4096, 4097, 4098, 10_000, 1_000_000] {
        inputs.push((format!("{length} bytes of 1"), vec![1; length], expected(&vec![1; length.min(4097)])));
    }
    inputs
}

/// What document 01 says of the wall's sheets.
const WALL: [(&str, &str); 7] = [
    ("w01", "0 2 0 1\n"),
    ("w02", "0 2 1 2\n"),
    ("w03", "0 2 1 3\n"),
    ("w04", "13 2 0 0\n"),
    ("w05", "13 2 0 0\n"),
    ("w06", "13 0 0 0\n"),
    ("w15", "13 4 0 0\n"),
];

fn main() {
    let program = std::env::args().nth(1).expect("the program's path");
    let folder = std::env::args().nth(2).expect("its crate's folder");
    let stored = std::fs::read(format!("{folder}/stdin")).expect("its stored input");
    let source = std::fs::read_to_string(format!("{folder}/src/main.rt")).expect("its source");
    let mut seen = [false; 14];
    let mut failed = lent_otherwise(&source);
    let mut passed = LENT.len() - failed;
    for (name, input, line) in &inputs(stored) {
        let by_document = WALL.iter().find(|(w, _)| w == name).map(|(_, line)| line);
        for piece in [input.len(), 1] {
            if piece == 1 && input.len() > 20_000 {
                continue;
            }
            let got = printed(&program, input, piece);
            if &got == line && by_document.is_none_or(|d| d == &got) {
                passed += 1;
                seen[line.split(' ').next().and_then(|n| n.parse::<usize>().ok()).expect("an answer")] = true;
            } else {
                println!("{name}, in pieces of {piece}: printed {got:?}, expected {line:?}");
                failed += 1;
            }
        }
    }
    for (answer, met) in seen.iter().enumerate() {
        if !met {
            println!("no sheet was answered {answer}");
            failed += 1;
        }
    }
    println!("{passed} passed, {failed} failed");
    std::process::exit(i32::from(failed > 0));
}
