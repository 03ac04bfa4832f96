//! The files in the folder `examples` against the sheets they are made from, and
//! what their README says of each against the judge; the numbers of the guide's
//! sheets; the sizes of source document 000's sheets.

#![deny(warnings)]

use plain::check::{check_run, check_strikes};
use plain::judge::{judge, reachable};
use plain::make::Draft;
use plain::named::{all, bad, guide, Judged};
use plain::source::{families, football, philosophers, Dinner, Team};
use plain::State;

const FOLDER: &str = concat!(env!("CARGO_MANIFEST_DIR"), "/../../examples");

#[test]
fn files_and_readme_are_as_made() {
    let readme = std::fs::read_to_string(format!("{FOLDER}/README.md")).expect("a README");
    let rows: Vec<&str> = readme.lines().collect();
    for named in all() {
        let file = std::fs::read(format!("{FOLDER}/{}.sheet", named.file)).expect("a file");
        assert_eq!(file, named.sheet, "{}", named.file);
        let line = Judged::of(&named.sheet).line();
        let row = format!("| {}.sheet | {} | `{line}` |", named.file, named.what);
        assert!(rows.contains(&row.as_str()), "no row {row}");
    }
    let sheets = std::fs::read_dir(FOLDER).expect("a folder").filter(|entry| {
        entry.as_ref().is_ok_and(|file| file.path().extension().is_some_and(|end| end == "sheet"))
    });
    assert_eq!(sheets.count(), all().len() + bad().len());
}

/// One bad sheet for each fault, at the place that is told.
#[test]
fn bad_files_and_readme_are_as_made() {
    let readme = std::fs::read_to_string(format!("{FOLDER}/README.md")).expect("a README");
    let rows: Vec<&str> = readme.lines().collect();
    for bad in bad() {
        let (file, what) = (bad.named.file, bad.named.what);
        let stored = std::fs::read(format!("{FOLDER}/{file}.sheet")).expect("a file");
        assert_eq!(stored, bad.named.sheet, "{file}");
        let judged = Judged::of(&bad.named.sheet);
        assert_eq!((judged.answer.answer, judged.answer.place), (bad.number, bad.place), "{file}");
        let row = format!("| {file}.sheet | {what} | `{}` | {} |", judged.line(), bad.place);
        assert!(rows.contains(&row.as_str()), "no row {row}");
    }
    assert_eq!(
        bad().iter().map(|bad| bad.number).collect::<Vec<u32>>(),
        (1..=10).collect::<Vec<u32>>()
    );
}

/// The guide's sheets and papers, as the guide tells them.
#[test]
fn guide_is_as_told() {
    let told: [(&str, &str, &[State], &[u32]); 7] = [
        ("clock", "13 4 0 0", &[9, 11, 5, 7], &[32, 32, 33, 33]),
        ("clock-mended", "0 6 3 4", &[7, 9, 3, 1], &[]),
        (
            "mistake-1",
            "13 11 0 0",
            &[10, 9, 8, 7, 6, 5, 4, 3, 2, 1, 0],
            &[32, 64, 96, 128, 160, 192, 224, 256, 288, 320, 352],
        ),
        ("mistake-2", "13 2 0 0", &[7, 11], &[33, 33]),
        ("mistake-3", "0 4 1 2", &[1, 3], &[]),
        ("mistake-3-misread", "13 1 0 0", &[1], &[32]),
        ("clock-year", "0 6 1 2", &[1, 3], &[]),
    ];
    for (named, (file, line, states, words)) in guide().iter().zip(told) {
        let judged = Judged::of(&named.sheet);
        assert_eq!((named.file, judged.line().as_str()), (file, line));
        assert_eq!((&judged.states[..], &judged.words[..]), (states, words), "{file}");
        match judged.answer.answer {
            0 => assert_eq!(check_run(&named.sheet, states, judged.answer.a), 0),
            _ => assert_eq!(check_strikes(&named.sheet, states, words), 0),
        }
    }
    // The walk that puts the file's closing off for ever is no run.
    let put_off = &guide()[3].sheet;
    assert_eq!(check_run(put_off, &[7, 11], 0), 14);
    assert_eq!(check_run(put_off, &[7], 0), 14);
}

/// How many states, and which answer: reckoned by hand.
#[test]
fn source_sheets_are_as_meant() {
    // With no room for a run, 12 says that the sheet can be kept.
    let answer = |draft: Draft| {
        let (mut table, mut words, mut scratch) = ([7; 1024], [7; 1024], [7; 2048]);
        let sheet = draft.bytes();
        let answer = judge(&sheet, &mut table, &mut words, &mut scratch, &mut []).answer;
        (reachable(&sheet, 1024), answer)
    };
    // Seven ways to eat, each with the transitions that can fire: 4 + 4 x 2 + 2 x 2.
    assert_eq!(answer(philosophers(Dinner::Net)), (Some(16), 12));
    assert_eq!(answer(philosophers(Dinner::AllEat)), (Some(16), 12));
    assert_eq!(answer(philosophers(Dinner::TwoEat)), (Some(16), 13));
    // 3^6 less one; at least three playing; times no goalkeeper or one of those.
    assert_eq!(answer(football(Team::Plain)), (Some(728), 12));
    assert_eq!(answer(football(Team::Viable)), (Some(160 + 60 + 12), 12));
    assert_eq!(answer(football(Team::Goalkeeper)), (Some(160 * 4 + 60 * 5 + 12 * 6), 12));
    assert_eq!(answer(football(Team::AllInjured)), (Some(160 + 60 + 12), 13));
    for family in families() {
        assert!(reachable(&family.sheet, 16_384).is_some(), "{}", family.name);
    }
}
