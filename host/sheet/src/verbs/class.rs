//! `class FILE..`: many sheets at once, a line for each, and how many can be kept.

use crate::call::{Call, Choice};
use crate::class::files::Files;
use crate::class::{look, told};
use crate::out::{Page, Progress};
use crate::story::count;
use crate::verbs::Verb;

/// The verb.
pub const VERB: Verb = Verb {
    name: "class",
    usage: "FILE..",
    about: "judge many sheets, a line for each",
    help: "Judges any number of sheets and prints a line for each: the file, the verdict, K or R, b, and why. K is the
number of livable states of a sheet that can be kept, R that of the reachable states of one that cannot; b is
how many moments the sample run has. For a bad sheet of bytes the line tells its number and the byte at fault,
for a text that is no sheet the line at fault. Unreadable is a file that is not there or cannot be read. The
last line counts the verdicts. Of a folder every file is taken, whatever its name ends in, but not those whose
names begin with a dot; --deep takes the files of the folders in it, too. All processors are used.

  bin/sheet class examples/w01.sheet examples/clock.txt
  bin/sheet class --csv examples > class.csv

Verdicts and numbers are the proved library's; why a sheet cannot be kept is this command's own phrase, and
`judge` tells more. docs/GUIDE.md has the names in --csv and --json.

Exit status: 0 can be kept, 1 cannot be kept, 2 a bad sheet, file or call, 3 no room (over 16,384 states can be
reached); of several sheets the greatest.
",
    files: (1, usize::MAX),
    choices: &[
        Choice { name: "--deep", value: None, about: "take the files of the folders in a folder, too" },
        Choice { name: "--csv", value: None, about: "for spreadsheets: a line for each file, parted by commas" },
        Choice { name: "--json", value: None, about: "for programs: all of it as JSON" },
    ],
    act,
};

fn act(call: &Call, page: &mut Page) -> Result<(), String> {
    if call.has("--names") {
        return Err("--names has no use here, for the sheets of a class need not have the same letters".to_string());
    }
    if call.has("--csv") && call.has("--json") {
        return Err("--csv and --json cannot both be given".to_string());
    }
    if call.files.iter().filter(|file| *file == "-").count() > 1 {
        return Err("standard input can be read once".to_string());
    }
    let mut files = Files::default();
    for named in &call.files {
        files.add(named, call.has("--deep")).unwrap_or_else(|trouble| page.trouble(&trouble));
    }
    if !files.files.is_empty() {
        judged(&files, call, page);
    }
    Ok(())
}

/// Judges the files and tells them.
fn judged(files: &Files, call: &Call, page: &mut Page) {
    let mut progress = Progress::new();
    let all = files.files.len();
    let class = look::all(&files.files, call, |done| {
        if done < all {
            progress.tell(page, || format!("class: {done} of {} so far", count(all, "file")));
        }
    });
    class.iter().for_each(|seen| page.raise(seen.verdict.status()));
    if call.has("--csv") {
        page.print(&told::csv(&class));
    } else if call.has("--json") {
        page.print(&format!("{}\n", told::as_json(&class)));
    } else {
        page.print(&told::table(&class));
        page.print(&told::sums(&class));
    }
    left_out(files, page);
}

/// What of a folder was not judged is told, so that nobody's sheet is lost.
fn left_out(files: &Files, page: &mut Page) {
    let left = [
        (files.folders, "folder in a folder was", "folders in a folder were", "not looked into; --deep takes the files there, too"),
        (files.links, "link to a folder was", "links to folders were", "not followed"),
        (files.hidden, "name that begins with a dot was", "names that begin with a dot were", "left out"),
        (files.odd, "thing that is no plain file was", "things that are no plain files were", "left out"),
    ];
    for (many, one, several, what) in left.into_iter().filter(|&(many, ..)| many > 0) {
        let told = if many == 1 { one } else { several };
        page.say(&format!("class: {many} {told} {what}\n"));
    }
}
