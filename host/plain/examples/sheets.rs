//! `sheets FOLDER` writes the named sheets into the folder and prints the rows of
//! its README's table. `sheets` alone prints each sheet's bytes and its paper.

use plain::named::{all, bad, Judged, Named};

fn main() -> std::io::Result<()> {
    let folder = std::env::args().nth(1);
    for named in all() {
        let judged = Judged::of(&named.sheet);
        match &folder {
            Some(folder) => {
                std::fs::write(format!("{folder}/{}.sheet", named.file), &named.sheet)?;
                println!("| {}.sheet | {} | `{}` |", named.file, named.what, judged.line());
            }
            None => show(&named, &judged),
        }
    }
    for bad in bad() {
        let (named, judged) = (&bad.named, Judged::of(&bad.named.sheet));
        match &folder {
            Some(folder) => {
                std::fs::write(format!("{folder}/{}.sheet", named.file), &named.sheet)?;
                let (file, what) = (named.file, named.what);
                println!("| {file}.sheet | {what} | `{}` | {} |", judged.line(), bad.place);
            }
            None => show(named, &judged),
        }
    }
    Ok(())
}

fn show(named: &Named, judged: &Judged) {
    let bytes: Vec<String> = named.sheet.iter().map(|byte| format!("{byte:02X}")).collect();
    println!("{} ({})\n  {}", named.file, named.what, bytes.join(" "));
    println!("  {}; states {:?}, words {:?}", judged.line(), judged.states, judged.words);
}
