//! Whether every theorem, definition, function and edit that docs/TRACE.md names stands where the page says: `trace TOP`.
//!
//! A cell of the page is made of clauses, parted by semicolons. The words of a clause before a name say its room: a capitalised word is a file
//! of that name in some crate's specs or proofs, another one a crate; `must-fail` and `edit` say that the name is an edit's. A name that stands
//! behind no room keeps that of the clause before it. A path must be there. What a person has to look at is not looked at here.

mod house;
mod page;

use house::House;

fn main() {
    let top = std::env::args().nth(1).unwrap_or_else(|| ".".to_string());
    let house = House::read(&top);
    let text = std::fs::read_to_string(format!("{top}/docs/TRACE.md")).expect("docs/TRACE.md can be read");
    let (mut passed, mut failed) = (0, 0);
    for claim in page::claims(&text, &house) {
        match house.missing(&claim) {
            None => passed += 1,
            Some(why) => {
                println!("docs/TRACE.md:{}: `{}` {why}", claim.line, claim.name);
                failed += 1;
            }
        }
    }
    println!("{passed} passed, {failed} failed");
    std::process::exit(i32::from(failed > 0));
}
