//! What the proved planner answers for the sheet in a file: the answer, then the numbers of the rules that it marks.
//!
//! The tests hold `sheet clash --numbers` against it, which makes the same trials one by one.

#![deny(warnings)]

use sheet::call::Call;
use sheet::input;
use sheet::proved::Room;

fn main() {
    let file = std::env::args().nth(1).expect("a file");
    let sheet = input::sheet_bytes(&file, &Call::default(), sheet::out::Colour::NONE);
    let sheet = sheet.unwrap_or_else(|trouble| panic!("{}", trouble.message));
    let (answer, rules) = Room::new().clash(&sheet);
    println!("{answer}{}", rules.iter().map(|rule| format!(" {rule}")).collect::<String>());
}
