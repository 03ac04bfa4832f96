//! `write FILE`: a sheet's bytes.

use crate::call::{command, Call};
use crate::input;
use crate::out::Page;
use crate::verbs::Verb;

/// The verb.
pub const VERB: Verb = Verb {
    name: "write",
    usage: "FILE",
    about: "write a sheet's bytes",
    help: "Reads a sheet as text and writes its bytes on standard output. docs/TEXT.md has the text form,
docs/FORMAT.md the bytes. Literals are put in the order that the bytes want.

  bin/sheet write examples/clock.txt > clock.sheet
",
    files: (1, 1),
    choices: &[],
    act,
};

fn act(call: &Call, page: &mut Page) -> Result<(), String> {
    if page.on_terminal() {
        return Err(format!("a terminal cannot show bytes; send them to a file: {} write FILE > FILE.sheet", command()));
    }
    match input::sheet(&call.files[0], call, page.message_colour) {
        Ok(source) => page.write(&source.bytes),
        Err(trouble) => page.trouble(&trouble),
    }
    Ok(())
}
