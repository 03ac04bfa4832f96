//! `read FILE`: a sheet's text.

use crate::call::Call;
use crate::input;
use crate::out::Page;
use crate::text::print;
use crate::verbs::Verb;

/// The verb.
pub const VERB: Verb = Verb {
    name: "read",
    usage: "FILE",
    about: "print a sheet as text",
    help: "Prints the text of a sheet of bytes. The letters get the names behind --names, else a, b, and so on.
Writing that text gives the same bytes.

  bin/sheet read examples/clock.sheet --names motor,file,summer,repeated
",
    files: (1, 1),
    choices: &[],
    act,
};

fn act(call: &Call, page: &mut Page) -> Result<(), String> {
    match input::sheet(&call.files[0], call, page.message_colour) {
        Ok(source) => page.print(&print::print(&source.sheet)),
        Err(trouble) => page.trouble(&trouble),
    }
    Ok(())
}
