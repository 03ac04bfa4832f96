//! The command: finds the verb, helps, and gives the exit status.

#![deny(warnings)]

use sheet::answers::BAD;
use sheet::call::{command, named_as_called, Call};
use sheet::out::{self, Page};
use sheet::text::names;
use sheet::verbs::{Verb, ALL};
use std::process::ExitCode;

/// The loader calls this before the program begins, while a closed standard output can still be told from an open one: later the
/// language's own beginning puts /dev/null in its place.
#[used]
#[link_section = ".init_array"]
static LOOK_AT_OUTPUT: extern "C" fn() = out::look_at_output;

fn main() -> ExitCode {
    let mut page = Page::new();
    let arguments: Result<Vec<String>, _> = std::env::args_os().skip(1).map(|argument| argument.into_string()).collect();
    let done = match arguments {
        Ok(arguments) => answer(&arguments, &mut page),
        Err(odd) => Err(format!("{} is no text (UTF-8), so it cannot be a verb, an option or a file here", odd.to_string_lossy())),
    };
    if let Err(said) = done {
        page.say(&format!("sheet: {said}\n"));
        page.raise(BAD);
    }
    ExitCode::from(page.status())
}

/// Does what the arguments ask for, or says what is wrong with them.
fn answer(arguments: &[String], page: &mut Page) -> Result<(), String> {
    let all = format!("{} --help tells all verbs", command());
    let Some(first) = arguments.first() else {
        return Err(format!("a verb is needed; {all}"));
    };
    if first == "--help" || first == "-h" || first == "help" {
        let verb = arguments.get(1).and_then(|name| ALL.iter().find(|verb| verb.name == name));
        page.print(&verb.map_or_else(|| named_as_called(HELP), |verb| verb_help(verb)));
        return Ok(());
    }
    if first == "--version" {
        page.print(&version());
        return Ok(());
    }
    let Some(verb) = ALL.iter().find(|verb| verb.name == first) else {
        let near = names::nearest(first, ALL.iter().map(|verb| verb.name));
        let hint = near.map(|near| format!(", did you mean {near}")).unwrap_or_default();
        return Err(format!("there is no verb {first}{hint}; {all}"));
    };
    let rest = &arguments[1..];
    if rest.iter().take_while(|argument| *argument != "--").any(|argument| argument == "--help" || argument == "-h") {
        page.print(&verb_help(verb));
        return Ok(());
    }
    let more = format!("; {} {} --help tells more", command(), verb.name);
    let call = Call::new(rest, &verb.all_choices()).map_err(|said| format!("{}: {said}{more}", verb.name))?;
    let (least, most) = verb.files;
    if call.files.len() < least || call.files.len() > most {
        return Err(format!("{}: this needs {} behind it{more}", verb.name, verb.usage));
    }
    (verb.act)(&call, page).map_err(|said| format!("{}: {said}{more}", verb.name))
}

/// The command's help. bin/sheet shows the same file before anything is built.
const HELP: &str = include_str!("../help/sheet.txt");

/// Which program this is: its version, the commit that it was built from if that was known, and the toolchain that proved the library.
fn version() -> String {
    format!("sheet {}, {}, {}\n", env!("SHEET_VERSION"), env!("SHEET_COMMIT"), env!("SHEET_KIT"))
}

/// A verb's help.
fn verb_help(verb: &Verb) -> String {
    let text = named_as_called(verb.help);
    let mut help = format!("{} {} {}: {}\n\n{text}\nOptions:\n", command(), verb.name, verb.usage, verb.about);
    for choice in verb.all_choices() {
        let name = choice.value.map_or(choice.name.to_string(), |value| format!("{} {value}", choice.name));
        help += &format!("  {name:<22} {}\n", choice.about);
    }
    help
}
