//! The command line: a verb, its options, its files.

use crate::text::names;

/// How the command is called in its repository, through the launcher, which hands over this name. The texts of the help are written so.
const LAUNCHED: &str = "bin/sheet";

/// The command's name as it was called: that of the launcher, else the one that it is installed under.
pub fn command() -> &'static str {
    let is_launched = std::env::args_os().next().is_some_and(|name| name == LAUNCHED);
    if is_launched {
        LAUNCHED
    } else {
        "sheet"
    }
}

/// A text of the help, with the command's name as it was called.
pub fn named_as_called(help: &str) -> String {
    help.replace(LAUNCHED, command())
}

/// An option that a verb takes.
pub struct Choice {
    /// Such as `--paper`.
    pub name: &'static str,
    /// What follows it, if anything does.
    pub value: Option<&'static str>,
    /// What it does.
    pub about: &'static str,
}

/// Options of every verb.
pub const COMMON: [Choice; 3] = [
    Choice { name: "--bytes", value: None, about: "take the sheet as bytes, whatever it looks like" },
    Choice { name: "--text", value: None, about: "take the sheet as text, whatever it looks like" },
    Choice { name: "--names", value: Some("NAME,NAME,.."), about: "names for the letters of a sheet of bytes (else a, b, ..)" },
];

/// A verb's options and files.
#[derive(Debug, Default)]
pub struct Call {
    /// The files, `-` for standard input.
    pub files: Vec<String>,
    chosen: Vec<(&'static str, Option<String>)>,
}

impl Call {
    /// Sorts a verb's arguments into options and files, or says what is wrong with them.
    pub fn new(arguments: &[String], choices: &[&'static Choice]) -> Result<Call, String> {
        let mut call = Call::default();
        let mut left = arguments.iter();
        while let Some(argument) = left.next() {
            if argument == "--" {
                call.files.extend(left.by_ref().cloned());
            } else if argument == "-" || !argument.starts_with('-') {
                call.files.push(argument.clone());
            } else {
                let chosen = choose(argument, &mut left, choices)?;
                if call.has(chosen.0) {
                    return Err(format!("{} is given twice", chosen.0));
                }
                call.chosen.push(chosen);
            }
        }
        if call.has("--bytes") && call.has("--text") {
            return Err("--bytes and --text cannot both be given".to_string());
        }
        Ok(call)
    }

    /// Whether this option was given.
    pub fn has(&self, name: &str) -> bool {
        self.chosen.iter().any(|(chosen, _)| *chosen == name)
    }

    /// What was given with this option.
    pub fn value(&self, name: &str) -> Option<&str> {
        self.chosen.iter().find(|(chosen, _)| *chosen == name).and_then(|(_, value)| value.as_deref())
    }
}

/// One option with its value, which stands behind `=` or as the next argument.
fn choose<'a>(
    argument: &str,
    left: &mut impl Iterator<Item = &'a String>,
    choices: &[&'static Choice],
) -> Result<(&'static str, Option<String>), String> {
    let (name, joined) = match argument.split_once('=') {
        Some((name, value)) => (name, Some(value.to_string())),
        None => (argument, None),
    };
    let Some(choice) = choices.iter().find(|choice| choice.name == name) else {
        let near = names::nearest(name, choices.iter().map(|choice| choice.name));
        let hint = near.map(|near| format!(", did you mean {near}")).unwrap_or_default();
        return Err(format!("there is no option {name}{hint}"));
    };
    match (choice.value, joined) {
        (None, None) => Ok((choice.name, None)),
        (None, Some(_)) => Err(format!("{name} takes no value")),
        (Some(_), Some(value)) => Ok((choice.name, Some(value))),
        (Some(what), None) => match left.next() {
            Some(value) => Ok((choice.name, Some(value.clone()))),
            None => Err(format!("{name} needs {what} behind it")),
        },
    }
}
