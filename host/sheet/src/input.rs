//! A file, or standard input, and the sheet in it in either form.

use crate::answers::{self, BAD};
use crate::bytes;
use crate::call::Call;
use crate::model::Sheet;
use crate::out::Colour;
use crate::story::count;
use crate::text::fault::{show_all, Fault};
use crate::text::{names, parse};
use std::io::Read;

/// The most bytes of a sheet's text; a sheet of 4,096 bytes with the longest names has a sixth of it.
const MOST_TEXT: usize = 1 << 20;
/// The most bytes of a paper's text: room for the longest run with long names.
const MOST_PAPER: usize = 1 << 28;

/// A good sheet: where it came from, what it says, its bytes.
pub struct Source {
    /// The file's name for messages.
    pub name: String,
    /// What it says, with names.
    pub sheet: Sheet,
    /// Its bytes, which the proved reader takes.
    pub bytes: Vec<u8>,
}

/// Why there is no sheet.
pub struct Trouble {
    /// A message with its line end.
    pub message: String,
    /// The exit status.
    pub status: u8,
    /// The proved reader's answer, if it was asked.
    pub answer: Option<u32>,
}

impl Trouble {
    /// A bad file or call.
    pub fn new(message: String) -> Trouble {
        Trouble { message: message + "\n", status: BAD, answer: None }
    }
}

/// How a file is named in messages.
pub fn shown(file: &str) -> String {
    if file == "-" {
        "standard input".to_string()
    } else {
        file.to_string()
    }
}

/// Do two names stand for one file that is there?
pub fn is_same_file(one: &str, other: &str) -> bool {
    match (std::fs::canonicalize(one), std::fs::canonicalize(other)) {
        (Ok(one), Ok(other)) => one == other,
        _ => false,
    }
}

/// Opens a file, or standard input for `-`.
pub fn open(file: &str) -> Result<Box<dyn Read>, Trouble> {
    if file == "-" {
        return Ok(Box::new(std::io::stdin().lock()));
    }
    if std::path::Path::new(file).is_dir() {
        return Err(Trouble::new(format!("{file}: this is a folder, and a file is needed")));
    }
    match std::fs::File::open(file) {
        Err(error) => Err(unread(file, &error)),
        Ok(open) => Ok(Box::new(open)),
    }
}

/// The trouble of a file that cannot be read.
pub fn unread(file: &str, error: &std::io::Error) -> Trouble {
    match error.kind() {
        std::io::ErrorKind::NotFound => Trouble::new(format!("{file}: there is no such file")),
        _ => Trouble::new(format!("{}: cannot be read: {error}", shown(file))),
    }
}

/// Reads a file, or standard input for `-`: at most `most` bytes.
fn load(file: &str, most: usize) -> Result<Vec<u8>, Trouble> {
    let mut content = Vec::new();
    open(file)?.take(most as u64 + 1).read_to_end(&mut content).map_err(|error| unread(file, &error))?;
    Ok(content)
}

/// Are these bytes, and no text? A text is not empty, does not begin with a byte below 9, and holds no bytes that are no text. A zero byte
/// in what else is a text is a fault of that text.
pub fn looks_like_bytes(content: &[u8]) -> bool {
    content.first().is_none_or(|&byte| byte < 9) || (content.contains(&0) && !is_text_with_zeros(content))
}

/// Is this a text in which zero bytes stand? UTF-16 looks like that, and so does a text whose file was not written to its end.
fn is_text_with_zeros(content: &[u8]) -> bool {
    let odd = |byte: &u8| (1..9).contains(byte) || (14..27).contains(byte);
    is_utf_16(content) || (!content.iter().any(odd) && std::str::from_utf8(content).is_ok())
}

/// Does it begin with the mark of UTF-16?
pub fn is_utf_16(content: &[u8]) -> bool {
    content.starts_with(&[0xff, 0xfe]) || content.starts_with(&[0xfe, 0xff])
}

/// The sheet in a file, in either form.
pub fn sheet(file: &str, call: &Call, colour: Colour) -> Result<Source, Trouble> {
    let content = load(file, MOST_TEXT)?;
    let name = shown(file);
    if is_bytes(&content, call) {
        return from_bytes(name, content, call, colour);
    }
    if call.has("--names") {
        return Err(Trouble::new(format!("{name}: --names is for a sheet of bytes, and this text names its letters itself")));
    }
    let text = as_text(&name, content, MOST_TEXT, colour)?;
    let sheet = parse::parse(&text).map_err(|faults| Trouble { message: show_all(&faults, &name, colour), status: BAD, answer: None })?;
    let bytes = bytes::write(&sheet);
    match answers::Fault::of_sheet(&bytes) {
        None => Ok(Source { name, sheet, bytes }),
        Some(fault) => Err(of_bytes(&name, &fault, colour)),
    }
}

fn from_bytes(name: String, bytes: Vec<u8>, call: &Call, colour: Colour) -> Result<Source, Trouble> {
    let mut sheet = bytes::read(&bytes).map_err(|fault| of_bytes(&name, &fault, colour))?;
    sheet.names = match call.value("--names") {
        None => names::defaults(sheet.names.len()),
        Some(list) => given_names(list, sheet.names.len()).map_err(|said| Trouble::new(format!("{name}: {said}")))?,
    };
    Ok(Source { name, sheet, bytes })
}

/// The trouble of a bad sheet of bytes.
fn of_bytes(name: &str, fault: &answers::Fault, colour: Colour) -> Trouble {
    Trouble { message: fault.show(name, colour), status: BAD, answer: Some(fault.number) }
}

/// The names behind `--names`, as many as the sheet has letters.
fn given_names(list: &str, letters: usize) -> Result<Vec<String>, String> {
    let given: Vec<String> = list.split(',').map(|name| name.trim().to_string()).collect();
    if let Some(refusal) = given.iter().find_map(|name| names::refusal(name)) {
        return Err(format!("--names: {refusal}"));
    }
    if let Some(at) = (1..given.len()).find(|&at| given[..at].contains(&given[at])) {
        return Err(format!("--names: `{}` is named twice", given[at]));
    }
    if given.len() != letters {
        return Err(format!("--names has {}, and the sheet has {}", count(given.len(), "name"), count(letters, "letter")));
    }
    Ok(given)
}

/// A file's content as text, or the trouble with it.
fn as_text(name: &str, content: Vec<u8>, most: usize, colour: Colour) -> Result<String, Trouble> {
    if content.len() > most {
        return Err(Trouble::new(format!("{name}: a text of over {most} bytes is too long")));
    }
    text_of(content).map_err(|fault| Trouble { message: fault.show(name, colour), status: BAD, answer: None })
}

/// Content as text, or the line that is none.
pub fn text_of(content: Vec<u8>) -> Result<String, Fault> {
    if is_utf_16(&content) {
        return Err(Fault::whole("this is a text in UTF-16").expected("a text in UTF-8; an editor can save it so"));
    }
    let text = String::from_utf8(content).map_err(|error| {
        let good = error.utf8_error().valid_up_to();
        let line = 1 + error.as_bytes()[..good].iter().filter(|&&byte| byte == b'\n').count();
        let said = format!("line {line} holds byte {:02x}, which is no text (UTF-8)", error.as_bytes()[good]);
        Fault::whole(said).expected("a text; --bytes takes the file as a sheet's bytes")
    })?;
    match text.find('\0') {
        None => Ok(text),
        Some(at) => {
            let said = zero_byte(text.as_bytes(), at);
            Err(Fault::whole(said).expected("a text without zero bytes; --bytes takes the file as a sheet's bytes"))
        }
    }
}

/// Where a zero byte of a text stands, in words.
pub fn zero_byte(text: &[u8], at: usize) -> String {
    let before = &text[..at];
    let line = 1 + before.iter().filter(|&&byte| byte == b'\n').count();
    let in_line = at - before.iter().rposition(|&byte| byte == b'\n').map_or(0, |end| end + 1);
    format!("this is text with a zero byte (NUL): line {line}, byte {} of the line", in_line + 1)
}

/// The text of a paper.
pub fn paper_text(file: &str, colour: Colour) -> Result<String, Trouble> {
    as_text(&shown(file), load(file, MOST_PAPER)?, MOST_PAPER, colour)
}

/// The content of a file that may be a sheet, or why it cannot be read.
pub fn content(file: &str) -> Result<Vec<u8>, String> {
    let content = load(file, MOST_TEXT).map_err(|trouble| {
        let said = trouble.message.trim_end();
        said.strip_prefix(&format!("{}: ", shown(file))).unwrap_or(said).to_string()
    })?;
    if content.len() > MOST_TEXT {
        return Err(format!("a file of over {MOST_TEXT} bytes is too long"));
    }
    Ok(content)
}

/// The bytes of the sheet in a file, in either form; of a sheet of bytes also if it is bad.
pub fn sheet_bytes(file: &str, call: &Call, colour: Colour) -> Result<Vec<u8>, Trouble> {
    let content = load(file, MOST_TEXT)?;
    if is_bytes(&content, call) {
        return Ok(content);
    }
    let name = shown(file);
    let text = as_text(&name, content, MOST_TEXT, colour)?;
    let sheet = parse::parse(&text).map_err(|faults| Trouble { message: show_all(&faults, &name, colour), status: BAD, answer: None })?;
    Ok(bytes::write(&sheet))
}

/// Is this content taken as bytes?
pub fn is_bytes(content: &[u8], call: &Call) -> bool {
    call.has("--bytes") || (!call.has("--text") && looks_like_bytes(content))
}
