//! Cedar schemas, by proved calls: canonical texts, JSON, layout, and the exact faults of a text that is no schema.
//!
//! ```
//! assert_eq!(cedar_schema::recover("entity B; entity A in B;").unwrap(), "entity A in [B];\n\nentity B;\n");
//! ```
use std::error;
use std::fmt;
use std::slice;

#[repr(C)]
#[derive(Clone, Copy)]
struct Bytes {
    at: *const u8,
    len: usize,
}

impl Bytes {
    const fn none() -> Bytes {
        Bytes { at: std::ptr::NonNull::<u8>::dangling().as_ptr(), len: 0 }
    }

    fn of(bytes: &[u8]) -> Bytes {
        Bytes { at: bytes.as_ptr(), len: bytes.len() }
    }
}

#[repr(C)]
struct Filled {
    out: Bytes,
    err: Bytes,
}

type Call = unsafe extern "C" fn(*const u8, usize, *mut Filled) -> u8;

extern "C" {
    fn cedar_schema_recover(bytes: *const u8, len: usize, answer: *mut Filled) -> u8;
    fn cedar_schema_check(bytes: *const u8, len: usize, answer: *mut Filled) -> u8;
    fn cedar_schema_to_json(bytes: *const u8, len: usize, answer: *mut Filled) -> u8;
    fn cedar_schema_from_json(bytes: *const u8, len: usize, answer: *mut Filled) -> u8;
    fn cedar_schema_from_deprecated(bytes: *const u8, len: usize, answer: *mut Filled) -> u8;
    fn cedar_schema_format(bytes: *const u8, len: usize, answer: *mut Filled) -> u8;
    fn cedar_schema_report(bytes: *const u8, len: usize, answer: *mut Filled) -> u8;
    fn cedar_schema_complete(
        bytes: *const u8,
        len: usize,
        place: usize,
        answer: *mut Filled,
    ) -> u8;
    fn cedar_schema_same(
        first: *const u8,
        first_len: usize,
        second: *const u8,
        second_len: usize,
        answer: *mut Filled,
    ) -> u8;
    fn cedar_schema_include(
        old: *const u8,
        old_len: usize,
        new: *const u8,
        new_len: usize,
        answer: *mut Filled,
    ) -> u8;
    fn cedar_schema_run(
        words: *const Bytes,
        count: usize,
        bytes: *const u8,
        len: usize,
        answer: *mut Filled,
    ) -> u8;
    fn cedar_schema_free(answer: *mut Filled);
    fn cedar_schema_version() -> u32;
}

/// Why a text is no schema. Places are bytes from the start of the text.
#[derive(Clone, Debug, PartialEq, Eq)]
pub struct Fault {
    /// What is wrong.
    pub message: String,
    /// The first byte and the one behind the last, where the fault has a place.
    pub place: Option<(usize, usize)>,
    /// What the place stands for, such as what could stand there.
    pub label: Option<String>,
    /// How to mend it, where there is advice.
    pub help: Option<String>,
}

/// Why a call gives no text.
#[derive(Clone, Debug, PartialEq, Eq)]
pub enum Error {
    /// The text is no schema, for these reasons, of which there is at least one.
    Refused(Vec<Fault>),
    /// The input is not UTF-8.
    NotText,
    /// The input is longer than 16,777,216 bytes.
    TooLong,
    /// More than 256 brackets are open at one place of the input.
    TooDeep,
    /// Out of memory.
    Memory,
}

impl Error {
    /// The place of the first fault, where it has one.
    pub fn place(&self) -> Option<(usize, usize)> {
        match self {
            Error::Refused(faults) => faults.first().and_then(|fault| fault.place),
            _ => None,
        }
    }

    /// The advice on the first fault, where there is any.
    pub fn help(&self) -> Option<&str> {
        match self {
            Error::Refused(faults) => faults.first().and_then(|fault| fault.help.as_deref()),
            _ => None,
        }
    }
}

impl fmt::Display for Error {
    fn fmt(&self, out: &mut fmt::Formatter<'_>) -> fmt::Result {
        match self {
            Error::Refused(faults) => {
                for (number, fault) in faults.iter().enumerate() {
                    if number > 0 {
                        writeln!(out)?;
                    }
                    write!(out, "{}", fault.message)?;
                }
                Ok(())
            }
            Error::NotText => write!(out, "the input is not UTF-8"),
            Error::TooLong => write!(out, "the input is longer than 16777216 bytes"),
            Error::TooDeep => write!(out, "more than 256 brackets are open at one place"),
            Error::Memory => write!(out, "out of memory"),
        }
    }
}

impl error::Error for Error {}

/// What `run` answers.
#[derive(Clone, Debug, PartialEq, Eq)]
pub struct Answer {
    /// The exit code of such a run, or 8 where the input is nested too deep.
    pub status: u8,
    /// The output.
    pub out: Vec<u8>,
    /// The error output.
    pub err: Vec<u8>,
}

// The bytes of both outputs, which are given back.
fn taken(status: u8, mut filled: Filled) -> Answer {
    // SAFETY: the library fills an answer with pointers that are not null and so many bytes behind each.
    let (out, err) = unsafe {
        (
            slice::from_raw_parts(filled.out.at, filled.out.len).to_vec(),
            slice::from_raw_parts(filled.err.at, filled.err.len).to_vec(),
        )
    };
    // SAFETY: both outputs are those that the library handed out, and nothing else names them.
    unsafe { cedar_schema_free(&mut filled) };
    Answer { status, out, err }
}

fn answer(call: Call, input: &[u8]) -> Result<String, Error> {
    let mut filled = Filled { out: Bytes::none(), err: Bytes::none() };
    // SAFETY: pointer and length are those of one slice, lent for the call; the answer is this call's alone.
    let status = unsafe { call(input.as_ptr(), input.len(), &mut filled) };
    told(taken(status, filled))
}

// The output of an answer that is done.
fn told(answer: Answer) -> Result<String, Error> {
    let told = |bytes: Vec<u8>| String::from_utf8(bytes).expect("outputs are UTF-8");
    match answer.status {
        0 => Ok(told(answer.out)),
        1 => Err(Error::Refused(faults(&told(answer.err)))),
        5 => Err(Error::NotText),
        6 => Err(Error::TooLong),
        8 => Err(Error::TooDeep),
        _ => Err(Error::Memory),
    }
}

// The fault that the lines of one error say.
fn fault(block: &str) -> Fault {
    let mut found = Fault { message: String::new(), place: None, label: None, help: None };
    for line in block.trim_end_matches('\n').split('\n') {
        if let Some((place, label)) = line.strip_prefix("  at ").and_then(place_of) {
            if found.place.is_none() {
                found.place = Some(place);
                found.label = label;
            }
        } else if let Some(help) = line.strip_prefix("  help: ") {
            found.help = Some(help.to_owned());
        } else if found.place.is_none() && found.help.is_none() {
            if !found.message.is_empty() {
                found.message.push('\n');
            }
            found.message.push_str(line.strip_prefix("error: ").unwrap_or(line));
        }
    }
    found
}

// The place and the label of `START..END: LABEL`.
fn place_of(text: &str) -> Option<((usize, usize), Option<String>)> {
    let (place, label) = match text.split_once(": ") {
        Some((place, label)) => (place, Some(label.to_owned())),
        None => (text, None),
    };
    let (start, end) = place.split_once("..")?;
    Some(((start.parse().ok()?, end.parse().ok()?), label))
}

fn faults(text: &str) -> Vec<Fault> {
    let mut blocks: Vec<String> = Vec::new();
    for line in text.split_inclusive('\n') {
        if line.starts_with("error: ") || blocks.is_empty() {
            blocks.push(String::new());
        }
        if let Some(block) = blocks.last_mut() {
            block.push_str(line);
        }
    }
    blocks.iter().map(|block| fault(block)).collect()
}

/// The one canonical text of what a schema text means.
pub fn recover(text: &str) -> Result<String, Error> {
    answer(cedar_schema_recover, text.as_bytes())
}

/// How many entity types and actions a schema text declares.
pub fn check(text: &str) -> Result<(usize, usize), Error> {
    let told = answer(cedar_schema_check, text.as_bytes())?;
    let mut numbers = told.split_whitespace().filter_map(|word| word.parse().ok());
    match (numbers.next(), numbers.next()) {
        (Some(types), Some(actions)) => Ok((types, actions)),
        _ => unreachable!("the answer has two numbers"),
    }
}

/// The JSON form of a schema text.
pub fn to_json(text: &str) -> Result<String, Error> {
    answer(cedar_schema_to_json, text.as_bytes())
}

/// The canonical text of what a JSON schema means.
pub fn from_json(json: &str) -> Result<String, Error> {
    answer(cedar_schema_from_json, json.as_bytes())
}

/// The canonical text of what a schema in the deprecated form of JSON means.
pub fn from_deprecated(json: &str) -> Result<String, Error> {
    answer(cedar_schema_from_deprecated, json.as_bytes())
}

/// A schema text laid out anew, with its comments.
pub fn format(text: &str) -> Result<String, Error> {
    answer(cedar_schema_format, text.as_bytes())
}

/// What may stand at a place of a text.
#[derive(Clone, Debug, PartialEq, Eq)]
pub struct Completions {
    /// The kinds of tokens, as messages call them.
    pub kinds: Vec<String>,
    /// The names that complete the word that ends at the place.
    pub names: Vec<String>,
}

/// What may stand at a place, a byte offset. It is an error where the text before it has a fault, and where there is no
/// such place.
pub fn complete(text: &str, place: usize) -> Result<Completions, Error> {
    let mut filled = Filled { out: Bytes::none(), err: Bytes::none() };
    // SAFETY: pointer and length are those of one text, lent for the call; the answer is this call's alone.
    let status = unsafe { cedar_schema_complete(text.as_ptr(), text.len(), place, &mut filled) };
    let lines = told(taken(status, filled))?;
    let of = |what: &str| lines.lines().filter_map(|line| line.strip_prefix(what)).map(str::to_owned).collect();
    Ok(Completions { kinds: of("kind "), names: of("name ") })
}

/// What is reported of a schema text: its warnings or its faults, each as an object of JSON with the lines and the
/// columns of its places. A text with faults is no error here.
pub fn report(text: &str) -> Result<Vec<String>, Error> {
    let mut filled = Filled { out: Bytes::none(), err: Bytes::none() };
    // SAFETY: pointer and length are those of one text, lent for the call; the answer is this call's alone.
    let status = unsafe { cedar_schema_report(text.as_ptr(), text.len(), &mut filled) };
    let mut answer = taken(status, filled);
    if answer.status == 1 {
        answer.status = 0;
    }
    Ok(told(answer)?.split_terminator('\n').map(str::to_owned).collect())
}

/// Whether two schema texts mean the same. It is an error where one of them is no schema.
pub fn same(first: &str, second: &str) -> Result<bool, Error> {
    let mut filled = Filled { out: Bytes::none(), err: Bytes::none() };
    // SAFETY: pointers and lengths are those of two texts, lent for the call; the answer is this call's alone.
    let status = unsafe {
        cedar_schema_same(first.as_ptr(), first.len(), second.as_ptr(), second.len(), &mut filled)
    };
    Ok(told(taken(status, filled))? == "same\n")
}

/// `None` where the new schema admits all that the old one does, and else what the first value is about that it does
/// not admit. It is an error where one of them is no schema.
pub fn include(old: &str, new: &str) -> Result<Option<String>, Error> {
    let mut filled = Filled { out: Bytes::none(), err: Bytes::none() };
    // SAFETY: pointers and lengths are those of two texts, lent for the call; the answer is this call's alone.
    let status =
        unsafe { cedar_schema_include(old.as_ptr(), old.len(), new.as_ptr(), new.len(), &mut filled) };
    let found = told(taken(status, filled))?;
    Ok(found.strip_prefix("not included: ").map(|subject| subject.trim_end().to_owned()))
}

/// What the program `cedar_schema_tool` answers to these words and this input.
pub fn run(words: &[&[u8]], input: &[u8]) -> Answer {
    let words: Vec<Bytes> = words.iter().map(|word| Bytes::of(word)).collect();
    let mut filled = Filled { out: Bytes::none(), err: Bytes::none() };
    // SAFETY: each pointer and length are those of one slice, lent for the call; the answer is this call's alone.
    let status = unsafe {
        cedar_schema_run(words.as_ptr(), words.len(), input.as_ptr(), input.len(), &mut filled)
    };
    taken(status, filled)
}

/// The version of the library: major, minor, patch.
pub fn version() -> (u32, u32, u32) {
    // SAFETY: the call takes nothing.
    let number = unsafe { cedar_schema_version() };
    (number / 10000, number / 100 % 100, number % 100)
}
