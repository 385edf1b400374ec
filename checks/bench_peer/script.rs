//! The text of a session: its sections and statements, its first fault, its cost, and a generated one.

use crate::v1;
use crate::wire::*;

pub struct Refusal {
    pub line: usize,
    pub column: usize,
    pub kind: &'static str,
}

#[derive(Clone, PartialEq)]
pub enum Head {
    Setup,
    Actor(String),
    After,
}

pub type Statement<'a> = Vec<&'a str>;

pub struct Section<'a> {
    pub head: Head,
    pub statements: Vec<Statement<'a>>,
}

/// The form of a word of a statement.
#[derive(Clone, Copy)]
enum Form {
    /// so many letters, digits, `_`, `-`, `.` at most
    Text(usize),
    /// a label or a value, by the version of the session
    Value,
    Path,
    /// a number from .. to ..
    Number(u64, u64),
    Chip,
    Word,
    OneOf(&'static [&'static str]),
}

const NAME: Form = Form::Text(15);
const VALUE: Form = Form::Value;
const U32: Form = Form::Number(0, u32::MAX as u64);
const U64: Form = Form::Number(0, u64::MAX);
const TOOLS: [&str; 4] = ["gpiodetect", "gpioinfo", "gpioget", "gpioset"];

fn is_text(word: &str, most: usize, also: &[u8]) -> bool {
    let good = |b: u8| b.is_ascii_alphanumeric() || b"_-.".contains(&b) || also.contains(&b);
    (1..=most).contains(&word.len()) && word.bytes().all(good)
}

/// The bytes of a label or a value: a plain word's own, or those that `\` and hexadecimal pairs write.
pub fn label(word: &str) -> Option<Vec<u8>> {
    let Some(digits) = word.strip_prefix('\\') else {
        return is_text(word, 31, b"").then(|| word.into());
    };
    if !digits.bytes().all(|b| b.is_ascii_hexdigit()) || digits.len() % 2 != 0 {
        return None;
    }
    let pairs = (0..digits.len()).step_by(2).map(|at| &digits[at..at + 2]);
    let bytes: Vec<u8> = pairs.map(|pair| u8::from_str_radix(pair, 16).unwrap()).collect();
    ((1..=31).contains(&bytes.len()) && !bytes.contains(&0)).then_some(bytes)
}

impl Form {
    fn fits(self, version: Version, word: &str) -> bool {
        match self {
            Form::Text(most) => is_text(word, most, b""),
            Form::Value if version == Version::Three => label(word).is_some(),
            Form::Value => is_text(word, 31, b""),
            Form::Path => is_text(word, 127, b"/"),
            Form::Number(least, most) => decimal(word, most).is_some_and(|n| n >= least),
            Form::Chip => chip_number(word, 63).is_some(),
            Form::Word => word.len() <= 127,
            Form::OneOf(words) => words.contains(&word),
        }
    }
}

/// The number of a command's word, or the number itself.
pub fn command(word: &str) -> Option<u32> {
    if let Some(row) = CHIP_COMMANDS.iter().chain(&LINE_COMMANDS).find(|row| row.0 == word) {
        return Some(row.1);
    }
    hex_number(word)
}

/// The forms behind a statement's first word, for those that have a fixed list of them.
fn forms(word: &str, second: Option<&str>) -> Option<&'static [Form]> {
    const PIN: Form = Form::OneOf(&["range", "hold", "drop"]);
    Some(match word {
        "probe" => &[VALUE, Form::Number(1, LINES_MAX)],
        "unplug" => &[Form::Chip],
        "mkdir" | "rmdir" | "read" => &[Form::Path],
        "write" => &[Form::Path, VALUE],
        "clock" => &[U64, U64],
        "fault" => &[Form::Number(1, 1_000_000)],
        "accept" => &[U64],
        "pin" if second == Some("range") => &[PIN, Form::Chip, U32, U32, U32],
        "pin" => &[PIN, Form::Chip, U32],
        "irq" => &[Form::OneOf(&["lock", "unlock", "enable", "disable", "none"]), Form::Chip, U32],
        "open" => &[NAME, Form::Word],
        "events" => &[NAME, Form::Number(0, 49152)],
        "events1" => &[NAME, Form::Number(0, 16384)],
        "changes" => &[NAME, Form::Number(0, 9216)],
        "poll" | "close" | "stop" => &[NAME],
        "step" => &[NAME, Form::Number(1, 1000)],
        _ => return None,
    })
}

/// A word of a line, with its column.
type Placed<'a> = (usize, &'a str);
type Fault = (usize, &'static str);

fn behind(words: &[Placed]) -> usize {
    let (column, word) = words[words.len() - 1];
    column + word.len()
}

/// The words from `first` on have these forms, and, unless `open`, there are no more.
fn fit(version: Version, words: &[Placed], first: usize, forms: &[Form], open: bool) -> Result<(), Fault> {
    for (i, (column, word)) in words.iter().enumerate().skip(first) {
        match forms.get(i - first) {
            Some(form) if !form.fits(version, word) => return Err((*column, "word")),
            None if !open => return Err((*column, "words")),
            _ => {}
        }
    }
    if words.len() < first + forms.len() {
        Err((behind(words), "words"))
    } else {
        Ok(())
    }
}

/// Whether a command of `ioctl` or of `ioctl1` makes a file, if it is a command.
fn gives(statement: &str, word: &str) -> Option<bool> {
    if statement == "ioctl" {
        command(word).map(|cmd| cmd == GET_LINE)
    } else {
        v1::command(word).map(v1::makes_file)
    }
}

fn fit_ioctl(version: Version, words: &[Placed]) -> Result<(), Fault> {
    fit(version, &words[..words.len().min(2)], 1, &[NAME], false)?;
    let Some((column, word)) = words.get(2) else { return Err((behind(words), "words")) };
    let gives = gives(words[0].1, word).ok_or((*column, "word"))?;
    let mut total = 0;
    let mut at = 3;
    let alone = words.get(3).is_some_and(|w| w.1 == "-");
    if alone {
        at = 4;
    }
    while at < words.len() {
        let (column, word) = words[at];
        if gives && at > 3 && word == "as" {
            return fit(version, words, at + 1, &[NAME], false);
        }
        if alone {
            return Err((column, if gives { "word" } else { "words" }));
        }
        total += piece_len(word).ok_or((column, "word"))?;
        if total > 1024 {
            return Err((column, "limit"));
        }
        at += 1;
    }
    if gives || at == 3 {
        Err((behind(words), "words"))
    } else {
        Ok(())
    }
}

/// A label, and the names of one to four files.
fn fit_aggregate(version: Version, words: &[Placed]) -> Result<(), Fault> {
    fit(version, words, 1, &[VALUE, NAME], true)?;
    fit(version, &words[..words.len().min(6)], 1, &[VALUE, NAME, NAME, NAME, NAME][..words.len().min(6) - 1], false)?;
    words.get(6).map_or(Ok(()), |(column, _)| Err((*column, "words")))
}

fn fit_statement(version: Version, words: &[Placed]) -> Result<(), Fault> {
    match words[0].1 {
        "aggregate" => fit_aggregate(version, words),
        "ioctl" | "ioctl1" => fit_ioctl(version, words),
        "start" => fit(version, words, 1, &[NAME, Form::OneOf(&["gpioset", "gpiomon", "gpionotify"])], true),
        tool if TOOLS.contains(&tool) => Ok(()),
        word => match forms(word, words.get(1).map(|w| w.1)) {
            Some(forms) => fit(version, words, 1, forms, false),
            None => Err((words[0].0, "statement")),
        },
    }
}

fn begins_statement(word: &str) -> bool {
    ["aggregate", "ioctl", "ioctl1", "start"].contains(&word) || TOOLS.contains(&word) || forms(word, None).is_some()
}

/// The words of a line, or the fault of a byte or of a limit.
fn split(line: &[u8]) -> Result<Vec<Placed<'_>>, Fault> {
    if let Some(at) = line.iter().position(|b| !(0x20..=0x7E).contains(b)) {
        return Err((at + 1, "byte"));
    }
    let text = std::str::from_utf8(line).unwrap();
    let start = |word: &str| word.as_ptr() as usize - text.as_ptr() as usize + 1;
    let words: Vec<Placed> = text.split(' ').filter(|w| !w.is_empty()).map(|w| (start(w), w)).collect();
    match words.iter().enumerate().find(|(i, w)| w.1.len() > 1300 || *i == 128) {
        Some((_, w)) => Err((w.0, "limit")),
        None => Ok(words),
    }
}

fn rank(word: &str) -> Option<usize> {
    ["setup", "actor", "after"].iter().position(|w| *w == word)
}

/// Takes a section's line into the list of sections.
fn open_section<'a>(version: Version, words: &[Placed<'a>], sections: &mut Vec<Section<'a>>) -> Result<(), Fault> {
    let (column, word) = words[0];
    let new = rank(word).unwrap();
    let last = sections.last().map(|s| match s.head {
        Head::Setup => 0,
        Head::Actor(_) => 1,
        Head::After => 2,
    });
    if last.is_some_and(|last| new < last || (new == last && new != 1)) {
        return Err((column, "section"));
    }
    let actors = sections.iter().filter(|s| matches!(s.head, Head::Actor(_))).count();
    if new == 1 && actors == 16 {
        return Err((column, "limit"));
    }
    if new != 1 {
        fit(version, words, 1, &[], false)?;
        sections.push(Section { head: if new == 0 { Head::Setup } else { Head::After }, statements: vec![] });
        return Ok(());
    }
    fit(version, &words[..words.len().min(2)], 1, &[NAME], false)?;
    let head = Head::Actor(words[1].1.into());
    if sections.iter().any(|s| s.head == head) {
        return Err((words[1].0, "name"));
    }
    fit(version, words, 1, &[NAME], false)?;
    sections.push(Section { head, statements: vec![] });
    Ok(())
}

/// Which header a session has.
#[derive(Clone, Copy, PartialEq)]
enum Version {
    One,
    Two,
    Three,
}

fn take_line<'a>(line: &'a [u8], header: &mut Option<Version>, sections: &mut Vec<Section<'a>>) -> Result<(), Fault> {
    let words = split(line)?;
    if words.is_empty() || words[0].1.starts_with('#') {
        return Ok(());
    }
    let (column, word) = words[0];
    let Some(version) = *header else {
        *header = match words[..] {
            [(_, "session"), (_, "1")] => Some(Version::One),
            [(_, "session"), (_, "2")] => Some(Version::Two),
            [(_, "session"), (_, "3")] => Some(Version::Three),
            _ => return Err((column, "header")),
        };
        return Ok(());
    };
    if rank(word).is_some() {
        return open_section(version, &words, sections);
    }
    let Some(section) = sections.last_mut() else { return Err((column, "section")) };
    if !begins_statement(word) || (word == "accept" && version == Version::One) {
        return Err((column, "statement"));
    }
    fit_statement(version, &words)?;
    section.statements.push(words.iter().map(|w| w.1).collect());
    Ok(())
}

/// The sections of a session, or its first fault.
pub fn parse(bytes: &[u8]) -> Result<Vec<Section<'_>>, Refusal> {
    if bytes.len() > 1_048_576 {
        return Err(Refusal { line: 0, column: 0, kind: "too-long" });
    }
    let mut sections = vec![];
    let mut header = None;
    for (i, line) in bytes.split(|&b| b == b'\n').enumerate() {
        take_line(line, &mut header, &mut sections).map_err(|(column, kind)| Refusal { line: i + 1, column, kind })?;
    }
    if header.is_none() {
        return Err(Refusal { line: 1, column: 1, kind: "header" });
    }
    if whole_cost(&sections) > 300_000 {
        return Err(Refusal { line: 0, column: 0, kind: "cost" });
    }
    Ok(sections)
}

/// The cost of a session: five times that of its statements where one of them is an `aggregate`.
fn whole_cost(sections: &[Section]) -> u64 {
    let statements = || sections.iter().flat_map(|s| &s.statements);
    let sum: u64 = statements().map(|s| cost(s)).sum();
    if statements().any(|s| s[0] == "aggregate") { 5 * sum } else { sum }
}

/// How many entries a statement makes at most, the closing of what it opens among them.
pub fn cost(words: &Statement) -> u64 {
    let more = words.len() as u64 - 1;
    match words[0] {
        "fault" | "accept" | "close" | "stop" => 0,
        "write" | "unplug" | "open" => 2,
        "ioctl" | "ioctl1" => 2 + u64::from(gives(words[0], words[2]) == Some(true)),
        "gpiodetect" if more == 0 || words[1..] == ["--"] => 3 * PLACES as u64,
        "gpiodetect" => 3 * more,
        "gpioinfo" if words[1..].iter().any(|w| *w == "-c" || w.starts_with("--chip")) => LINES_MAX + 3,
        "gpioinfo" => PLACES as u64 * (LINES_MAX + 3),
        "gpioget" => more + 7,
        "gpioset" => more + 5,
        "start" if words[2] == "gpionotify" => 2 * (more - 2) + 2,
        "start" => more - 2 + 5,
        "step" => decimal(words[2], 1000).unwrap() + 1,
        _ => 1,
    }
}

/// A load of N rounds of a clock, a pull and a gpioget, over eight monitored lines.
pub fn generate(n: u64) -> String {
    let mut text = String::from("session 1\nsetup\nprobe gen 64\nopen A 0\n");
    text += "ioctl A GET_LINE 00000000 01000000 02000000 03000000 04000000 05000000 06000000 07000000 \
             00*256 34 00*271 08000000 00*28 as R\n";
    let mut x = n;
    for k in 1..=n {
        x = (x * 1_103_515_245 + 12345) % (1 << 31);
        let line = x / 65536 % 16;
        let pull = if x / 4_194_304 % 2 == 1 { "pull-up" } else { "pull-down" };
        text += &format!(
            "clock {} 0\nwrite gpiochip0/sim_gpio{line}/pull {pull}\ngpioget -c 0 {}\n",
            1000 * k,
            8 + line % 8
        );
        if k % 16 == 0 {
            text += "events R 6144\n";
        }
    }
    text + "events R 6144\n"
}
