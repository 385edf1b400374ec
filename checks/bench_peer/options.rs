//! The words of the tools.

use crate::wire::*;

#[derive(Clone, Copy, PartialEq)]
pub enum Tool {
    Detect,
    Info,
    Get,
    Set,
    Watch,
    Notify,
}

impl Tool {
    pub fn of(word: &str) -> Tool {
        match word {
            "gpiodetect" => Tool::Detect,
            "gpioinfo" => Tool::Info,
            "gpioget" => Tool::Get,
            "gpioset" => Tool::Set,
            "gpiomon" => Tool::Watch,
            _ => Tool::Notify,
        }
    }

    pub fn name(self) -> &'static str {
        match self {
            Tool::Detect => "gpiodetect",
            Tool::Info => "gpioinfo",
            Tool::Get => "gpioget",
            Tool::Set => "gpioset",
            Tool::Watch => "gpiomon",
            Tool::Notify => "gpionotify",
        }
    }
}

/// The options: short name, long name, the tools that have it, and whether it has a value.
const OPTIONS: [(&str, &str, &[Tool], bool); 14] = {
    use Tool::*;
    [
        ("-c", "--chip", &[Info, Get, Set, Watch, Notify], true),
        ("", "--by-name", &[Get, Set, Watch, Notify], false),
        ("-s", "--strict", &[Get, Set, Watch, Notify], false),
        ("", "--unquoted", &[Info, Get, Watch, Notify], false),
        ("", "--numeric", &[Get], false),
        ("-l", "--active-low", &[Get, Set, Watch], false),
        ("-b", "--bias", &[Get, Set, Watch], true),
        ("-d", "--drive", &[Set], true),
        ("-p", "--debounce-period", &[Watch], true),
        ("-e", "--edges", &[Watch], true),
        ("-e", "--event", &[Notify], true),
        ("-n", "--num-events", &[Watch, Notify], true),
        ("-F", "--format", &[Watch, Notify], true),
        ("-C", "--consumer", &[Get, Set, Watch], true),
    ]
};

#[derive(Default)]
pub struct Opts {
    pub chip: Option<String>,
    pub by_name: bool,
    pub strict: bool,
    pub unquoted: bool,
    pub numeric: bool,
    pub active_low: bool,
    pub bias: u64,
    pub drive: u64,
    /// gpiomon's edges as flags; gpionotify's kind of change, or 0 for all
    pub edges: u64,
    pub kind: u32,
    pub period: u32,
    pub count: Option<u64>,
    pub format: Option<String>,
    pub consumer: String,
    /// the line words, of gpioset with their values
    pub lines: Vec<(String, bool)>,
}

fn one_of(value: &str, words: &[(&str, u64)]) -> Option<u64> {
    words.iter().find(|w| w.0 == value).map(|w| w.1)
}

fn period(value: &str) -> Option<u32> {
    let digits = value.trim_end_matches(|c: char| !c.is_ascii_digit());
    let factor: u64 = match &value[digits.len()..] {
        "s" => 1_000_000,
        "ms" | "" => 1000,
        "us" => 1,
        _ => return None,
    };
    let whole = u128::from(decimal(digits, u64::MAX)?) * u128::from(factor);
    u32::try_from(whole).ok()
}

impl Opts {
    fn set(&mut self, long: &str, value: &str) -> Option<()> {
        let text = value.to_string();
        match long {
            "--chip" => self.chip = Some(text).filter(|t| t.len() <= 31).map(Some)?,
            "--by-name" => self.by_name = true,
            "--strict" => self.strict = true,
            "--unquoted" => self.unquoted = true,
            "--numeric" => self.numeric = true,
            "--active-low" => self.active_low = true,
            "--bias" => {
                self.bias = one_of(value, &[("disabled", NO_BIAS), ("pull-down", PULL_DOWN), ("pull-up", PULL_UP)])?
            }
            "--drive" => {
                self.drive =
                    one_of(value, &[("push-pull", 0), ("open-drain", OPEN_DRAIN), ("open-source", OPEN_SOURCE)])?
            }
            "--debounce-period" => self.period = period(value)?,
            "--edges" => {
                self.edges = one_of(value, &[("rising", RISING), ("falling", FALLING), ("both", RISING | FALLING)])?
            }
            "--event" => self.kind = one_of(value, &[("requested", 1), ("released", 2), ("reconfigured", 3)])? as u32,
            "--num-events" => self.count = Some(decimal(value, 1_000_000).filter(|&n| n > 0)?),
            "--format" => self.format = Some(text),
            _ => self.consumer = Some(text).filter(|t| t.len() <= 31)?,
        }
        Some(())
    }
}

fn set_line(word: &str) -> Option<(String, bool)> {
    let (line, value) = word.rsplit_once('=')?;
    let on = match value {
        "0" | "off" | "inactive" | "false" => false,
        "1" | "on" | "active" | "true" => true,
        _ => return None,
    };
    (!line.is_empty()).then(|| (line.to_string(), on))
}

/// A tool's options and line words, or none where the words are no such tool's.
pub fn read(tool: Tool, words: &[&str]) -> Option<Opts> {
    let mut opts = Opts { consumer: tool.name().into(), edges: RISING | FALLING, ..Opts::default() };
    let mut seen: Vec<&str> = vec![];
    let mut lines: Vec<&str> = vec![];
    let mut rest = words.iter();
    while let Some(&word) = rest.next() {
        if word == "--" {
            lines.extend(rest.by_ref());
        } else if !word.starts_with('-') || word == "-" {
            lines.push(word);
        } else {
            let (name, inside) = match word.split_once('=') {
                Some((name, value)) if word.starts_with("--") => (name, Some(value)),
                _ => (word, None),
            };
            let &(_, long, _, has_value) =
                OPTIONS.iter().find(|row| [row.0, row.1].contains(&name) && row.2.contains(&tool))?;
            let value = match (has_value, inside) {
                (true, Some(value)) => value,
                (true, None) => rest.next().filter(|v| !v.starts_with('-') || **v == "-")?,
                (false, None) => "-",
                (false, Some(_)) => return None,
            };
            if seen.contains(&long) || value.is_empty() {
                return None;
            }
            seen.push(long);
            opts.set(long, value)?;
        }
    }
    let (least, most) = match tool {
        Tool::Detect => (0, 16),
        Tool::Info => (0, 0),
        _ => (1, 64),
    };
    if !(least..=most).contains(&lines.len()) || lines.iter().any(|l| l.len() > 31) {
        return None;
    }
    for line in lines {
        opts.lines.push(if tool == Tool::Set { set_line(line)? } else { (line.into(), false) });
    }
    Some(opts)
}
