//! The configuration tree of gpio-sim: its directories by their paths, each with its values.

use crate::wire::*;
use std::collections::BTreeMap;

#[derive(Clone, Copy, PartialEq)]
pub enum Device {
    Off,
    Live(u8),
    Leaving,
}

enum Kind {
    Device(Device),
    Bank { lines: Vec<u8>, label: Vec<u8> },
    Line { name: Vec<u8> },
    Hog { name: Vec<u8>, direction: Vec<u8> },
}

struct Dir {
    kind: Kind,
    /// how many were made before it
    made: u64,
}

/// A hog of a line: its name, and the level that it drives, if it drives one.
pub struct Hog {
    pub name: Vec<u8>,
    pub drives: Option<bool>,
}

/// What a bank becomes: its label, its number of lines, and of each of them the name and the hog.
pub struct Plan {
    pub label: Vec<u8>,
    pub lines: Vec<(Vec<u8>, Option<Hog>)>,
}

#[derive(Default)]
pub struct Tree {
    dirs: BTreeMap<String, Dir>,
    made: u64,
}

fn is_part(part: &str) -> bool {
    (1..=15).contains(&part.len()) && part.bytes().all(|b| b.is_ascii_alphanumeric() || b"_-.".contains(&b))
}

pub fn is_device(part: &str) -> bool {
    is_part(part) && !part.starts_with("gpiochip")
}

/// The device of the path `DEV/live`.
pub fn live_device(path: &str) -> Option<&str> {
    path.strip_suffix("/live").filter(|device| is_device(device))
}

fn line_number(part: &str) -> Option<u64> {
    plain_decimal(part.strip_prefix("line")?, 9999)
}

/// The number of lines that a value says.
fn line_count(value: &[u8]) -> Option<u64> {
    plain_decimal(std::str::from_utf8(value).ok()?, LINES_MAX)
}

/// The kind of a new directory of this path, if the path has the form of one.
fn kind_of(path: &str) -> Option<Kind> {
    let parts: Vec<&str> = path.split('/').collect();
    let good = is_device(parts[0])
        && parts.get(1).is_none_or(|bank| is_part(bank) && *bank != "live")
        && parts.get(2).is_none_or(|line| line_number(line).is_some())
        && parts.get(3).is_none_or(|hog| *hog == "hog");
    match (good, parts.len()) {
        (true, 1) => Some(Kind::Device(Device::Off)),
        (true, 2) => Some(Kind::Bank { lines: "1".into(), label: vec![] }),
        (true, 3) => Some(Kind::Line { name: vec![] }),
        (true, 4) => Some(Kind::Hog { name: vec![], direction: "input".into() }),
        _ => None,
    }
}

fn parent_of(path: &str) -> Option<&str> {
    path.rsplit_once('/').map(|(parent, _)| parent)
}

/// Divides the path of a file into its directory and its name, if a directory of that form has such a file.
fn file_of(path: &str) -> Option<(&str, &str)> {
    let (dir, file) = path.rsplit_once('/')?;
    let files: &[&str] = match kind_of(dir)? {
        Kind::Device(_) => &["live"],
        Kind::Bank { .. } => &["chip_name", "num_lines", "label"],
        Kind::Line { .. } => &["name"],
        Kind::Hog { .. } => &["name", "direction"],
    };
    files.contains(&file).then_some((dir, file))
}

impl Tree {
    fn kind(&self, path: &str) -> Option<&Kind> {
        self.dirs.get(path).map(|dir| &dir.kind)
    }

    fn device(&self, path: &str) -> Option<Device> {
        let device = path.split('/').next().unwrap();
        match self.kind(device)? {
            Kind::Device(state) => Some(*state),
            _ => None,
        }
    }

    /// The directories below one, by their paths.
    fn below(&self, path: &str) -> impl Iterator<Item = (&str, &Dir)> {
        let front = format!("{path}/");
        let behind = self.dirs.range(front.clone()..).map(|(path, dir)| (path.as_str(), dir));
        behind.take_while(move |(path, _)| path.starts_with(&front))
    }

    fn is_busy(&self, path: &str) -> bool {
        self.device(path).is_some_and(|state| state != Device::Off)
    }

    pub fn mkdir(&mut self, path: &str) -> Result<(), Errno> {
        let kind = kind_of(path).ok_or(Errno::Inval)?;
        if parent_of(path).is_some_and(|parent| !self.dirs.contains_key(parent)) {
            return Err(Errno::NoEnt);
        }
        if self.is_busy(path) {
            return Err(Errno::Busy);
        }
        if self.dirs.contains_key(path) {
            return Err(Errno::Exist);
        }
        if self.dirs.len() == 1024 {
            return Err(Errno::NoSpc);
        }
        self.dirs.insert(path.into(), Dir { kind, made: self.made });
        self.made += 1;
        Ok(())
    }

    pub fn rmdir(&mut self, path: &str) -> Result<(), Errno> {
        kind_of(path).ok_or(Errno::Inval)?;
        self.kind(path).ok_or(Errno::NoEnt)?;
        if self.is_busy(path) || self.below(path).next().is_some() {
            return Err(Errno::Busy);
        }
        self.dirs.remove(path);
        Ok(())
    }

    pub fn write(&mut self, path: &str, value: &[u8]) -> Result<(), Errno> {
        let (dir, file) = file_of(path).filter(|(_, file)| *file != "live").ok_or(Errno::Inval)?;
        self.kind(dir).ok_or(Errno::NoEnt)?;
        if file == "chip_name" {
            return Err(Errno::Perm);
        }
        if self.is_busy(dir) {
            return Err(Errno::Busy);
        }
        let is_name = (1..=31).contains(&value.len());
        let good = match file {
            "num_lines" => line_count(value).is_some_and(|n| n > 0),
            "direction" => [&b"input"[..], b"output-high", b"output-low"].contains(&value),
            _ => is_name,
        };
        if !good {
            return Err(Errno::Inval);
        }
        let place = match (&mut self.dirs.get_mut(dir).unwrap().kind, file) {
            (Kind::Bank { lines, .. }, "num_lines") => lines,
            (Kind::Bank { label, .. }, _) => label,
            (Kind::Hog { direction, .. }, "direction") => direction,
            (Kind::Hog { name, .. }, _) | (Kind::Line { name }, _) => name,
            (Kind::Device(_), _) => unreachable!(),
        };
        *place = value.into();
        Ok(())
    }

    pub fn read(&self, path: &str) -> Result<Vec<u8>, Errno> {
        let (dir, file) = file_of(path).ok_or(Errno::Inval)?;
        Ok(match (self.kind(dir).ok_or(Errno::NoEnt)?, file) {
            (Kind::Device(state), _) => if *state == Device::Off { "0" } else { "1" }.into(),
            (Kind::Bank { .. }, "chip_name") => self.chip_name(dir).into(),
            (Kind::Bank { lines, .. }, "num_lines") => lines.clone(),
            (Kind::Bank { label, .. }, _) => label.clone(),
            (Kind::Hog { direction, .. }, "direction") => direction.clone(),
            (Kind::Hog { name, .. }, _) | (Kind::Line { name }, _) => name.clone(),
        })
    }

    /// The paths of a device's banks, in order of their making.
    fn banks(&self, device: &str) -> Vec<&str> {
        let mut banks: Vec<_> = self.below(device).filter(|(_, dir)| matches!(dir.kind, Kind::Bank { .. })).collect();
        banks.sort_by_key(|(_, dir)| dir.made);
        banks.into_iter().map(|(path, _)| path).collect()
    }

    fn chip_name(&self, bank: &str) -> String {
        let device = parent_of(bank).unwrap();
        match self.device(device) {
            Some(Device::Live(first)) => {
                let at = self.banks(device).iter().position(|b| *b == bank).unwrap();
                format!("gpiochip{}", usize::from(first) + at)
            }
            _ => "none".into(),
        }
    }

    /// What the banks of a device become, where it may go live and so many places are left.
    pub fn check_live(&self, device: &str, left: usize) -> Result<Vec<Plan>, Errno> {
        match self.present(device)? {
            Device::Leaving => return Err(Errno::Busy),
            Device::Live(_) => return Err(Errno::Perm),
            Device::Off => {}
        }
        let banks = self.banks(device);
        if banks.is_empty() {
            return Err(Errno::Inval);
        }
        if banks.len() > left {
            return Err(Errno::NoSpc);
        }
        Ok(banks.iter().map(|bank| self.plan(bank)).collect())
    }

    pub fn check_remove(&self, device: &str) -> Result<(), Errno> {
        match self.present(device)? {
            Device::Leaving => Err(Errno::Busy),
            Device::Off => Err(Errno::Perm),
            Device::Live(_) => Ok(()),
        }
    }

    fn present(&self, device: &str) -> Result<Device, Errno> {
        if !is_device(device) {
            return Err(Errno::Inval);
        }
        self.device(device).ok_or(Errno::NoEnt)
    }

    pub fn set(&mut self, device: &str, state: Device) {
        if let Some(dir) = self.dirs.get_mut(device) {
            dir.kind = Kind::Device(state);
        }
    }

    fn plan(&self, bank: &str) -> Plan {
        let Some(Kind::Bank { lines, label }) = self.kind(bank) else { unreachable!() };
        let line = |offset: usize| {
            let path = format!("{bank}/line{offset}");
            let name = match self.kind(&path) {
                Some(Kind::Line { name }) => name.clone(),
                _ => vec![],
            };
            let hog = match self.kind(&format!("{path}/hog")) {
                Some(Kind::Hog { name, direction }) => {
                    let drives = (direction != b"input").then(|| direction == b"output-high");
                    Some(Hog { name: name.clone(), drives })
                }
                _ => None,
            };
            (name, hog)
        };
        Plan {
            label: if label.is_empty() { bank.replace('/', "-").into() } else { label.clone() },
            lines: (0..line_count(lines).unwrap() as usize).map(line).collect(),
        }
    }
}
