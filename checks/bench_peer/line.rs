//! A line of a chip, its information and its interrupt, and the settings that a request gives to lines.

use crate::tree::Hog;
use crate::wire::*;

#[derive(Clone, Copy, PartialEq)]
pub enum Holder {
    Free,
    Claimed(u32),
    Held(u32),
    Hog,
}

pub struct Line {
    pub name: Vec<u8>,
    pub holder: Holder,
    pub consumer: Vec<u8>,
    pub flags: u64,
    pub period: u32,
    pub hard: bool,
    pub output: bool,
    pub drive: bool,
    pub pull: bool,
    pub raw: bool,
    pub settled: bool,
    pub deadline: Option<u64>,
    pub has_irq: bool,
    pub locked: bool,
    pub enabled: bool,
    pub pin_held: bool,
}

#[derive(Clone, Copy)]
pub struct Setting {
    pub flags: u64,
    pub value: bool,
    pub period: u32,
}

#[derive(Clone, Copy)]
pub enum Irq {
    Lock,
    Unlock,
    Enable,
    Disable,
    Never,
}

impl Line {
    pub fn new(name: Vec<u8>) -> Line {
        Line {
            name,
            holder: Holder::Free,
            consumer: vec![],
            flags: 0,
            period: 0,
            hard: false,
            output: false,
            drive: false,
            pull: false,
            raw: false,
            settled: false,
            deadline: None,
            has_irq: true,
            locked: false,
            enabled: false,
            pin_held: false,
        }
    }

    pub fn level(&self) -> bool {
        let held = matches!(self.holder, Holder::Held(_) | Holder::Hog);
        let floats = (self.flags & OPEN_DRAIN != 0 && self.drive) || (self.flags & OPEN_SOURCE != 0 && !self.drive);
        if held && self.output && !floats {
            self.drive
        } else {
            self.pull
        }
    }

    pub fn inverted(&self, level: bool) -> bool {
        level ^ (self.flags & ACTIVE_LOW != 0)
    }

    pub fn value(&self) -> bool {
        self.inverted(if self.is_debounced() { self.settled } else { self.level() })
    }

    /// The library debounces it, and not the driver.
    pub fn is_debounced(&self) -> bool {
        self.period != 0 && !self.hard
    }

    pub fn info(&self, offset: u32) -> Vec<u8> {
        let mut out = vec![0; 256];
        let has = self.holder != Holder::Free;
        let used = has || self.pin_held || self.locked;
        let consumer: &[u8] = match (has, self.locked) {
            (true, _) if self.consumer.is_empty() => b"?",
            (true, _) => &self.consumer,
            (false, true) => b"interrupt",
            (false, false) => b"",
        };
        let kept = if matches!(self.holder, Holder::Held(_)) { self.flags & !(INPUT | OUTPUT) } else { 0 };
        let direction = if self.output { OUTPUT } else { INPUT };
        put(&mut out, 0, &self.name);
        put(&mut out, 32, consumer);
        put(&mut out, 64, &offset.to_le_bytes());
        put(&mut out, 72, &(u64::from(used) | direction | kept).to_le_bytes());
        if self.period != 0 {
            put(&mut out, 68, &1u32.to_le_bytes());
            put(&mut out, 80, &3u32.to_le_bytes());
            put(&mut out, 88, &self.period.to_le_bytes());
        }
        out
    }

    /// Whether it can be given these settings, as far as its interrupt goes.
    pub fn interrupt_fault(&self, setting: &Setting) -> Result<(), Errno> {
        if (setting.flags & (RISING | FALLING) != 0 || setting.period != 0) && !self.has_irq {
            return Err(Errno::NxIo);
        }
        if setting.flags & OUTPUT != 0 && self.enabled {
            Err(Errno::Io)
        } else {
            Ok(())
        }
    }

    pub fn irq(&mut self, what: Irq) -> Result<(), Errno> {
        let claimed = matches!(self.holder, Holder::Claimed(_));
        let held = matches!(self.holder, Holder::Held(_));
        let drives = self.output && self.flags & OPEN_DRAIN == 0;
        let watched = held && (self.flags & (RISING | FALLING) != 0 || self.period != 0);
        let refusals: &[(bool, Errno)] = match what {
            Irq::Lock => &[(claimed, Errno::Busy), (!self.has_irq, Errno::NxIo), (drives, Errno::Io)],
            Irq::Enable => &[(!self.locked, Errno::Inval), (claimed, Errno::Busy), (drives, Errno::Io)],
            Irq::Unlock | Irq::Disable => &[(!self.locked, Errno::Inval)],
            Irq::Never => &[(self.locked || claimed || watched, Errno::Busy)],
        };
        if let Some((_, errno)) = refusals.iter().find(|r| r.0) {
            return Err(*errno);
        }
        match what {
            Irq::Never => self.has_irq = false,
            _ => {
                self.locked = !matches!(what, Irq::Unlock);
                self.enabled = matches!(what, Irq::Lock | Irq::Enable);
            }
        }
        Ok(())
    }
}

fn flag_fault(flags: u64) -> Result<(), Errno> {
    let has = |bits: u64| flags & bits != 0;
    let both = |a: u64, b: u64| has(a) && has(b);
    if has(!KNOWN) || has(USED) {
        return Err(Errno::Inval);
    }
    if has(HTE) {
        return Err(Errno::OpNotSupp);
    }
    let wrong = both(INPUT, OUTPUT)
        || (has(RISING | FALLING) && !has(INPUT))
        || both(OPEN_DRAIN, OPEN_SOURCE)
        || (has(OPEN_DRAIN | OPEN_SOURCE) && !has(OUTPUT))
        || (has(PULL_UP | PULL_DOWN | NO_BIAS) && !has(INPUT | OUTPUT))
        || (flags & (PULL_UP | PULL_DOWN | NO_BIAS)).count_ones() > 1;
    if wrong {
        Err(Errno::Inval)
    } else {
        Ok(())
    }
}

/// The settings that a line config gives to so many lines.
pub fn resolve(config: &[u8], lines: usize) -> Result<Vec<Setting>, Errno> {
    let attributes = u32_at(config, 8) as usize;
    if attributes > 10 || !is_zero(&config[12..32]) {
        return Err(Errno::Inval);
    }
    let mut settings = vec![];
    for i in 0..lines {
        let first = |id: u32| {
            let rows = config[32..32 + 24 * attributes].chunks(24);
            rows.into_iter().find(|row| u32_at(row, 0) == id && u64_at(row, 16) >> i & 1 == 1)
        };
        let flags = first(1).map_or(u64_at(config, 0), |row| u64_at(row, 8));
        let value = first(2).is_some_and(|row| u64_at(row, 8) >> i & 1 == 1);
        flag_fault(flags)?;
        if first(3).is_some() && flags & INPUT == 0 {
            return Err(Errno::Inval);
        }
        settings.push(Setting { flags, value, period: first(3).map_or(0, |row| u32_at(row, 8)) });
    }
    Ok(settings)
}

pub fn hogged(mut line: Line, hog: Option<Hog>) -> Line {
    if let Some(hog) = hog {
        line.holder = Holder::Hog;
        line.consumer = hog.name.into();
        line.output = hog.drives.is_some();
        line.drive = hog.drives == Some(true);
    }
    line
}
