//! The six tools.

use crate::device::{Actor, Handle};
use crate::options::{Opts, Tool};
use crate::wire::*;

struct Found {
    offset: u32,
    word: String,
    by_name: bool,
}

/// A tool that was started and holds a file.
pub struct Running {
    pub tool: Tool,
    pub handle: Handle,
    opts: Opts,
    lines: Vec<Found>,
    left: Option<u64>,
}

/// Closes what a refused tool has open, the newest first.
fn give_up(actor: &Actor, open: &[Handle], errno: Errno) -> Errno {
    for handle in open.iter().rev() {
        let _ = actor.close(*handle);
    }
    errno
}

/// Opens a chip and looks its lines up.
fn find_lines(actor: &Actor, opts: &Opts) -> Result<(Handle, Vec<Found>), Errno> {
    let chip = opts.chip.as_ref().map(|word| actor.open(word)).transpose()?;
    let open: Vec<Handle> = chip.into_iter().collect();
    let mut found = vec![];
    let mut places = vec![];
    for (word, _) in &opts.lines {
        let number = decimal(word, u64::from(u32::MAX)).filter(|_| chip.is_some() && !opts.by_name);
        if let Some(offset) = number {
            found.push(Found { offset: offset as u32, word: word.clone(), by_name: false });
            continue;
        }
        let (place, offset, count) =
            actor.find(chip.map(|c| c.place), word).map_err(|errno| give_up(actor, &open, errno))?;
        if opts.strict && count > 1 {
            return Err(give_up(actor, &open, Errno::Inval));
        }
        places.push(place);
        found.push(Found { offset, word: word.clone(), by_name: true });
    }
    match chip {
        Some(chip) => Ok((chip, found)),
        None if places.iter().any(|place| *place != places[0]) => Err(Errno::Inval),
        None => Ok((actor.open(&places[0].to_string())?, found)),
    }
}

/// The structure with which a tool requests its lines.
fn request_bytes(tool: Tool, opts: &Opts, lines: &[Found]) -> Vec<u8> {
    let mut out = vec![0; 592];
    for (i, line) in lines.iter().enumerate() {
        put(&mut out, 4 * i, &line.offset.to_le_bytes());
    }
    put(&mut out, 256, opts.consumer.as_bytes());
    let direction = if tool == Tool::Set { OUTPUT } else { INPUT };
    let edges = if tool == Tool::Watch { opts.edges } else { 0 };
    let low = if opts.active_low { ACTIVE_LOW } else { 0 };
    put(&mut out, 288, &(direction | edges | low | opts.drive | opts.bias).to_le_bytes());
    put(&mut out, 560, &(lines.len() as u32).to_le_bytes());
    let value = |(i, line): (usize, &(String, bool))| u64::from(line.1) << i;
    let attribute = match tool {
        Tool::Set => Some((2u32, opts.lines.iter().enumerate().map(value).sum())),
        _ => Some((3u32, u64::from(opts.period))).filter(|a| a.1 != 0),
    };
    if let Some((id, value)) = attribute {
        put(&mut out, 296, &1u32.to_le_bytes());
        put(&mut out, 320, &id.to_le_bytes());
        put(&mut out, 328, &value.to_le_bytes());
        put(&mut out, 336, &(u64::MAX >> (64 - lines.len())).to_le_bytes());
    }
    out
}

/// Requests a tool's lines, with its chip file closed again.
fn request(actor: &mut Actor, tool: Tool, opts: &Opts) -> Result<(Handle, Vec<Found>), Errno> {
    let (chip, lines) = find_lines(actor, opts)?;
    let bytes = request_bytes(tool, opts, &lines);
    let request = actor.request(chip, &bytes).map_err(|errno| give_up(actor, &[chip], errno))?;
    actor.close(chip).map_err(|errno| give_up(actor, &[request], errno))?;
    Ok((request, lines))
}

/// Runs a statement's tool.
pub fn run(actor: &mut Actor, tool: Tool, opts: &Opts, out: &mut Vec<u8>) -> Result<(), Errno> {
    match tool {
        Tool::Detect => detect(actor, opts, out),
        Tool::Info => info(actor, opts, out),
        Tool::Get => get(actor, opts, out),
        _ => request(actor, tool, opts).and_then(|(held, _)| actor.close(held)),
    }
}

/// The files to look at: those of the words, or of all places but those without a chip.
fn each_chip(
    actor: &mut Actor,
    words: Vec<String>,
    mut look: impl FnMut(&mut Actor, Handle) -> Result<Vec<u8>, Errno>,
    out: &mut Vec<u8>,
) -> Result<(), Errno> {
    let all = words.is_empty();
    let words = if all { (0..PLACES).map(|place| place.to_string()).collect() } else { words };
    for word in words {
        let chip = match actor.open(&word) {
            Err(Errno::NoEnt | Errno::NoDev) if all => continue,
            chip => chip?,
        };
        let text = look(actor, chip).map_err(|errno| give_up(actor, &[chip], errno))?;
        actor.close(chip)?;
        out.extend_from_slice(&text);
    }
    Ok(())
}

fn detect(actor: &mut Actor, opts: &Opts, out: &mut Vec<u8>) -> Result<(), Errno> {
    let look = |actor: &mut Actor, chip: Handle| {
        let info = actor.ioctl(chip, GET_CHIPINFO, &[0; 68])?.1;
        let mut out = [&name_at(&info, 0)[..], b" [", &name_at(&info, 32)].concat();
        print(&mut out, format_args!("] ({} lines)\n", u32_at(&info, 64)));
        Ok(out)
    };
    each_chip(actor, opts.lines.iter().map(|l| l.0.clone()).collect(), look, out)
}

fn info(actor: &mut Actor, opts: &Opts, out: &mut Vec<u8>) -> Result<(), Errno> {
    let look = |actor: &mut Actor, chip: Handle| {
        let info = actor.ioctl(chip, GET_CHIPINFO, &[0; 68])?.1;
        let lines = u32_at(&info, 64);
        let mut out = name_at(&info, 0);
        print(&mut out, format_args!(" - {lines} lines:\n"));
        for offset in 0..lines {
            let mut asked = [0; 256];
            put(&mut asked, 64, &offset.to_le_bytes());
            let told = actor.ioctl(chip, GET_LINEINFO, &asked)?.1;
            print_line(&mut out, &told, opts.unquoted);
        }
        Ok(out)
    };
    each_chip(actor, opts.chip.iter().cloned().collect(), look, out)
}

/// Adds a name as it is, or in quotes.
fn print_name(out: &mut Vec<u8>, name: &[u8], unquoted: bool) {
    let quote: &[u8] = if unquoted { b"" } else { b"\"" };
    out.extend_from_slice(quote);
    out.extend_from_slice(name);
    out.extend_from_slice(quote);
}

/// Adds gpioinfo's line of a line.
fn print_line(out: &mut Vec<u8>, info: &[u8], unquoted: bool) {
    let (name, flags) = (name_at(info, 0), u64_at(info, 72));
    print(out, format_args!("\tline {:>3}:\t", u32_at(info, 64)));
    let column = out.len();
    if name.is_empty() {
        out.extend_from_slice(b"unnamed");
    } else {
        print_name(out, &name, unquoted);
    }
    out.resize(out.len().max(column + 16), b' ');
    out.extend_from_slice(if flags & OUTPUT != 0 { b"\toutput" } else { b"\tinput" });
    print_flags(out, flags);
    if u32_at(info, 68) > 0 && u32_at(info, 80) == 3 {
        print(out, format_args!(" debounce-period={}us", u32_at(info, 88)));
    }
    if flags & USED != 0 {
        print_consumer(out, &name_at(info, 32), unquoted);
    }
    out.push(b'\n');
}

/// Adds the words of the flags that are set but for the direction.
fn print_flags(out: &mut Vec<u8>, flags: u64) {
    const EDGES: u64 = RISING | FALLING;
    let words = [
        (ACTIVE_LOW, ACTIVE_LOW, " active-low"),
        (OPEN_DRAIN, OPEN_DRAIN, " drive=open-drain"),
        (OPEN_SOURCE, OPEN_SOURCE, " drive=open-source"),
        (PULL_UP, PULL_UP, " bias=pull-up"),
        (PULL_DOWN, PULL_DOWN, " bias=pull-down"),
        (NO_BIAS, NO_BIAS, " bias=disabled"),
        (EDGES, EDGES, " edges=both"),
        (EDGES, RISING, " edges=rising"),
        (EDGES, FALLING, " edges=falling"),
        (REALTIME, REALTIME, " event-clock=realtime"),
    ];
    for (mask, bits, word) in words {
        if flags & mask == bits {
            out.extend_from_slice(word.as_bytes());
        }
    }
}

fn print_consumer(out: &mut Vec<u8>, consumer: &[u8], unquoted: bool) {
    if consumer.is_empty() {
        out.extend_from_slice(b" used");
    } else {
        out.extend_from_slice(b" consumer=");
        print_name(out, consumer, unquoted);
    }
}

fn get(actor: &mut Actor, opts: &Opts, out: &mut Vec<u8>) -> Result<(), Errno> {
    let (held, lines) = request(actor, Tool::Get, opts)?;
    let mut asked = [0; 16];
    put(&mut asked, 8, &(u64::MAX >> (64 - lines.len())).to_le_bytes());
    let told = actor.ioctl(held, GET_VALUES, &asked).map_err(|errno| give_up(actor, &[held], errno))?.1;
    actor.close(held)?;
    for (i, line) in lines.iter().enumerate() {
        let on = u64_at(&told, 0) >> i & 1 == 1;
        if i > 0 {
            out.push(b' ');
        }
        if opts.numeric {
            out.push(if on { b'1' } else { b'0' });
        } else {
            print_name(out, line.word.as_bytes(), opts.unquoted);
            out.extend_from_slice(if on { b"=active" } else { b"=inactive" });
        }
    }
    out.push(b'\n');
    Ok(())
}

/// Starts gpioset, gpiomon or gpionotify.
pub fn start(actor: &mut Actor, tool: Tool, opts: Opts) -> Result<Running, Errno> {
    let left = opts.count;
    if tool != Tool::Notify {
        let (handle, lines) = request(actor, tool, &opts)?;
        return Ok(Running { tool, handle, opts, lines, left });
    }
    let (handle, lines) = find_lines(actor, &opts)?;
    for line in &lines {
        let mut asked = [0; 256];
        put(&mut asked, 64, &line.offset.to_le_bytes());
        actor.ioctl(handle, WATCH, &asked).map_err(|errno| give_up(actor, &[handle], errno))?;
    }
    Ok(Running { tool, handle, opts, lines, left })
}

impl Running {
    /// Makes so many turns of a monitor. Whether it goes on.
    pub fn step(&mut self, actor: &Actor, turns: u64, out: &mut Vec<u8>) -> Result<bool, Errno> {
        for _ in 0..turns {
            match actor.poll(self.handle)? {
                0 => {}
                1 => return self.take(actor, out),
                _ => return Err(Errno::NoDev),
            }
        }
        out.extend_from_slice(b"idle\n");
        Ok(true)
    }

    fn take(&mut self, actor: &Actor, out: &mut Vec<u8>) -> Result<bool, Errno> {
        let most = self.left.map_or(16, |left| left.min(16)) as u32;
        let size = if self.handle.chip { 288 } else { 48 };
        for item in actor.read(self.handle, most * size as u32)?.chunks(size) {
            let (time, kind, offset) = match self.handle.chip {
                true => (u64_at(item, 256), u32_at(item, 264), u32_at(item, 64)),
                false => (u64_at(item, 0), u32_at(item, 8), u32_at(item, 12)),
            };
            if self.opts.kind != 0 && kind != self.opts.kind {
                continue;
            }
            out.extend_from_slice(self.item(time, kind, offset).as_bytes());
            out.push(b'\n');
            self.left = self.left.map(|left| left - 1);
        }
        if self.left == Some(0) {
            actor.close(self.handle)?;
        }
        Ok(self.left != Some(0))
    }

    fn item(&self, time: u64, kind: u32, offset: u32) -> String {
        let line = self.lines.iter().find(|line| line.offset == offset).unwrap();
        let words =
            if self.handle.chip { ["requested", "released", "reconfigured"] } else { ["rising", "falling", ""] };
        let event = words[kind as usize - 1];
        let chip = format!("gpiochip{}", self.handle.place);
        let Some(format) = &self.opts.format else {
            let word = if self.opts.unquoted { line.word.clone() } else { format!("\"{}\"", line.word) };
            let place = match (line.by_name, &self.opts.chip) {
                (false, _) => format!("{chip} {offset}"),
                (true, None) => word,
                (true, Some(_)) => format!("{chip} {offset} {word}"),
            };
            return format!("{}\t{event}\t{place}", seconds(time));
        };
        let mut out = String::new();
        let mut rest = format.chars();
        while let Some(c) = rest.next() {
            if c != '%' {
                out.push(c);
                continue;
            }
            match rest.next() {
                Some('o') => out += &offset.to_string(),
                Some('l') => out += if line.by_name { &line.word } else { "unnamed" },
                Some('c') => out += &chip,
                Some('e') => out += &kind.to_string(),
                Some('E') => out += event,
                Some('S') => out += &seconds(time),
                Some('%') => out.push('%'),
                Some(other) => out.extend(['%', other]),
                None => out.push('%'),
            }
        }
        out
    }
}
