//! The statements of a section: what each asks of the device and prints.

use crate::aggregate::{Map, Target};
use crate::device::{ready_text, Actor, Handle};
use crate::line::Irq;
use crate::machine::{Call, Pin, Reply};
use crate::options::{self, Tool};
use crate::script::{command, label, Statement};
use crate::tools::{self, Running};
use crate::tree::live_device;
use crate::v1;
use crate::wire::*;
use std::collections::BTreeMap;

/// What a file is: a chip's, a request of v2, or one that a call of the first uAPI made.
#[derive(Clone, Copy, PartialEq)]
enum Kind {
    Chip,
    Request,
    Old(v1::Kind),
}

/// An open file.
#[derive(Clone, Copy)]
struct File {
    handle: Handle,
    kind: Kind,
}

/// The files and tools that are open, by their names, and what was printed.
#[derive(Default)]
pub struct Talk {
    files: BTreeMap<String, File>,
    tools: BTreeMap<String, Running>,
    /// Whether its statements are those of `setup`.
    pub in_setup: bool,
    pub out: Vec<u8>,
}

/// A line's file of a chip: the number of the chip, the offset, and the file's name.
fn line_file(path: &str) -> Option<(u8, u32, &str)> {
    let (chip, rest) = path.strip_prefix("gpiochip")?.split_once('/')?;
    let (line, file) = rest.strip_prefix("sim_gpio")?.split_once('/')?;
    let is_file = file == "pull" || file == "value";
    let (chip, offset) = (plain_decimal(chip, 63)?, plain_decimal(line, 9999)?);
    is_file.then_some((chip as u8, offset as u32, file))
}

fn number(word: &str) -> u64 {
    decimal(word, u64::MAX).unwrap()
}

fn small(word: &str) -> u32 {
    number(word) as u32
}

/// Nothing, or the error that is printed.
type Said = Result<(), Errno>;

impl Talk {
    /// The talk of `setup`.
    pub fn for_setup() -> Talk {
        Talk { in_setup: true, ..Talk::default() }
    }

    /// Runs a statement.
    pub fn say(&mut self, actor: &mut Actor, words: &Statement) {
        let said = match words[0] {
            "gpiodetect" | "gpioinfo" | "gpioget" | "gpioset" => {
                self.tool(actor, words);
                Ok(())
            }
            "start" => self.start(actor, words),
            "step" => self.step(actor, words),
            "stop" => self.stop(actor, words[1]),
            "open" => self.open(actor, words),
            "ioctl" => self.ioctl(actor, words),
            "ioctl1" => self.old_ioctl(actor, words),
            "events" => self.events(actor, words),
            "events1" => self.old_events(actor, words),
            "changes" => self.changes(actor, words),
            "poll" => self.poll(actor, words[1]),
            "close" => self.close(actor, words[1]),
            "read" => self.read(actor, words[1]),
            "aggregate" => self.aggregate(actor, words),
            _ => plain(actor, words),
        };
        if let Err(errno) = said {
            print(&mut self.out, format_args!("{}\n", errno.name()));
        }
    }

    /// The usage of a tool, or the error that ended it.
    fn end_of(&mut self, tool: Tool, why: &str) {
        print(&mut self.out, format_args!("{}: {why}\n", tool.name()));
    }

    fn file(&self, name: &str) -> Result<File, Errno> {
        self.files.get(name).copied().ok_or(Errno::BadF)
    }

    /// Closes all that is open, in order of the numbers.
    pub fn end(&mut self, actor: &Actor) {
        let files = std::mem::take(&mut self.files).into_values().map(|file| file.handle);
        let tools = std::mem::take(&mut self.tools).into_values().map(|tool| tool.handle);
        let mut open: Vec<Handle> = files.chain(tools).collect();
        open.sort_by_key(|handle| handle.fd);
        for handle in open {
            let _ = actor.close(handle);
        }
    }

    fn tool(&mut self, actor: &mut Actor, words: &Statement) {
        let tool = Tool::of(words[0]);
        let Some(opts) = options::read(tool, &words[1..]) else {
            return self.end_of(tool, "usage");
        };
        if let Err(errno) = tools::run(actor, tool, &opts, &mut self.out) {
            self.end_of(tool, errno.name());
        }
    }

    fn start(&mut self, actor: &mut Actor, words: &Statement) -> Said {
        if self.tools.contains_key(words[1]) {
            return Err(Errno::Exist);
        }
        let tool = Tool::of(words[2]);
        let Some(opts) = options::read(tool, &words[3..]) else {
            self.end_of(tool, "usage");
            return Ok(());
        };
        match tools::start(actor, tool, opts) {
            Ok(running) => drop(self.tools.insert(words[1].into(), running)),
            Err(errno) => self.end_of(tool, errno.name()),
        }
        Ok(())
    }

    fn step(&mut self, actor: &Actor, words: &Statement) -> Said {
        let running = self.tools.get_mut(words[1]).ok_or(Errno::BadF)?;
        if running.tool == Tool::Set {
            return Err(Errno::Inval);
        }
        match running.step(actor, number(words[2]), &mut self.out) {
            Ok(true) => {}
            Ok(false) => drop(self.tools.remove(words[1])),
            Err(errno) => {
                let ended = self.tools.remove(words[1]).unwrap();
                let _ = actor.close(ended.handle);
                self.end_of(ended.tool, errno.name());
            }
        }
        Ok(())
    }

    fn stop(&mut self, actor: &Actor, name: &str) -> Said {
        let ended = self.tools.remove(name).ok_or(Errno::BadF)?;
        if let Err(errno) = actor.close(ended.handle) {
            self.end_of(ended.tool, errno.name());
        }
        Ok(())
    }

    fn open(&mut self, actor: &Actor, words: &Statement) -> Said {
        if self.files.contains_key(words[1]) {
            return Err(Errno::Exist);
        }
        let handle = actor.open(words[2])?;
        self.files.insert(words[1].into(), File { handle, kind: Kind::Chip });
        Ok(())
    }

    /// A chip whose lines are those of requests.
    fn aggregate(&self, actor: &mut Actor, words: &Statement) -> Said {
        if !self.in_setup {
            return Err(Errno::Inval);
        }
        let files = words[2..].iter().map(|name| self.file(name)).collect::<Result<Vec<File>, Errno>>()?;
        if files.iter().any(|file| file.kind == Kind::Chip || actor.port.map(file.handle.place).is_some()) {
            return Err(Errno::Inval);
        }
        if actor.port.is_full() {
            return Err(Errno::NoSpc);
        }
        let targets: Vec<Target> = files.iter().map(|file| Target { handle: file.handle, lines: actor.device.line_count(file.handle) }).collect();
        let lines = targets.iter().map(|target| target.lines).sum();
        match actor.call(Call::Probe { label: label(words[1]).unwrap(), lines, remote: true })?.0 {
            Reply::Number(place) => actor.port.learn(Map { place: place as u8, targets }),
            _ => unreachable!(),
        }
        Ok(())
    }

    fn poll(&mut self, actor: &Actor, name: &str) -> Said {
        let ready = actor.poll(self.file(name)?.handle)?;
        print(&mut self.out, format_args!("{}\n", ready_text(ready)));
        Ok(())
    }

    fn close(&mut self, actor: &Actor, name: &str) -> Said {
        actor.close(self.file(name)?.handle)?;
        self.files.remove(name);
        Ok(())
    }

    /// Keeps a file that was made on a chip, by the last word of its statement.
    fn made(&mut self, words: &Statement, place: u8, fd: u64, kind: Kind) {
        let handle = Handle { chip: false, place, fd: fd as u32 };
        self.files.insert(words[words.len() - 1].into(), File { handle, kind });
        print(&mut self.out, format_args!("fd {fd}\n"));
    }

    fn show(&mut self, bytes: &[u8]) {
        print_bytes(&mut self.out, bytes);
        self.out.push(b'\n');
    }

    /// The file of a command, unless the name of the file that it makes is there.
    fn asked(&self, words: &Statement, makes: bool) -> Result<File, Errno> {
        let file = self.file(words[1])?;
        if makes && self.files.contains_key(words[words.len() - 1]) {
            return Err(Errno::Exist);
        }
        Ok(file)
    }

    fn ioctl(&mut self, actor: &mut Actor, words: &Statement) -> Said {
        let cmd = command(words[2]).unwrap();
        let File { handle, kind } = self.asked(words, cmd == GET_LINE)?;
        let sent = match kind {
            Kind::Old(_) => (0, vec![]),
            Kind::Chip | Kind::Request => (cmd, buffer_of(words, cmd == GET_LINE)),
        };
        let (reply, written) = actor.ioctl(handle, sent.0, &sent.1)?;
        match (sent.0, reply) {
            (GET_LINE, Reply::Number(fd)) => self.made(words, handle.place, fd, Kind::Request),
            (GET_CHIPINFO | GET_LINEINFO | WATCH | GET_VALUES, _) => self.show(&written),
            _ => {}
        }
        Ok(())
    }

    fn old_ioctl(&mut self, actor: &mut Actor, words: &Statement) -> Said {
        let cmd = v1::command(words[2]).unwrap();
        let File { handle, kind } = self.asked(words, v1::makes_file(cmd))?;
        let buffer = buffer_of(words, v1::makes_file(cmd));
        let kind = match kind {
            Kind::Chip => v1::Kind::Chip,
            Kind::Old(kind) => kind,
            Kind::Request => return actor.ioctl(handle, 0, &[]).map(|_| ()),
        };
        let sent = v1::sent(kind, cmd, &buffer);
        let (reply, written) = actor.ioctl(handle, sent.0, &sent.1)?;
        match (sent.0, reply) {
            (GET_LINE, Reply::Number(fd)) => self.made(words, handle.place, fd, Kind::Old(v1::made_kind(cmd, &buffer))),
            (GET_CHIPINFO | GET_LINEINFO | GET_VALUES, _) => self.show(&v1::received(kind, cmd, &written, &buffer)),
            _ => {}
        }
        Ok(())
    }

    fn items(&self, actor: &Actor, name: &str, len: u32, kind: Kind) -> Result<Vec<u8>, Errno> {
        let file = self.file(name)?;
        if file.kind != kind {
            return Err(Errno::Inval);
        }
        actor.read(file.handle, len)
    }

    fn old_events(&mut self, actor: &Actor, words: &Statement) -> Said {
        for item in self.items(actor, words[1], small(words[2]) / 16 * 48, Kind::Old(v1::Kind::Event))?.chunks(48) {
            let edge = if u32_at(item, 8) == 1 { "rising" } else { "falling" };
            print(&mut self.out, format_args!("{} {edge}\n", u64_at(item, 0)));
        }
        Ok(())
    }

    fn events(&mut self, actor: &Actor, words: &Statement) -> Said {
        for item in self.items(actor, words[1], small(words[2]), Kind::Request)?.chunks(48) {
            let edge = if u32_at(item, 8) == 1 { "rising" } else { "falling" };
            let (time, offset) = (u64_at(item, 0), u32_at(item, 12));
            let (seqno, line_seqno) = (u32_at(item, 16), u32_at(item, 20));
            print(&mut self.out, format_args!("{time} {edge} {offset} {seqno} {line_seqno}\n"));
        }
        Ok(())
    }

    fn changes(&mut self, actor: &Actor, words: &Statement) -> Said {
        for item in self.items(actor, words[1], small(words[2]), Kind::Chip)?.chunks(288) {
            let kind = ["requested", "released", "config"][u32_at(item, 264) as usize - 1];
            let (time, offset, flags) = (u64_at(item, 256), u32_at(item, 64), u64_at(item, 72));
            print(&mut self.out, format_args!("{time} {kind} {offset} 0x{flags:x}\n"));
        }
        Ok(())
    }

    /// Reads a file of the simulator: of a line, or of the configuration tree.
    fn read(&mut self, actor: &Actor, path: &str) -> Said {
        let Some((chip, offset, file)) = line_file(path) else {
            return match actor.call(Call::Read(path.into()))?.0 {
                Reply::Text(text) => {
                    self.out.extend_from_slice(&text);
                    self.out.push(b'\n');
                    Ok(())
                }
                _ => unreachable!(),
            };
        };
        let pull = file == "pull";
        let Reply::Number(level) = actor.guarded(chip, Call::Level { place: chip, offset, pull })?.0 else { unreachable!() };
        self.out.extend_from_slice(match (pull, level) {
            (false, 0) => b"0\n",
            (false, _) => b"1\n",
            (true, 0) => b"pull-down\n",
            (true, _) => b"pull-up\n",
        });
        Ok(())
    }
}

/// The bytes of a command's pieces.
fn buffer_of(words: &Statement, makes: bool) -> Vec<u8> {
    let end = if makes { words.len() - 2 } else { words.len() };
    let mut buffer = vec![];
    words[3..end].iter().filter(|word| **word != "-").for_each(|word| read_piece(word, &mut buffer));
    buffer
}

/// A statement that neither opens nor uses a file.
fn plain(actor: &mut Actor, words: &Statement) -> Said {
    let word = |i: usize| words[i].to_string();
    let chip = |i: usize| chip_number(words[i], 63).unwrap() as u8;
    match words[0] {
        "probe" => actor.call(Call::Probe { label: label(words[1]).unwrap(), lines: small(words[2]), remote: false }).map(|_| ()),
        "unplug" => {
            let place = chip(1);
            let call = |last| Call::Unplug { place, last };
            actor.device.removal(actor.number, call(false), call(true))
        }
        "mkdir" => actor.call(Call::MakeDir(word(1))).map(|_| ()),
        "rmdir" => actor.call(Call::RemoveDir(word(1))).map(|_| ()),
        "write" => write(actor, words[1], &label(words[2]).unwrap()),
        "clock" => actor.call(Call::Tick(number(words[1]), number(words[2]))).map(|_| ()),
        "fault" => {
            actor.port.plan(number(words[1]));
            Ok(())
        }
        "accept" => {
            actor.port.accept(number(words[1]));
            Ok(())
        }
        "pin" => {
            let place = chip(2);
            let what = match words[1] {
                "range" => Pin::Range(small(words[3]), small(words[4]), small(words[5])),
                "hold" => Pin::Hold(small(words[3])),
                _ => Pin::Drop(small(words[3])),
            };
            actor.guarded(place, Call::Pin(place, what)).map(|_| ())
        }
        _ => {
            let place = chip(2);
            let what = match words[1] {
                "lock" => Irq::Lock,
                "unlock" => Irq::Unlock,
                "enable" => Irq::Enable,
                "disable" => Irq::Disable,
                _ => Irq::Never,
            };
            actor.guarded(place, Call::Irq(place, small(words[3]), what)).map(|_| ())
        }
    }
}

fn write(actor: &Actor, path: &str, value: &[u8]) -> Said {
    if let Some((chip, offset, file)) = line_file(path) {
        if file == "value" {
            return Err(Errno::Perm);
        }
        if value != b"pull-up" && value != b"pull-down" {
            return Err(Errno::Inval);
        }
        return actor.guarded(chip, Call::Pull { place: chip, offset, up: value == b"pull-up" }).map(|_| ());
    }
    let Some(device) = live_device(path).map(String::from) else {
        return actor.call(Call::Write(path.into(), value.into())).map(|_| ());
    };
    match value {
        b"1" => actor.call(Call::Live(device)).map(|_| ()),
        b"0" => {
            let call = |last| Call::Remove { device: device.clone(), last };
            actor.device.removal(actor.number, call(false), call(true))
        }
        _ => Err(Errno::Inval),
    }
}
