//! The device that all actors share: the machine, its history and the guards of its places under one mutex.

use crate::aggregate::{Map, Op, MAPS_MAX};
use crate::line::Irq;
use crate::machine::*;
use crate::wire::*;
use std::fmt::{self, Display, Formatter};
use std::sync::{Condvar, Mutex, MutexGuard};

/// An actor's way to the driver, which fails at the call that was planned, and answers that it debounces the accepted lines; and the maps of
/// chips whose lines are those of requests.
#[derive(Default)]
pub struct Port {
    calls: u64,
    planned: u64,
    bits: u64,
    maps: Vec<Map>,
}

impl Port {
    pub fn plan(&mut self, nth: u64) {
        self.planned = self.calls + nth;
    }

    pub fn accept(&mut self, bits: u64) {
        self.bits = bits;
    }

    /// A port through which no call went, with the same maps.
    pub fn sibling(&self) -> Port {
        Port { maps: self.maps.clone(), ..Port::default() }
    }

    pub fn is_full(&self) -> bool {
        self.maps.len() == MAPS_MAX
    }

    pub fn learn(&mut self, map: Map) {
        self.maps.push(map);
    }

    pub fn map(&self, place: u8) -> Option<Map> {
        self.maps.iter().find(|map| map.place == place).cloned()
    }

    fn call(&mut self, configures: bool) -> Option<u64> {
        self.calls += 1;
        (self.calls != self.planned).then_some(if configures { self.bits } else { 0 })
    }
}

pub struct Entry {
    actor: u8,
    call: Call,
    reply: Reply,
}

/// A chip's file, or a request.
#[derive(Clone, Copy)]
pub struct Handle {
    pub chip: bool,
    pub place: u8,
    pub fd: u32,
}

struct State {
    machine: Machine,
    history: Vec<Entry>,
    inside: [u32; PLACES],
    closed: [bool; PLACES],
}

impl State {
    fn act(&mut self, actor: u8, call: Call) -> Result<(Reply, Vec<u8>), Errno> {
        let answer = self.machine.step(actor, &call);
        let reply = match &answer {
            Ok((reply, _)) => reply.clone(),
            Err(errno) => Reply::Refused(*errno),
        };
        self.history.push(Entry { actor, call, reply });
        answer
    }
}

pub struct Device {
    state: Mutex<State>,
    left: Condvar,
}

type Answer = Result<(Reply, Vec<u8>), Errno>;

impl Device {
    pub fn new() -> Device {
        let state = State { machine: Machine::new(), history: vec![], inside: [0; PLACES], closed: [false; PLACES] };
        Device { state: Mutex::new(state), left: Condvar::new() }
    }

    fn lock(&self) -> MutexGuard<'_, State> {
        self.state.lock().unwrap()
    }

    /// A call that needs no guard.
    pub fn call(&self, actor: u8, call: Call) -> Answer {
        self.lock().act(actor, call)
    }

    /// A call of one entry behind the guard of its place.
    pub fn guarded(&self, actor: u8, place: u8, poll: bool, call: Call) -> Answer {
        let mut state = self.lock();
        let closed = state.closed[usize::from(place)];
        state.act(actor, if closed { Call::Refused { place, poll } } else { call })
    }

    /// A removal: its first entry, the wait until nobody is inside its places, and its last entry.
    pub fn removal(&self, actor: u8, first: Call, last: Call) -> Result<(), Errno> {
        let mut state = self.lock();
        let (_, removed) = state.act(actor, first)?;
        let places = usize::from(removed[0])..usize::from(removed[0] + removed[1]);
        places.clone().for_each(|place| state.closed[place] = true);
        while places.clone().any(|place| state.inside[place] > 0) {
            state = self.left.wait(state).unwrap();
        }
        state.act(actor, last).map(|_| ())
    }

    /// A command on a file: what it is answered, and what it wrote to the buffer's start.
    pub fn command(&self, actor: u8, port: &mut Port, handle: Handle, cmd: u32, buffer: &[u8]) -> Answer {
        let Handle { chip, place, fd } = handle;
        let guard = usize::from(place);
        let long = size_of(chip, cmd).is_some_and(|size| buffer.len() >= size);
        let asks = long && [GET_LINE, SET_CONFIG, GET_VALUES, SET_VALUES].contains(&cmd);
        let call = |part: Part| Call::Ioctl { place, fd, cmd, bytes: buffer.into(), part };
        if !asks {
            return self.guarded(actor, place, false, call(Part::Whole));
        }
        let mut state = self.lock();
        if state.closed[guard] {
            return state.act(actor, Call::Refused { place, poll: false });
        }
        state.act(actor, call(Part::Ask))?;
        let offsets = state.machine.lines_asked(fd, cmd, buffer);
        state.inside[guard] += 1;
        drop(state);
        let answer = match port.map(place) {
            Some(map) => map.ask(self, actor, port, &Op::of(cmd, buffer, offsets.len()), &offsets),
            None => port.call([GET_LINE, SET_CONFIG].contains(&cmd)),
        };
        let mut state = self.lock();
        let told = state.act(actor, call(Part::Tell(answer)));
        state.inside[guard] -= 1;
        drop(state);
        self.left.notify_all();
        told
    }

    /// How many lines a request has.
    pub fn line_count(&self, handle: Handle) -> u32 {
        self.lock().machine.line_count(handle.fd)
    }

    /// How many entries the history has.
    pub fn entries(&self) -> usize {
        self.lock().history.len()
    }

    /// Adds the history's text.
    pub fn print_history(&self, out: &mut Vec<u8>) {
        for (i, Entry { actor, call, reply }) in self.lock().history.iter().enumerate() {
            print(out, format_args!("{i} {actor} "));
            print_call(out, call);
            out.extend_from_slice(b" -> ");
            print_reply(out, reply);
            out.push(b'\n');
        }
    }
}

/// A text of an entry as it is, or spelled as pairs behind a backslash.
struct Word<'a>(&'a [u8]);

impl Display for Word<'_> {
    fn fmt(&self, f: &mut Formatter) -> fmt::Result {
        let text = self.0;
        if !text.is_empty() && text != b"-" && text.iter().all(|b| (0x21..=0x7E).contains(b) && *b != b'\\') {
            return f.write_str(std::str::from_utf8(text).unwrap());
        }
        f.write_str("\\")?;
        text.iter().try_for_each(|b| write!(f, "{b:02x}"))
    }
}

fn end(last: bool) -> &'static str {
    if last {
        "finish"
    } else {
        "begin"
    }
}

fn print_call(out: &mut Vec<u8>, call: &Call) {
    match call {
        Call::Probe { label, lines, remote } => {
            print(out, format_args!("probe {} {lines} {}", Word(label), if *remote { "remote" } else { "sim" }))
        }
        Call::Unplug { place, last } => print(out, format_args!("unplug {place} {}", end(*last))),
        Call::MakeDir(path) => print(out, format_args!("mkdir {}", Word(path.as_bytes()))),
        Call::RemoveDir(path) => print(out, format_args!("rmdir {}", Word(path.as_bytes()))),
        Call::Write(path, value) => print(out, format_args!("write {} {}", Word(path.as_bytes()), Word(value))),
        Call::Read(path) => print(out, format_args!("read {}", Word(path.as_bytes()))),
        Call::Live(device) => print(out, format_args!("live {}", Word(device.as_bytes()))),
        Call::Remove { device, last } => print(out, format_args!("remove {} {}", Word(device.as_bytes()), end(*last))),
        Call::Tick(mono, real) => print(out, format_args!("tick {mono} {real}")),
        Call::Pin(place, pin) => print_pin(out, *place, *pin),
        Call::Irq(place, offset, what) => print(out, format_args!("{} {place} {offset}", irq_verb(*what))),
        Call::Pull { place, offset, up } => print(out, format_args!("pull {place} {offset} {}", u8::from(*up))),
        Call::Level { place, offset, pull: false } => print(out, format_args!("level {place} {offset}")),
        Call::Level { place, offset, pull: true } => print(out, format_args!("pullof {place} {offset}")),
        Call::OpenChip(path) => print(out, format_args!("open {}", Word(path.as_bytes()))),
        Call::Find(Some(place), name) => print(out, format_args!("find {place} {}", Word(name.as_bytes()))),
        Call::Find(None, name) => print(out, format_args!("find - {}", Word(name.as_bytes()))),
        Call::Ioctl { place, fd, cmd, bytes, part } => print_ioctl(out, (*place, *fd, *cmd), bytes, *part),
        Call::ReadEdges { place, fd, len } => print(out, format_args!("readline {place} {fd} {len}")),
        Call::ReadInfo { place, fd, len } => print(out, format_args!("readchip {place} {fd} {len}")),
        Call::PollLine(place, fd) => print(out, format_args!("pollline {place} {fd}")),
        Call::PollChip(place, fd) => print(out, format_args!("pollchip {place} {fd}")),
        Call::Close(fd) => print(out, format_args!("close {fd}")),
        Call::Refused { place, poll: false } => print(out, format_args!("refused {place} call")),
        Call::Refused { place, poll: true } => print(out, format_args!("refused {place} poll")),
    }
}

fn print_pin(out: &mut Vec<u8>, place: u8, pin: Pin) {
    match pin {
        Pin::Range(offset, pin, count) => print(out, format_args!("range {place} {offset} {pin} {count}")),
        Pin::Hold(pin) => print(out, format_args!("hold {place} {pin}")),
        Pin::Drop(pin) => print(out, format_args!("drop {place} {pin}")),
    }
}

fn irq_verb(what: Irq) -> &'static str {
    match what {
        Irq::Lock => "lock",
        Irq::Unlock => "unlock",
        Irq::Enable => "enable",
        Irq::Disable => "disable",
        Irq::Never => "none",
    }
}

fn print_ioctl(out: &mut Vec<u8>, (place, fd, cmd): (u8, u32, u32), bytes: &[u8], part: Part) {
    let verb = match part {
        Part::Whole => "ioctl",
        Part::Ask => "ask",
        Part::Tell(_) => "tell",
    };
    print(out, format_args!("{verb} {place} {fd} 0x{cmd:08x} {} ", bytes.len()));
    print_bytes(out, &bytes[..bytes.len().min(592)]);
    match part {
        Part::Tell(None) => out.extend_from_slice(b" fault"),
        Part::Tell(Some(bits)) => print(out, format_args!(" 0x{bits:016x}")),
        Part::Whole | Part::Ask => {}
    }
}

pub fn ready_text(ready: u8) -> &'static str {
    match ready {
        0 => "-",
        1 => "IN",
        _ => "HUP ERR",
    }
}

fn print_reply(out: &mut Vec<u8>, reply: &Reply) {
    match reply {
        Reply::Done => out.extend_from_slice(b"ok"),
        Reply::Number(n) => print(out, format_args!("ok {n}")),
        Reply::Go(n) => print(out, format_args!("go {n}")),
        Reply::Found(place, offset, count) => print(out, format_args!("ok {place} {offset} {count}")),
        Reply::Text(text) => print(out, format_args!("ok {}", Word(text))),
        Reply::Ready(ready) => print(out, format_args!("poll {}", ready_text(*ready))),
        Reply::Refused(errno) => out.extend_from_slice(errno.name().as_bytes()),
    }
}

/// An actor: its number, and its way to the driver.
pub struct Actor<'d> {
    pub device: &'d Device,
    pub number: u8,
    pub port: Port,
}

impl Actor<'_> {
    pub fn call(&self, call: Call) -> Answer {
        self.device.call(self.number, call)
    }

    pub fn guarded(&self, place: u8, call: Call) -> Answer {
        self.device.guarded(self.number, place, false, call)
    }

    pub fn open(&self, word: &str) -> Result<Handle, Errno> {
        match self.call(Call::OpenChip(word.into()))?.0 {
            Reply::Number(fd) => {
                let place = chip_number(word, PLACES as u64 - 1).unwrap() as u8;
                Ok(Handle { chip: true, place, fd: fd as u32 })
            }
            _ => unreachable!(),
        }
    }

    pub fn find(&self, place: Option<u8>, name: &str) -> Result<(u8, u32, u32), Errno> {
        match self.call(Call::Find(place, name.into()))?.0 {
            Reply::Found(place, offset, count) => Ok((place, offset, count)),
            _ => unreachable!(),
        }
    }

    pub fn ioctl(&mut self, handle: Handle, cmd: u32, buffer: &[u8]) -> Answer {
        self.device.command(self.number, &mut self.port, handle, cmd, buffer)
    }

    /// Requests lines of a chip.
    pub fn request(&mut self, chip: Handle, buffer: &[u8]) -> Result<Handle, Errno> {
        match self.ioctl(chip, GET_LINE, buffer)?.0 {
            Reply::Number(fd) => Ok(Handle { chip: false, place: chip.place, fd: fd as u32 }),
            _ => unreachable!(),
        }
    }

    /// Reads events or changes.
    pub fn read(&self, handle: Handle, len: u32) -> Result<Vec<u8>, Errno> {
        let Handle { chip, place, fd } = handle;
        let call = if chip { Call::ReadInfo { place, fd, len } } else { Call::ReadEdges { place, fd, len } };
        self.guarded(place, call).map(|answer| answer.1)
    }

    pub fn poll(&self, handle: Handle) -> Result<u8, Errno> {
        let Handle { chip, place, fd } = handle;
        let call = if chip { Call::PollChip(place, fd) } else { Call::PollLine(place, fd) };
        match self.device.guarded(self.number, place, true, call)?.0 {
            Reply::Ready(ready) => Ok(ready),
            _ => unreachable!(),
        }
    }

    pub fn close(&self, handle: Handle) -> Result<(), Errno> {
        self.call(Call::Close(handle.fd)).map(|_| ())
    }
}
