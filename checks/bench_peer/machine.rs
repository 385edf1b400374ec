//! The machine in one thread: what it knows, and what each call does to it.

use crate::line::*;
use crate::tree::{Device, Tree};
use crate::wire::*;
use std::collections::{BTreeMap, BTreeSet, VecDeque};

#[derive(Clone, Copy, PartialEq)]
pub enum Phase {
    Up,
    Leaving,
    Gone,
}

struct Range {
    offset: u32,
    pin: u32,
    count: u32,
}

struct Chip {
    label: Vec<u8>,
    phase: Phase,
    remover: Option<u8>,
    device: Option<String>,
    /// Its values are the driver's, and so are its levels.
    remote: bool,
    lines: Vec<Line>,
    ranges: Vec<Range>,
}

struct Event {
    time: u64,
    rising: bool,
    offset: u32,
    seqno: u32,
    line_seqno: u32,
}

struct Request {
    place: u8,
    actor: u8,
    held: bool,
    offsets: Vec<u32>,
    settings: Vec<Setting>,
    capacity: usize,
    ring: VecDeque<Event>,
    seqno: u32,
    line_seqnos: BTreeMap<u32, u32>,
}

struct File {
    place: u8,
    watched: BTreeSet<u32>,
    changes: VecDeque<Vec<u8>>,
}

#[derive(Clone, Copy)]
pub enum Pin {
    Range(u32, u32, u32),
    Hold(u32),
    Drop(u32),
}

#[derive(Clone, Copy)]
pub enum Part {
    Whole,
    Ask,
    /// the driver's bits, or that it failed
    Tell(Option<u64>),
}

#[derive(Clone)]
pub enum Call {
    Probe { label: Vec<u8>, lines: u32, remote: bool },
    Unplug { place: u8, last: bool },
    MakeDir(String),
    RemoveDir(String),
    Write(String, Vec<u8>),
    Read(String),
    Live(String),
    Remove { device: String, last: bool },
    Tick(u64, u64),
    Pin(u8, Pin),
    Irq(u8, u32, Irq),
    Pull { place: u8, offset: u32, up: bool },
    Level { place: u8, offset: u32, pull: bool },
    OpenChip(String),
    Find(Option<u8>, String),
    Ioctl { place: u8, fd: u32, cmd: u32, bytes: Vec<u8>, part: Part },
    ReadEdges { place: u8, fd: u32, len: u32 },
    ReadInfo { place: u8, fd: u32, len: u32 },
    PollLine(u8, u32),
    PollChip(u8, u32),
    Close(u32),
    Refused { place: u8, poll: bool },
}

#[derive(Clone)]
pub enum Reply {
    Done,
    Number(u64),
    Go(u32),
    Found(u8, u32, u32),
    Text(Vec<u8>),
    Ready(u8),
    Refused(Errno),
}

type Answer = Result<(Reply, Vec<u8>), Errno>;

#[derive(Default)]
pub struct Machine {
    chips: Vec<Chip>,
    requests: BTreeMap<u32, Request>,
    files: BTreeMap<u32, File>,
    deadlines: BTreeSet<(u64, u8, u32)>,
    tree: Tree,
    given: u32,
    mono: u64,
    real: u64,
}

fn done() -> Answer {
    Ok((Reply::Done, vec![]))
}

impl Machine {
    pub fn new() -> Machine {
        Machine { given: 3, ..Machine::default() }
    }

    pub fn step(&mut self, actor: u8, call: &Call) -> Answer {
        match call {
            Call::Probe { label, lines, remote } => self.probe(label, *lines, *remote),
            Call::Unplug { place, last } => self.unplug(actor, *place, *last),
            Call::MakeDir(path) => self.tree.mkdir(path).and_then(|()| done()),
            Call::RemoveDir(path) => self.tree.rmdir(path).and_then(|()| done()),
            Call::Write(path, value) => self.tree.write(path, value).and_then(|()| done()),
            Call::Read(path) => self.tree.read(path).map(|text| (Reply::Text(text), vec![])),
            Call::Live(device) => self.live(device),
            Call::Remove { device, last } => self.remove(actor, device, *last),
            Call::Tick(mono, real) => self.tick(*mono, *real),
            Call::Pin(place, what) => self.pin(*place, *what),
            Call::Irq(place, offset, what) => self.line(*place, *offset)?.irq(*what).and_then(|()| done()),
            Call::Pull { place, offset, up } => self.pull(*place, *offset, *up),
            Call::Level { place, offset, pull } => {
                let line = self.simulated_line(*place, *offset)?;
                let level = if *pull { line.pull } else { line.level() };
                Ok((Reply::Number(u64::from(level)), vec![]))
            }
            Call::OpenChip(word) => self.open_chip(word),
            Call::Find(place, name) => self.find(*place, name.as_bytes()),
            Call::Ioctl { place, fd, cmd, bytes, part } => self.ioctl(actor, *place, *fd, *cmd, bytes, *part),
            Call::ReadEdges { place, fd, len } => self.read_edges(*place, *fd, *len),
            Call::ReadInfo { place, fd, len } => self.read_info(*place, *fd, *len),
            Call::PollLine(place, fd) => self.request(*place, *fd).map(|r| ready(!r.ring.is_empty())),
            Call::PollChip(place, fd) => self.file(*place, *fd).map(|f| ready(!f.changes.is_empty())),
            Call::Close(fd) => self.close(*fd),
            Call::Refused { poll: true, .. } => Ok((Reply::Ready(6), vec![])),
            Call::Refused { poll: false, .. } => Err(Errno::NoDev),
        }
    }

    fn chip(&mut self, place: u8) -> Result<&mut Chip, Errno> {
        self.chips.get_mut(usize::from(place)).ok_or(Errno::NoEnt)
    }

    fn line(&mut self, place: u8, offset: u32) -> Result<&mut Line, Errno> {
        self.chip(place)?.lines.get_mut(offset as usize).ok_or(Errno::Inval)
    }

    /// A line of a simulated chip.
    fn simulated_line(&mut self, place: u8, offset: u32) -> Result<&mut Line, Errno> {
        let remote = self.chip(place)?.remote;
        let line = self.line(place, offset)?;
        if remote {
            Err(Errno::Inval)
        } else {
            Ok(line)
        }
    }

    /// How many lines a request has.
    pub fn line_count(&self, fd: u32) -> u32 {
        self.requests.get(&fd).map_or(0, |request| request.offsets.len() as u32)
    }

    /// The lines that a command speaks of: those of its request, or those that GET_LINE asks for.
    pub fn lines_asked(&self, fd: u32, cmd: u32, bytes: &[u8]) -> Vec<u32> {
        match cmd {
            GET_LINE => (0..u32_at(bytes, 560) as usize).map(|i| u32_at(bytes, 4 * i)).collect(),
            _ => self.requests[&fd].offsets.clone(),
        }
    }

    /// A line that is known to be there.
    fn at(&mut self, place: u8, offset: u32) -> &mut Line {
        &mut self.chips[usize::from(place)].lines[offset as usize]
    }

    fn is_file(&self, place: u8, fd: u32) -> bool {
        self.files.get(&fd).is_some_and(|f| f.place == place)
    }

    fn is_request(&self, place: u8, fd: u32) -> bool {
        self.requests.get(&fd).is_some_and(|r| r.held && r.place == place)
    }

    fn file(&mut self, place: u8, fd: u32) -> Result<&mut File, Errno> {
        match (self.is_file(place, fd), self.is_request(place, fd)) {
            (true, _) => Ok(self.files.get_mut(&fd).unwrap()),
            (_, true) => Err(Errno::Inval),
            _ => Err(Errno::BadF),
        }
    }

    fn request(&mut self, place: u8, fd: u32) -> Result<&mut Request, Errno> {
        match (self.is_request(place, fd), self.is_file(place, fd)) {
            (true, _) => Ok(self.requests.get_mut(&fd).unwrap()),
            (_, true) => Err(Errno::Inval),
            _ => Err(Errno::BadF),
        }
    }

    /// That a number is left for a file.
    fn number_left(&self) -> Result<(), Errno> {
        let full = self.files.len() + self.requests.len() == 256 || self.given > 2_147_483_647;
        if full {
            Err(Errno::MFile)
        } else {
            Ok(())
        }
    }

    fn next_number(&mut self) -> u32 {
        self.given += 1;
        self.given - 1
    }

    fn probe(&mut self, label: &[u8], lines: u32, remote: bool) -> Answer {
        if self.chips.len() == PLACES {
            return Err(Errno::NoSpc);
        }
        let place = self.chips.len() as u64;
        let lines = (0..lines).map(|_| Line::new(vec![])).collect();
        self.add_chip(label, None, remote, lines);
        Ok((Reply::Number(place), vec![]))
    }

    fn add_chip(&mut self, label: &[u8], device: Option<String>, remote: bool, lines: Vec<Line>) {
        let label = label.into();
        self.chips.push(Chip { label, phase: Phase::Up, remover: None, device, remote, lines, ranges: vec![] });
    }

    fn live(&mut self, device: &str) -> Answer {
        let plans = self.tree.check_live(device, PLACES - self.chips.len())?;
        self.tree.set(device, Device::Live(self.chips.len() as u8));
        for plan in plans {
            let lines = plan.lines.into_iter().map(|(name, hog)| hogged(Line::new(name), hog)).collect();
            self.add_chip(&plan.label, Some(device.into()), false, lines);
        }
        done()
    }

    fn unplug(&mut self, actor: u8, place: u8, last: bool) -> Answer {
        let chip = self.chip(place)?;
        if last {
            return self.end_removal(actor, |chip, at| at == usize::from(place) && chip.device.is_none());
        }
        if chip.device.is_some() {
            return Err(Errno::Perm);
        }
        match chip.phase {
            Phase::Leaving => return Err(Errno::Busy),
            Phase::Gone => return Err(Errno::NoDev),
            Phase::Up => {}
        }
        chip.phase = Phase::Leaving;
        chip.remover = Some(actor);
        Ok((Reply::Done, vec![place, 1]))
    }

    fn remove(&mut self, actor: u8, device: &str, last: bool) -> Answer {
        if last {
            let ended = self.end_removal(actor, |chip, _| chip.device.as_deref() == Some(device));
            if ended.is_ok() {
                self.tree.set(device, Device::Off);
            }
            return ended;
        }
        self.tree.check_remove(device)?;
        self.tree.set(device, Device::Leaving);
        let mut places = vec![];
        for (place, chip) in self.chips.iter_mut().enumerate() {
            if chip.device.as_deref() == Some(device) && chip.phase == Phase::Up {
                chip.phase = Phase::Leaving;
                chip.remover = Some(actor);
                places.push(place as u8);
            }
        }
        Ok((Reply::Done, vec![places[0], places.len() as u8]))
    }

    /// Makes those chips Gone that this actor's removal made Leaving.
    fn end_removal(&mut self, actor: u8, of: impl Fn(&Chip, usize) -> bool) -> Answer {
        let mut ended = Err(Errno::Busy);
        for (place, chip) in self.chips.iter_mut().enumerate() {
            if of(chip, place) && chip.phase == Phase::Leaving && chip.remover == Some(actor) {
                chip.phase = Phase::Gone;
                chip.remover = None;
                chip.lines.iter_mut().for_each(|line| line.deadline = None);
                self.deadlines.retain(|due| usize::from(due.1) != place);
                ended = done();
            }
        }
        ended
    }

    fn tick(&mut self, mono: u64, real: u64) -> Answer {
        if mono < self.mono || mono >= 1 << 63 || real >= 1 << 63 {
            return Err(Errno::Inval);
        }
        self.mono = mono;
        self.real = real;
        while let Some(&(deadline, place, offset)) = self.deadlines.first() {
            if deadline > mono {
                break;
            }
            self.stop_timer(place, offset);
            let line = self.at(place, offset);
            if line.raw != line.settled {
                line.settled = line.raw;
                self.event(place, offset, deadline);
            }
        }
        done()
    }

    fn stop_timer(&mut self, place: u8, offset: u32) {
        if let Some(deadline) = self.at(place, offset).deadline.take() {
            self.deadlines.remove(&(deadline, place, offset));
        }
    }

    /// A line has changed to the level that it has settled at: an event of its request, where that direction is monitored.
    fn event(&mut self, place: u8, offset: u32, time: u64) {
        let real = self.real;
        let line = self.at(place, offset);
        let rising = line.inverted(if line.is_debounced() { line.settled } else { line.level() });
        let monitored = line.flags & (if rising { RISING } else { FALLING }) != 0;
        let time = if line.flags & REALTIME != 0 { real } else { time };
        let Holder::Held(fd) = line.holder else { return };
        let request = self.requests.get_mut(&fd).unwrap();
        if !monitored {
            return;
        }
        request.seqno = request.seqno.wrapping_add(1);
        let line_seqno = request.line_seqnos.entry(offset).or_default();
        *line_seqno = line_seqno.wrapping_add(1);
        let event = Event { time, rising, offset, seqno: request.seqno, line_seqno: *line_seqno };
        if request.ring.len() == request.capacity {
            request.ring.pop_front();
        }
        request.ring.push_back(event);
    }

    fn pull(&mut self, place: u8, offset: u32, up: bool) -> Answer {
        let mono = self.mono;
        let line = self.simulated_line(place, offset)?;
        let before = line.level();
        line.pull = up;
        let is_input = matches!(line.holder, Holder::Held(_)) && !line.output;
        if line.level() == before || !is_input {
            return done();
        }
        if !line.is_debounced() {
            self.event(place, offset, mono);
            return done();
        }
        line.raw = up;
        let deadline = mono + 1000 * u64::from(line.period);
        self.stop_timer(place, offset);
        self.at(place, offset).deadline = Some(deadline);
        self.deadlines.insert((deadline, place, offset));
        done()
    }

    fn pin(&mut self, place: u8, what: Pin) -> Answer {
        let chip = self.chip(place)?;
        let count_of_lines = chip.lines.len() as u64;
        let overlaps = |a: u32, b: u32, n: u32, m: u32| {
            u64::from(a) < u64::from(b) + u64::from(m) && u64::from(b) < u64::from(a) + u64::from(n)
        };
        if let Pin::Range(offset, pin, count) = what {
            let past =
                u64::from(offset) + u64::from(count) > count_of_lines || u64::from(pin) + u64::from(count) > 4096;
            let taken = chip
                .ranges
                .iter()
                .any(|r| overlaps(r.offset, offset, r.count, count) || overlaps(r.pin, pin, r.count, count));
            if count == 0 || past || taken {
                return Err(Errno::Inval);
            }
            if chip.ranges.len() == 16 {
                return Err(Errno::NoSpc);
            }
            chip.ranges.push(Range { offset, pin, count });
            return done();
        }
        let (Pin::Hold(pin) | Pin::Drop(pin)) = what else { unreachable!() };
        let range = chip.ranges.iter().find(|r| r.pin <= pin && pin - r.pin < r.count).ok_or(Errno::Inval)?;
        let line = &mut chip.lines[(range.offset + pin - range.pin) as usize];
        match what {
            Pin::Hold(_) if line.pin_held || line.holder != Holder::Free => Err(Errno::Busy),
            Pin::Drop(_) if !line.pin_held => Err(Errno::Inval),
            _ => {
                line.pin_held = matches!(what, Pin::Hold(_));
                done()
            }
        }
    }

    fn open_chip(&mut self, word: &str) -> Answer {
        let place = chip_number(word, PLACES as u64 - 1).ok_or(Errno::NoEnt)? as u8;
        match self.chip(place)?.phase {
            Phase::Gone => return Err(Errno::NoEnt),
            Phase::Leaving => return Err(Errno::NoDev),
            Phase::Up => {}
        }
        self.number_left()?;
        let fd = self.next_number();
        self.files.insert(fd, File { place, watched: BTreeSet::new(), changes: VecDeque::new() });
        Ok((Reply::Number(u64::from(fd)), vec![]))
    }

    fn find(&mut self, place: Option<u8>, name: &[u8]) -> Answer {
        let mut found = vec![];
        for (at, chip) in self.chips.iter().enumerate() {
            if chip.phase != Phase::Up || place.is_some_and(|place| usize::from(place) != at) {
                continue;
            }
            let named = chip.lines.iter().enumerate().filter(|(_, line)| line.name == name);
            found.extend(named.map(|(offset, _)| (at as u8, offset as u32)));
        }
        let first = found.first().ok_or(Errno::NoEnt)?;
        Ok((Reply::Found(first.0, first.1, found.len() as u32), vec![]))
    }

    fn close(&mut self, fd: u32) -> Answer {
        if self.files.remove(&fd).is_some() {
            return done();
        }
        if !self.requests.get(&fd).is_some_and(|r| r.held) {
            return Err(Errno::BadF);
        }
        let request = self.requests.remove(&fd).unwrap();
        for &offset in &request.offsets {
            self.free(request.place, offset);
        }
        self.notify(request.place, &request.offsets, 2);
        done()
    }

    fn free(&mut self, place: u8, offset: u32) {
        self.stop_timer(place, offset);
        let line = self.at(place, offset);
        line.holder = Holder::Free;
        line.consumer.clear();
        line.flags = 0;
        line.period = 0;
        line.hard = false;
    }

    fn notify(&mut self, place: u8, offsets: &[u32], kind: u32) {
        for &offset in offsets {
            let mut changed = self.at(place, offset).info(offset);
            changed.resize(288, 0);
            put(&mut changed, 256, &self.mono.to_le_bytes());
            put(&mut changed, 264, &kind.to_le_bytes());
            for file in self.files.values_mut() {
                if file.place == place && file.watched.contains(&offset) && file.changes.len() < 32 {
                    file.changes.push_back(changed.clone());
                }
            }
        }
    }

    fn read_edges(&mut self, place: u8, fd: u32, len: u32) -> Answer {
        let ring = &mut self.request(place, fd)?.ring;
        let room = len as usize / 48;
        if room == 0 {
            return Err(Errno::Inval);
        }
        let mut out = vec![];
        for event in ring.drain(..room.min(ring.len())) {
            let mut item = [0; 48];
            put(&mut item, 0, &event.time.to_le_bytes());
            let id = if event.rising { 1 } else { 2u32 };
            for (i, number) in [id, event.offset, event.seqno, event.line_seqno].iter().enumerate() {
                put(&mut item, 8 + 4 * i, &number.to_le_bytes());
            }
            out.extend(item);
        }
        read_answer(out)
    }

    fn read_info(&mut self, place: u8, fd: u32, len: u32) -> Answer {
        let changes = &mut self.file(place, fd)?.changes;
        let room = len as usize / 288;
        if room == 0 {
            return Err(Errno::Inval);
        }
        read_answer(changes.drain(..room.min(changes.len())).flatten().collect())
    }

    fn ioctl(&mut self, actor: u8, place: u8, fd: u32, cmd: u32, bytes: &[u8], part: Part) -> Answer {
        if let (GET_LINE, Part::Tell(answer)) = (cmd, part) {
            return self.get_line_tell(actor, place, bytes, answer);
        }
        let chip_file = self.is_file(place, fd);
        if !chip_file && !self.is_request(place, fd) {
            return Err(Errno::BadF);
        }
        let size = size_of(chip_file, cmd).ok_or(Errno::Inval)?;
        if bytes.len() < size {
            return Err(Errno::Fault);
        }
        let asks = [GET_LINE, SET_CONFIG, GET_VALUES, SET_VALUES].contains(&cmd);
        if asks == matches!(part, Part::Whole) {
            return Err(Errno::Inval);
        }
        match cmd {
            GET_CHIPINFO => self.chip_info(place),
            GET_LINEINFO | WATCH => self.line_info(place, fd, bytes, cmd == WATCH),
            UNWATCH => self.unwatch(place, fd, bytes),
            GET_LINE => self.get_line_ask(actor, place, bytes),
            SET_CONFIG => self.set_config(fd, bytes, part),
            GET_VALUES => self.get_values(fd, bytes, part),
            _ => self.set_values(fd, bytes, part),
        }
    }

    fn chip_info(&mut self, place: u8) -> Answer {
        let mut out = vec![0; 68];
        put(&mut out, 0, format!("gpiochip{place}").as_bytes());
        let chip = self.chip(place)?;
        put(&mut out, 32, &chip.label);
        put(&mut out, 64, &(chip.lines.len() as u32).to_le_bytes());
        Ok((Reply::Done, out))
    }

    fn line_info(&mut self, place: u8, fd: u32, bytes: &[u8], watch: bool) -> Answer {
        if !is_zero(&bytes[240..256]) {
            return Err(Errno::Inval);
        }
        let offset = u32_at(bytes, 64);
        let out = self.line(place, offset)?.info(offset);
        if watch && !self.file(place, fd)?.watched.insert(offset) {
            return Err(Errno::Busy);
        }
        Ok((Reply::Done, out))
    }

    fn unwatch(&mut self, place: u8, fd: u32, bytes: &[u8]) -> Answer {
        let offset = u32_at(bytes, 0);
        self.line(place, offset)?;
        if !self.file(place, fd)?.watched.remove(&offset) {
            return Err(Errno::Busy);
        }
        Ok((Reply::Done, bytes[..4].to_vec()))
    }

    fn pending(&self, actor: u8) -> Option<u32> {
        self.requests.iter().find(|(_, r)| !r.held && r.actor == actor).map(|(fd, _)| *fd)
    }

    fn get_line_ask(&mut self, actor: u8, place: u8, bytes: &[u8]) -> Answer {
        let count = u32_at(bytes, 560) as usize;
        if count == 0 || count > 64 || !is_zero(&bytes[568..588]) {
            return Err(Errno::Inval);
        }
        let settings = resolve(&bytes[288..560], count)?;
        self.number_left()?;
        if self.pending(actor).is_some() {
            return Err(Errno::Busy);
        }
        let offsets: Vec<u32> = (0..count).map(|i| u32_at(bytes, 4 * i)).collect();
        for (i, &offset) in offsets.iter().enumerate() {
            let line = self.line(place, offset)?;
            if line.holder != Holder::Free || line.pin_held || offsets[..i].contains(&offset) {
                return Err(Errno::Busy);
            }
            line.interrupt_fault(&settings[i])?;
        }
        let fd = self.next_number();
        for &offset in &offsets {
            let line = self.at(place, offset);
            line.holder = Holder::Claimed(fd);
            line.consumer = name_at(bytes, 256);
        }
        let capacity = match u32_at(bytes, 564) as usize {
            0 => 16 * count,
            asked => asked.min(1024),
        };
        let (ring, line_seqnos) = (VecDeque::new(), BTreeMap::new());
        let request = Request { place, actor, held: false, offsets, settings, capacity, ring, seqno: 0, line_seqnos };
        self.requests.insert(fd, request);
        Ok((Reply::Go(fd), vec![]))
    }

    fn get_line_tell(&mut self, actor: u8, place: u8, bytes: &[u8], answer: Option<u64>) -> Answer {
        let fd = self.pending(actor).filter(|fd| self.requests[fd].place == place).ok_or(Errno::Inval)?;
        let offsets = self.requests[&fd].offsets.clone();
        let Some(bits) = answer else {
            self.requests.remove(&fd);
            offsets.iter().for_each(|&offset| self.free(place, offset));
            return Err(Errno::Io);
        };
        let request = self.requests.get_mut(&fd).unwrap();
        request.held = true;
        let settings = request.settings.clone();
        for (i, (&offset, setting)) in offsets.iter().zip(&settings).enumerate() {
            self.at(place, offset).holder = Holder::Held(fd);
            self.configure(place, offset, setting, bits >> i & 1 == 1);
        }
        self.notify(place, &offsets, 1);
        let mut out = bytes[..592].to_vec();
        put(&mut out, 588, &fd.to_le_bytes());
        Ok((Reply::Number(u64::from(fd)), out))
    }

    fn configure(&mut self, place: u8, offset: u32, setting: &Setting, accepted: bool) {
        let remote = self.chips[usize::from(place)].remote;
        let line = self.at(place, offset);
        let before = (line.period, line.hard);
        line.flags = setting.flags;
        line.period = setting.period;
        line.hard = setting.period != 0 && accepted;
        if setting.flags & (PULL_UP | PULL_DOWN) != 0 && !remote {
            line.pull = setting.flags & PULL_UP != 0;
        }
        if setting.flags & OUTPUT != 0 {
            line.output = true;
            line.drive = line.inverted(setting.value);
        } else if setting.flags & INPUT != 0 {
            line.output = false;
        } else if line.output {
            line.drive = line.pull;
        }
        if before != (line.period, line.hard) {
            line.raw = line.level();
            line.settled = line.level();
            self.stop_timer(place, offset);
        }
    }

    fn set_config(&mut self, fd: u32, bytes: &[u8], part: Part) -> Answer {
        let request = &self.requests[&fd];
        let (place, offsets) = (request.place, request.offsets.clone());
        let settings = resolve(&bytes[..272], offsets.len())?;
        let directed = |s: &Setting| s.flags & (INPUT | OUTPUT) != 0;
        let changed: Vec<(usize, (u32, Setting))> = offsets.into_iter().zip(settings).enumerate().filter(|(_, (_, s))| directed(s)).collect();
        for (_, (offset, setting)) in &changed {
            self.at(place, *offset).interrupt_fault(setting)?;
        }
        if let Some(go) = go_or_fault(part) {
            return go;
        }
        let bits = if let Part::Tell(Some(bits)) = part { bits } else { 0 };
        for (i, (offset, setting)) in &changed {
            self.configure(place, *offset, setting, bits >> i & 1 == 1);
        }
        let offsets: Vec<u32> = changed.iter().map(|c| c.1.0).collect();
        self.notify(place, &offsets, 3);
        done()
    }

    fn get_values(&mut self, fd: u32, bytes: &[u8], part: Part) -> Answer {
        let request = &self.requests[&fd];
        let (place, offsets) = (request.place, request.offsets.clone());
        let mask = u64_at(bytes, 8);
        if masked(mask, offsets.len()) == 0 {
            return Err(Errno::Inval);
        }
        if let Some(go) = go_or_fault(part) {
            return go;
        }
        let remote = self.chips[usize::from(place)].remote;
        let answered = if let Part::Tell(Some(bits)) = part { bits } else { 0 };
        let mut bits = 0;
        for (i, &offset) in offsets.iter().enumerate() {
            let line = self.at(place, offset);
            let value = if remote && !line.is_debounced() { answered >> i & 1 == 1 } else { line.value() };
            bits |= (mask >> i & 1 & u64::from(value)) << i;
        }
        Ok((Reply::Done, [bits.to_le_bytes(), mask.to_le_bytes()].concat()))
    }

    fn set_values(&mut self, fd: u32, bytes: &[u8], part: Part) -> Answer {
        let request = &self.requests[&fd];
        let (place, offsets) = (request.place, request.offsets.clone());
        let (bits, mask) = (u64_at(bytes, 0), u64_at(bytes, 8));
        let chosen: Vec<(usize, u32)> = offsets.into_iter().enumerate().filter(|(i, _)| mask >> i & 1 == 1).collect();
        if chosen.iter().any(|(_, offset)| !self.at(place, *offset).output) {
            return Err(Errno::Perm);
        }
        if chosen.is_empty() {
            return Err(Errno::Inval);
        }
        if let Some(go) = go_or_fault(part) {
            return go;
        }
        for (i, offset) in chosen {
            let line = self.at(place, offset);
            line.drive = line.inverted(bits >> i & 1 == 1);
        }
        done()
    }
}

/// The mask's bits of so many lines.
fn masked(mask: u64, lines: usize) -> u64 {
    mask & (u64::MAX >> (64 - lines))
}

/// What an ask that has passed its checks is answered, and a tell whose driver failed.
fn go_or_fault(part: Part) -> Option<Answer> {
    match part {
        Part::Ask => Some(Ok((Reply::Go(0), vec![]))),
        Part::Tell(None) => Some(Err(Errno::Io)),
        _ => None,
    }
}

fn ready(waits: bool) -> (Reply, Vec<u8>) {
    (Reply::Ready(u8::from(waits)), vec![])
}

fn read_answer(out: Vec<u8>) -> Answer {
    if out.is_empty() {
        Err(Errno::Again)
    } else {
        Ok((Reply::Number(out.len() as u64), out))
    }
}
