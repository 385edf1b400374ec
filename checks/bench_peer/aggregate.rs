//! A driver over a driver: what it is asked at a place with a map, it asks the map's requests, by commands of its own.

use crate::device::{Device, Handle, Port};
use crate::line::{resolve, Setting};
use crate::wire::*;

/// How many maps a port keeps.
pub const MAPS_MAX: usize = 4;

/// A request whose lines stand in a chip, and how many it has.
#[derive(Clone, Copy)]
pub struct Target {
    pub handle: Handle,
    pub lines: u32,
}

/// The requests whose lines, joined in order, are those of the chip at a place.
#[derive(Clone)]
pub struct Map {
    pub place: u8,
    pub targets: Vec<Target>,
}

/// What a driver is asked for the lines of a request.
pub enum Op {
    Get,
    Set { mask: u64, bits: u64 },
    Apply(Vec<Setting>),
}

impl Op {
    /// What a command asks the driver, on a request with so many lines; GET_LINE's are those that it asks for.
    pub fn of(cmd: u32, buffer: &[u8], lines: usize) -> Op {
        let settings = |config: &[u8]| resolve(config, lines).unwrap_or_default();
        match cmd {
            GET_LINE => Op::Apply(settings(&buffer[288..560])),
            SET_CONFIG => Op::Apply(settings(&buffer[..272])),
            SET_VALUES => Op::Set { bits: u64_at(buffer, 0), mask: u64_at(buffer, 8) },
            _ => Op::Get,
        }
    }

    /// Whether a target is asked for the operation's line at this position.
    fn has(&self, position: usize) -> bool {
        match self {
            Op::Set { mask, .. } => mask >> position & 1 == 1,
            Op::Get | Op::Apply(_) => true,
        }
    }

    /// The command on a target's request for these lines of the operation (position in it, position in the request), if it can be spelled.
    fn command(&self, lines: &[(usize, u32)]) -> Option<(u32, Vec<u8>)> {
        let word = |of: &dyn Fn(usize) -> bool| lines.iter().filter(|(i, _)| of(*i)).fold(0u64, |word, (_, at)| word | 1 << at);
        let values = |bits: u64| [bits.to_le_bytes(), word(&|_| true).to_le_bytes()].concat();
        match self {
            Op::Get => Some((GET_VALUES, values(0))),
            Op::Set { bits, .. } => Some((SET_VALUES, values(word(&|i| bits >> i & 1 == 1)))),
            Op::Apply(settings) => {
                let kept = ACTIVE_LOW | INPUT | OUTPUT | OPEN_DRAIN | OPEN_SOURCE | PULL_UP | PULL_DOWN | NO_BIAS;
                let flags = |i: usize| settings[i].flags & kept;
                let mut words = vec![];
                for &(i, _) in lines {
                    if flags(i) != 0 && !words.contains(&flags(i)) {
                        words.push(flags(i));
                    }
                }
                let mut rows: Vec<(u32, u64, u64)> = words.iter().map(|&w| (1, w, word(&|i| flags(i) == w))).collect();
                rows.push((2, word(&|i| settings[i].value), word(&|_| true)));
                let mut config = vec![0; 272];
                put(&mut config, 8, &(rows.len() as u32).to_le_bytes());
                for (n, (id, value, mask)) in rows.iter().enumerate() {
                    put(config.get_mut(32 + 24 * n..56 + 24 * n)?, 0, &id.to_le_bytes());
                    put(&mut config, 40 + 24 * n, &value.to_le_bytes());
                    put(&mut config, 48 + 24 * n, &mask.to_le_bytes());
                }
                Some((SET_CONFIG, config))
            }
        }
    }
}

impl Map {
    /// For each target that has a line of the operation, its lines: the position in the operation, and that in the target's request.
    fn routes(&self, op: &Op, offsets: &[u32]) -> Vec<(Target, Vec<(usize, u32)>)> {
        let mut first = 0;
        let mut routes = vec![];
        for &target in &self.targets {
            let behind = first + target.lines;
            let of_it = |(_, offset): &(usize, &u32)| (first..behind).contains(*offset);
            let lines: Vec<(usize, u32)> =
                offsets.iter().enumerate().filter(of_it).filter(|(i, _)| op.has(*i)).map(|(i, offset)| (i, offset - first)).collect();
            if !lines.is_empty() {
                routes.push((target, lines));
            }
            first = behind;
        }
        routes
    }

    /// Asks the targets, one after another, and gathers what they answer: nothing where one of them refuses.
    pub fn ask(&self, device: &Device, actor: u8, port: &mut Port, op: &Op, offsets: &[u32]) -> Option<u64> {
        let mut gathered = 0;
        for (target, lines) in self.routes(op, offsets) {
            let (cmd, buffer) = op.command(&lines)?;
            let (_, written) = device.command(actor, port, target.handle, cmd, &buffer).ok()?;
            if let Op::Get = op {
                let bits = u64_at(&written, 0);
                gathered |= lines.iter().fold(0, |word, (i, at)| word | (bits >> at & 1) << i);
            }
        }
        Some(gathered)
    }
}
