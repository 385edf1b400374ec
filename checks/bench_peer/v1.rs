//! The first uAPI: its commands, what they become in v2, and what goes back.

use crate::wire::*;

const LINEINFO: u32 = 0xC048B402;
const LINEHANDLE: u32 = 0xC16CB403;
const LINEEVENT: u32 = 0xC030B404;
const HANDLE_GET: u32 = 0xC040B408;
const HANDLE_SET: u32 = 0xC040B409;
const HANDLE_CONFIG: u32 = 0xC054B40A;

/// Word in a session, number, length of the structure, and the command of v2.
const COMMANDS: [(&str, u32, usize, u32); 7] = [
    ("CHIPINFO", GET_CHIPINFO, 68, GET_CHIPINFO),
    ("LINEINFO", LINEINFO, 72, GET_LINEINFO),
    ("LINEHANDLE", LINEHANDLE, 364, GET_LINE),
    ("LINEEVENT", LINEEVENT, 48, GET_LINE),
    ("GET_VALUES", HANDLE_GET, 64, GET_VALUES),
    ("SET_VALUES", HANDLE_SET, 64, SET_VALUES),
    ("SET_CONFIG", HANDLE_CONFIG, 84, SET_CONFIG),
];

/// The flags of v2 for the bits of a handle's, of an event's and of a line's information, from bit 0 on.
const HANDLE_FLAGS: [u64; 8] = [INPUT, OUTPUT, ACTIVE_LOW, OPEN_DRAIN, OPEN_SOURCE, PULL_UP, PULL_DOWN, NO_BIAS];
const EVENT_FLAGS: [u64; 2] = [RISING, FALLING];
const INFO_FLAGS: [u64; 8] = [USED, OUTPUT, ACTIVE_LOW, OPEN_DRAIN, OPEN_SOURCE, PULL_UP, PULL_DOWN, NO_BIAS];

/// What a file is in the first uAPI.
#[derive(Clone, Copy, PartialEq)]
pub enum Kind {
    Chip,
    /// A handle of so many lines.
    Handle(u32),
    Event,
}

impl Kind {
    fn lines(self) -> u32 {
        match self {
            Kind::Chip => 0,
            Kind::Handle(lines) => lines,
            Kind::Event => 1,
        }
    }

    fn has(self, cmd: u32) -> bool {
        match self {
            Kind::Chip => [GET_CHIPINFO, LINEINFO, LINEHANDLE, LINEEVENT].contains(&cmd),
            Kind::Handle(_) => [HANDLE_GET, HANDLE_SET, HANDLE_CONFIG].contains(&cmd),
            Kind::Event => cmd == HANDLE_GET,
        }
    }

    /// The length of a command's structure and the command of v2, where a file of this kind has it.
    fn command(self, cmd: u32) -> Option<(usize, u32)> {
        let row = COMMANDS.iter().find(|row| row.1 == cmd && self.has(cmd))?;
        Some((row.2, row.3))
    }
}

/// The number of a command's word, or the number itself.
pub fn command(word: &str) -> Option<u32> {
    COMMANDS.iter().find(|row| row.0 == word).map(|row| row.1).or_else(|| hex_number(word))
}

pub fn makes_file(cmd: u32) -> bool {
    cmd == LINEHANDLE || cmd == LINEEVENT
}

/// The kind of the file that such a command makes.
pub fn made_kind(cmd: u32, bytes: &[u8]) -> Kind {
    if cmd == LINEEVENT {
        Kind::Event
    } else {
        Kind::Handle(u32_at(bytes, 356))
    }
}

fn new_flags(word: u32, table: &[u64]) -> u64 {
    let flag = |bit: usize| table.get(bit).copied().unwrap_or(1 << 63);
    (0..32).filter(|bit| word >> bit & 1 == 1).map(flag).fold(0, |all, flag| all | flag)
}

fn old_flags(word: u64, table: &[u64]) -> u32 {
    (0..table.len()).filter(|&bit| word & table[bit] != 0).map(|bit| 1 << bit).sum()
}

fn mask_of(lines: u32) -> u64 {
    (0..lines.min(64)).map(|line| 1 << line).fold(0, |all, bit: u64| all | bit)
}

fn bits_of(values: &[u8]) -> u64 {
    (0..values.len()).filter(|&line| values[line] != 0).map(|line| 1 << line).fold(0, |all, bit: u64| all | bit)
}

fn values_bytes(bits: u64, mask: u64) -> Vec<u8> {
    [bits.to_le_bytes(), mask.to_le_bytes()].concat()
}

/// A configuration with one attribute of output values.
fn config_bytes(flags: u32, values: &[u8], lines: u32) -> Vec<u8> {
    let mut out = vec![0; 272];
    put(&mut out, 0, &new_flags(flags, &HANDLE_FLAGS).to_le_bytes());
    put(&mut out, 8, &1u32.to_le_bytes());
    put(&mut out, 32, &2u32.to_le_bytes());
    put(&mut out, 40, &values_bytes(bits_of(values), mask_of(lines)));
    out
}

fn request_bytes(offsets: &[u8], consumer: &[u8], config: &[u8], lines: u32) -> Vec<u8> {
    let mut out = vec![0; 592];
    put(&mut out, 0, offsets);
    put(&mut out, 256, consumer);
    put(&mut out, 288, config);
    put(&mut out, 560, &lines.to_le_bytes());
    out
}

fn event_request(bytes: &[u8]) -> Vec<u8> {
    let flags = new_flags(u32_at(bytes, 4), &HANDLE_FLAGS) | new_flags(u32_at(bytes, 8), &EVENT_FLAGS) | INPUT;
    request_bytes(&bytes[..4], &bytes[12..44], &flags.to_le_bytes(), 1)
}

/// The call of v2 that a command becomes: its number and its buffer.
pub fn sent(kind: Kind, cmd: u32, bytes: &[u8]) -> (u32, Vec<u8>) {
    let Some((len, becomes)) = kind.command(cmd) else { return (0, vec![]) };
    if bytes.len() < len {
        return (becomes, vec![]);
    }
    let lines = kind.lines();
    let buffer = match cmd {
        GET_CHIPINFO => bytes[..68].to_vec(),
        LINEINFO => {
            let mut out = vec![0; 256];
            put(&mut out, 64, &bytes[..4]);
            out
        }
        LINEHANDLE => {
            let lines = u32_at(bytes, 356);
            let config = config_bytes(u32_at(bytes, 256), &bytes[260..324], lines);
            request_bytes(&bytes[..256], &bytes[324..356], &config, lines)
        }
        LINEEVENT => event_request(bytes),
        HANDLE_GET => values_bytes(0, mask_of(lines)),
        HANDLE_SET => values_bytes(bits_of(&bytes[..64]), mask_of(lines)),
        _ => config_bytes(u32_at(bytes, 0), &bytes[4..68], lines),
    };
    (becomes, buffer)
}

/// The old structure with what goes back of v2's.
pub fn received(kind: Kind, cmd: u32, got: &[u8], bytes: &[u8]) -> Vec<u8> {
    let (len, _) = kind.command(cmd).expect("what was sent was a command of the file");
    let mut out = bytes[..len].to_vec();
    match cmd {
        GET_CHIPINFO => put(&mut out, 0, &got[..68]),
        LINEINFO => {
            put(&mut out, 4, &old_flags(u64_at(got, 72), &INFO_FLAGS).to_le_bytes());
            put(&mut out, 8, &got[..64]);
        }
        _ => {
            let bits = u64_at(got, 0) & mask_of(kind.lines());
            (0..64).for_each(|line| out[line] = (bits >> line & 1) as u8);
        }
    }
    out
}
