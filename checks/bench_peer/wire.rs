//! Linux's errors, the numbers and lengths of `linux/gpio.h`, bytes as text, and decimal numbers.

use std::fmt;
use std::io::Write;

/// How many places there are.
pub const PLACES: usize = 64;

/// How many lines a chip has at most.
pub const LINES_MAX: u64 = 512;

#[derive(Clone, Copy, PartialEq, Eq)]
pub enum Errno {
    Perm,
    NoEnt,
    Io,
    NxIo,
    BadF,
    Again,
    Fault,
    Busy,
    Exist,
    NoDev,
    Inval,
    MFile,
    NoSpc,
    OpNotSupp,
}

impl Errno {
    pub fn name(self) -> &'static str {
        match self {
            Errno::Perm => "EPERM",
            Errno::NoEnt => "ENOENT",
            Errno::Io => "EIO",
            Errno::NxIo => "ENXIO",
            Errno::BadF => "EBADF",
            Errno::Again => "EAGAIN",
            Errno::Fault => "EFAULT",
            Errno::Busy => "EBUSY",
            Errno::Exist => "EEXIST",
            Errno::NoDev => "ENODEV",
            Errno::Inval => "EINVAL",
            Errno::MFile => "EMFILE",
            Errno::NoSpc => "ENOSPC",
            Errno::OpNotSupp => "EOPNOTSUPP",
        }
    }
}

pub const USED: u64 = 1 << 0;
pub const ACTIVE_LOW: u64 = 1 << 1;
pub const INPUT: u64 = 1 << 2;
pub const OUTPUT: u64 = 1 << 3;
pub const RISING: u64 = 1 << 4;
pub const FALLING: u64 = 1 << 5;
pub const OPEN_DRAIN: u64 = 1 << 6;
pub const OPEN_SOURCE: u64 = 1 << 7;
pub const PULL_UP: u64 = 1 << 8;
pub const PULL_DOWN: u64 = 1 << 9;
pub const NO_BIAS: u64 = 1 << 10;
pub const REALTIME: u64 = 1 << 11;
pub const HTE: u64 = 1 << 12;
pub const KNOWN: u64 = (1 << 13) - 1;

pub const GET_CHIPINFO: u32 = 0x8044B401;
pub const GET_LINEINFO: u32 = 0xC100B405;
pub const WATCH: u32 = 0xC100B406;
pub const UNWATCH: u32 = 0xC004B40C;
pub const GET_LINE: u32 = 0xC250B407;
pub const SET_CONFIG: u32 = 0xC110B40D;
pub const GET_VALUES: u32 = 0xC010B40E;
pub const SET_VALUES: u32 = 0xC010B40F;

/// The commands of a chip file and then those of a request: word in a session, number, length of the structure.
pub const CHIP_COMMANDS: [(&str, u32, usize); 5] = [
    ("GET_CHIPINFO", GET_CHIPINFO, 68),
    ("GET_LINEINFO", GET_LINEINFO, 256),
    ("WATCH", WATCH, 256),
    ("UNWATCH", UNWATCH, 4),
    ("GET_LINE", GET_LINE, 592),
];
pub const LINE_COMMANDS: [(&str, u32, usize); 3] =
    [("SET_CONFIG", SET_CONFIG, 272), ("GET_VALUES", GET_VALUES, 16), ("SET_VALUES", SET_VALUES, 16)];

/// The length of the structure of a command of chip files or of requests.
pub fn size_of(chip: bool, cmd: u32) -> Option<usize> {
    let table: &[(&str, u32, usize)] = if chip { &CHIP_COMMANDS } else { &LINE_COMMANDS };
    table.iter().find(|row| row.1 == cmd).map(|row| row.2)
}

pub fn u32_at(bytes: &[u8], at: usize) -> u32 {
    u32::from_le_bytes(bytes[at..at + 4].try_into().unwrap())
}

pub fn u64_at(bytes: &[u8], at: usize) -> u64 {
    u64::from_le_bytes(bytes[at..at + 8].try_into().unwrap())
}

pub fn put(bytes: &mut [u8], at: usize, part: &[u8]) {
    bytes[at..at + part.len()].copy_from_slice(part);
}

/// A name field's bytes: those before the first zero, at most 31.
pub fn name_at(bytes: &[u8], at: usize) -> Vec<u8> {
    bytes[at..at + 31].iter().copied().take_while(|&b| b != 0).collect()
}

pub fn is_zero(bytes: &[u8]) -> bool {
    bytes.iter().all(|&b| b == 0)
}

/// Adds formatted text to an output.
pub fn print(out: &mut Vec<u8>, text: fmt::Arguments) {
    out.write_fmt(text).expect("a vector takes all that is written");
}

/// Adds bytes as they are printed: runs of at least eight zeros as `00*N`, the others in words of pairs.
pub fn print_bytes(out: &mut Vec<u8>, bytes: &[u8]) {
    if bytes.is_empty() {
        out.push(b'-');
    }
    let mut rest = bytes;
    let mut in_word = true;
    while !rest.is_empty() {
        let zeros = rest.iter().take_while(|&&b| b == 0).count();
        let is_run = zeros >= 8;
        if rest.len() < bytes.len() && (is_run || !in_word) {
            out.push(b' ');
        }
        let (front, behind) = rest.split_at(zeros.max(1));
        if is_run {
            print(out, format_args!("00*{zeros}"));
        } else {
            print_pairs(out, front);
        }
        in_word = !is_run;
        rest = behind;
    }
}

/// Adds bytes as pairs of hexadecimal digits.
pub fn print_pairs(out: &mut Vec<u8>, bytes: &[u8]) {
    const DIGITS: &[u8; 16] = b"0123456789abcdef";
    for &byte in bytes {
        out.push(DIGITS[usize::from(byte >> 4)]);
        out.push(DIGITS[usize::from(byte & 15)]);
    }
}

/// How many bytes a piece has: hexadecimal pairs, or one pair, a star and a count from 1 to 1024.
pub fn piece_len(word: &str) -> Option<usize> {
    let (pairs, count) = match word.split_once('*') {
        Some((pair, count)) if pair.len() == 2 => (pair, plain_decimal(count, 1024).filter(|&n| n > 0)? as usize),
        Some(_) => return None,
        None => (word, 1),
    };
    let good = !pairs.is_empty() && pairs.len() % 2 == 0 && pairs.bytes().all(|b| b.is_ascii_hexdigit());
    good.then_some(pairs.len() / 2 * count)
}

/// Adds the bytes of a piece that has the form of one.
pub fn read_piece(word: &str, buffer: &mut Vec<u8>) {
    if let Some((pair, count)) = word.split_once('*') {
        let count: usize = count.parse().unwrap();
        buffer.resize(buffer.len() + count, byte_of(pair.as_bytes()));
    } else {
        buffer.extend(word.as_bytes().chunks_exact(2).map(byte_of));
    }
}

/// The byte that a pair of hexadecimal digits spells.
fn byte_of(pair: &[u8]) -> u8 {
    let digit = |b: u8| if b <= b'9' { b - b'0' } else { (b | 0x20) - b'a' + 10 };
    digit(pair[0]) << 4 | digit(pair[1])
}

/// A decimal of 1 to 20 digits, leading zeros allowed, that is at most `most`.
pub fn decimal(word: &str, most: u64) -> Option<u64> {
    if word.len() > 20 || !word.bytes().all(|b| b.is_ascii_digit()) {
        return None;
    }
    word.parse().ok().filter(|&n| n <= most)
}

/// A decimal without leading zeros that is at most `most`.
pub fn plain_decimal(word: &str, most: u64) -> Option<u64> {
    decimal(word, most).filter(|_| word == "0" || !word.starts_with('0'))
}

/// The number that `0x` and eight hexadecimal digits write.
pub fn hex_number(word: &str) -> Option<u32> {
    let digits = word.strip_prefix("0x")?;
    let good = digits.len() == 8 && digits.bytes().all(|b| b.is_ascii_hexdigit());
    good.then(|| u32::from_str_radix(digits, 16).unwrap())
}

/// The number of a chip that is named by its number, its name or its path below /dev/.
pub fn chip_number(word: &str, most: u64) -> Option<u64> {
    let number = word.strip_prefix("/dev/gpiochip").or(word.strip_prefix("gpiochip")).unwrap_or(word);
    plain_decimal(number, most)
}

/// Seconds with nine decimals.
pub fn seconds(ns: u64) -> String {
    format!("{}.{:09}", ns / 1_000_000_000, ns % 1_000_000_000)
}
