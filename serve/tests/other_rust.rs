//! A program on Rust's standard library alone: it looks at the chips' names, requests a line with both edges, and waits in a read.
use std::fs::{self, File, OpenOptions};
use std::io::{self, Read};
use std::os::fd::{AsRawFd, FromRawFd};
use std::os::unix::fs::FileTypeExt;

const GET_LINE: u64 = 0xc250_b407;

extern "C" {
    fn ioctl(file: i32, request: u64, ...) -> i32;
}

fn request(chip: &File, line: u8) -> io::Result<File> {
    let mut bytes = [0u8; 592];
    bytes[0] = line;
    bytes[256..260].copy_from_slice(b"rust");
    bytes[288] = 0x34; // an input, both edges
    bytes[560] = 1;
    if unsafe { ioctl(chip.as_raw_fd(), GET_LINE, bytes.as_mut_ptr()) } < 0 {
        return Err(io::Error::last_os_error());
    }
    let number = i32::from_ne_bytes([bytes[588], bytes[589], bytes[590], bytes[591]]);
    Ok(unsafe { File::from_raw_fd(number) })
}

fn main() -> io::Result<()> {
    let listed = fs::read_dir("/dev")?.flatten().filter(|entry| entry.file_name().to_string_lossy().starts_with("gpiochip")).count();
    let is_device = fs::metadata("/dev/gpiochip1")?.file_type().is_char_device();
    let number = fs::read_to_string("/sys/bus/gpio/devices/gpiochip1/dev")?;
    let chip = OpenOptions::new().read(true).write(true).open("/dev/gpiochip1")?;
    let mut button = request(&chip, 3)?;
    let mut event = [0u8; 48];
    let length = button.read(&mut event)?;
    println!("{listed} {is_device} {} {length} {}", number.trim(), event[8]);
    Ok(())
}
