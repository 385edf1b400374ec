//! A plain program that runs sessions: see README.md in this folder.

mod aggregate;
mod device;
mod line;
mod machine;
mod options;
mod script;
mod talk;
mod tools;
mod tree;
mod v1;
mod wire;

use device::{Actor, Device, Port};
use script::{Head, Section};
use std::io::{Read, Write};
use std::process::ExitCode;
use talk::Talk;
use wire::print;

/// Runs one section's statements in a talk.
fn say(talk: &mut Talk, actor: &mut Actor, section: &Section) {
    section.statements.iter().for_each(|statement| talk.say(actor, statement));
}

/// Runs all sections one after another, as one actor.
fn run_one(device: &Device, sections: &[Section]) -> Vec<u8> {
    let mut actor = Actor { device, number: 0, port: Port::default() };
    let mut shared = Talk::default();
    let mut out = vec![];
    for section in sections {
        if matches!(section.head, Head::Actor(_)) {
            let mut own = Talk::default();
            say(&mut own, &mut actor, section);
            own.end(&actor);
            out.append(&mut own.out);
        } else {
            shared.in_setup = section.head == Head::Setup;
            say(&mut shared, &mut actor, section);
            out.append(&mut shared.out);
        }
    }
    shared.end(&actor);
    out
}

/// Runs the actors' sections in threads, between `setup` and `after`, and prints all texts and the history.
fn run_many(device: &Device, sections: &[Section]) -> Vec<u8> {
    let mut first = Actor { device, number: 0, port: Port::default() };
    let mut shared = Talk::for_setup();
    let of = |head: Head| sections.iter().find(move |section| section.head == head);
    let mut out = b"== setup\n".to_vec();
    of(Head::Setup).into_iter().for_each(|section| say(&mut shared, &mut first, section));
    out.append(&mut shared.out);
    let actors = sections.iter().filter(|section| matches!(section.head, Head::Actor(_)));
    let texts: Vec<Vec<u8>> = std::thread::scope(|scope| {
        let ports: Vec<Port> = actors.clone().map(|_| first.port.sibling()).collect();
        let work = |number: usize, port: Port, section| {
            let mut actor = Actor { device, number: number as u8, port };
            let mut talk = Talk::default();
            say(&mut talk, &mut actor, section);
            talk.end(&actor);
            talk.out
        };
        let threads: Vec<_> = actors.clone().zip(1..).zip(ports).map(|((s, i), port)| scope.spawn(move || work(i, port, s))).collect();
        threads.into_iter().map(|thread| thread.join().unwrap()).collect()
    });
    for (section, text) in actors.zip(texts) {
        if let Head::Actor(name) = &section.head {
            print(&mut out, format_args!("== actor {name}\n"));
        }
        out.extend_from_slice(&text);
    }
    shared.in_setup = false;
    of(Head::After).into_iter().for_each(|section| say(&mut shared, &mut first, section));
    out.extend_from_slice(b"== after\n");
    out.append(&mut shared.out);
    shared.end(&first);
    print(&mut out, format_args!("== history {}\n", device.entries()));
    device.print_history(&mut out);
    out
}

fn run(sections: &[Section], device: &Device) -> Vec<u8> {
    let actors = sections.iter().filter(|section| matches!(section.head, Head::Actor(_))).count();
    if actors < 2 {
        run_one(device, sections)
    } else {
        run_many(device, sections)
    }
}

/// What a generated load amounts to.
fn run_generated(n: u64) -> String {
    let text = script::generate(n);
    let sections = script::parse(text.as_bytes()).ok().unwrap();
    let statements: usize = sections.iter().map(|section| section.statements.len()).sum();
    let device = Device::new();
    let out = run(&sections, &device);
    let sum = out.iter().fold(0u32, |sum, b| sum.wrapping_add(u32::from(*b)));
    format!("statements {statements}\nentries {}\nbytes {}\nsum {sum}\n", device.entries(), out.len())
}

/// What is written, and the status.
fn answer(words: &[String]) -> (Vec<u8>, u8) {
    match words {
        [] => {}
        [option, n] if option == "--generate" => {
            return match wire::plain_decimal(n, 5000).filter(|&n| n > 0) {
                Some(n) => (run_generated(n).into_bytes(), 0),
                None => (b"usage\n".to_vec(), 2),
            };
        }
        _ => return (b"usage\n".to_vec(), 2),
    }
    let mut bytes = vec![];
    if std::io::stdin().take(1_048_577).read_to_end(&mut bytes).is_err() {
        return (vec![], 4);
    }
    match script::parse(&bytes) {
        Ok(sections) => (run(&sections, &Device::new()), 0),
        Err(fault) => (format!("refused {} {} {}\n", fault.line, fault.column, fault.kind).into_bytes(), 3),
    }
}

fn main() -> ExitCode {
    let words: Vec<String> = std::env::args().skip(1).collect();
    let (out, status) = answer(&words);
    let written = std::io::stdout().write_all(&out);
    ExitCode::from(if written.is_err() { 5 } else { status })
}
