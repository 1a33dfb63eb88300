//! A plain program of the system: `plain run --boot FILE --schedule FILE` (README.md beside this file; docs/SYSTEM.md). It prints
//! what the proved program prints, and is unproved.

mod assembler;
mod boot;
mod calls;
mod document;
mod ends;
mod machine;
mod mail;
mod manager;
mod moving;
mod network;
mod packet;
mod process;
mod processor;
mod records;
mod schedule;
mod state;
mod switchboard;
mod table;
mod text;
mod values;
mod world;

use std::ffi::OsString;
use std::fs::File;
use std::io::Read;
use std::os::fd::FromRawFd;
use std::process::exit;

use network::Stop;
use world::World;

const LONGEST_BOOT: u64 = 1_048_576;
const LONGEST_SCHEDULE: u64 = 16_777_216;

/// Ends with a status and a line on standard error.
fn stop(status: i32, line: &str) -> ! {
    eprintln!("{line}");
    exit(status)
}

/// The options, each given once, in any order, with its value behind it or behind a `=`; a last word `--` ends them.
fn options_of(words: &[String]) -> Option<(String, String)> {
    let (mut boot, mut schedule) = (None, None);
    let mut words = words.strip_suffix(&["--".to_owned()]).unwrap_or(words).iter();
    while let Some(word) = words.next() {
        let is_option = |word: &str| word.len() > 1 && word.starts_with('-');
        let (option, value) = match word.split_once('=') {
            Some(joined) => joined,
            None => (word.as_str(), words.next().filter(|value| !is_option(value))?.as_str()),
        };
        let place = match option {
            "--boot" => &mut boot,
            "--schedule" => &mut schedule,
            _ => return None,
        };
        if place.replace(value.to_owned()).is_some() {
            return None;
        }
    }
    boot.zip(schedule)
}

fn files_of(words: impl Iterator<Item = OsString>) -> Option<(String, String)> {
    let words: Vec<String> = words.map(|word| word.into_string().ok()).collect::<Option<_>>()?;
    match words.split_first() {
        Some((command, options)) if command == "run" => options_of(options),
        _ => None,
    }
}

/// The bytes of a file, which may be so many.
fn bytes_of(name: &str, kind: &str, most: u64) -> Vec<u8> {
    let mut bytes = Vec::new();
    let read = File::open(name).and_then(|file| file.take(most + 1).read_to_end(&mut bytes));
    if read.is_err() {
        stop(3, "read fault");
    }
    if bytes.len() as u64 > most {
        stop(8, &format!("too long: {kind}"));
    }
    bytes
}

fn main() {
    let files = files_of(std::env::args_os().skip(1));
    let (boot, schedule) = files.unwrap_or_else(|| stop(2, "usage: plain run --boot FILE --schedule FILE"));
    let boot = boot::read_boot(&bytes_of(&boot, "boot", LONGEST_BOOT))
        .unwrap_or_else(|refused| stop(6, &format!("boot refused: {} at {}", refused.rule, refused.place)));
    let bytes = bytes_of(&schedule, "schedule", LONGEST_SCHEDULE);
    let directives = schedule::read_schedule(&bytes, boot.machines.len() as u64)
        .unwrap_or_else(|refused| stop(7, &format!("schedule refused: line {}, why {}", refused.line, refused.why)));
    // SAFETY: nothing else writes to standard output, and it is open until the program ends
    let output = unsafe { File::from_raw_fd(1) };
    let mut world = World::new(boot, output);
    match world.run(&directives).and_then(|()| world.end()) {
        Ok(()) => {}
        Err(Stop::Worn { from, to }) => stop(9, &format!("worn: {from} to {to}")),
        Err(Stop::WriteFault) => stop(5, "write fault"),
    }
    // what stands in memory is given back by the end of the program
    std::mem::forget(world);
}
