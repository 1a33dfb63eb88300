//! The schedule (docs/FORMATS.md, "Schedule").

use crate::values::Pid;

#[derive(Clone, Copy)]
pub enum Directive {
    Turn(u8),
    Tick(u8),
    Deliver(u8, u8, u64),
    Migrate(Pid, u8),
    CallOff(Pid, u8),
    Round,
    Spin(u32),
    Settle,
    Rest(u32),
}

/// The first bad line, from 1, and what is wrong there.
pub struct Refused {
    pub line: usize,
    pub why: u8,
}

const UNKNOWN_WORD: u8 = 1;
const WRONG_COUNT: u8 = 2;
const NO_NUMBER: u8 = 3;
const OUT_OF_RANGE: u8 = 4;
const ONE_MACHINE: u8 = 5;

const MOST_ROUNDS: u64 = 65_536;

type Tried<T> = Result<T, u8>;

/// The directives of a schedule, for so many machines.
pub fn read_schedule(bytes: &[u8], machines: u64) -> Result<Vec<Directive>, Refused> {
    let (mut directives, mut words) = (Vec::new(), Vec::new());
    for (line, text) in (1..).zip(bytes.split_inclusive(|byte| *byte == b'\n')) {
        let text = text.strip_suffix(b"\r\n").or(text.strip_suffix(b"\n")).unwrap_or(text);
        words.clear();
        words.extend(text.split(|byte| matches!(byte, b' ' | b'\t')).filter(|word| !word.is_empty()));
        let Some((word, operands)) = words.split_first().filter(|(word, _)| !word.starts_with(b"#")) else { continue };
        directives.push(directive_of(word, operands, machines).map_err(|why| Refused { line, why })?);
    }
    Ok(directives)
}

fn directive_of(word: &[u8], operands: &[&[u8]], machines: u64) -> Tried<Directive> {
    let machine = |word: &[u8]| number_of(word, 0, machines - 1).map(|number| number as u8);
    let pid = |word: &[u8]| pid_of(word, machines);
    Ok(match (word, operands) {
        (b"turn", [of]) => Directive::Turn(machine(of)?),
        (b"tick", [of]) => Directive::Tick(machine(of)?),
        (b"deliver", [from, to, packet]) => {
            let (from, to) = (machine(from)?, machine(to)?);
            let packet = number_of(packet, 0, u32::MAX.into())?;
            if from == to {
                return Err(ONE_MACHINE);
            }
            Directive::Deliver(from, to, packet)
        }
        (b"migrate", [process, to]) => Directive::Migrate(pid(process)?, machine(to)?),
        (b"calloff", [process, at]) => Directive::CallOff(pid(process)?, machine(at)?),
        (b"round", []) => Directive::Round,
        (b"spin", [rounds]) => Directive::Spin(number_of(rounds, 1, MOST_ROUNDS)? as u32),
        (b"settle", []) => Directive::Settle,
        (b"rest", [passes]) => Directive::Rest(number_of(passes, 1, MOST_ROUNDS)? as u32),
        (b"turn" | b"tick" | b"deliver" | b"migrate" | b"calloff" | b"round" | b"spin" | b"settle" | b"rest", _) => {
            return Err(WRONG_COUNT);
        }
        _ => return Err(UNKNOWN_WORD),
    })
}

/// One to ten digits.
fn digits_of(word: &[u8]) -> Tried<u64> {
    if !(1..=10).contains(&word.len()) || !word.iter().all(u8::is_ascii_digit) {
        return Err(NO_NUMBER);
    }
    Ok(word.iter().fold(0, |number, digit| 10 * number + u64::from(digit - b'0')))
}

fn number_of(word: &[u8], low: u64, high: u64) -> Tried<u64> {
    let number = digits_of(word)?;
    if (low..=high).contains(&number) { Ok(number) } else { Err(OUT_OF_RANGE) }
}

fn pid_of(word: &[u8], machines: u64) -> Tried<Pid> {
    let dot = word.iter().position(|byte| *byte == b'.').ok_or(NO_NUMBER)?;
    let (home, number) = (&word[..dot], &word[dot + 1..]);
    digits_of(home)?;
    digits_of(number)?;
    Ok(Pid { home: number_of(home, 0, machines - 1)? as u8, number: number_of(number, 0, u32::MAX.into())? as u32 })
}
