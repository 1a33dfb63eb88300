//! The assembler (docs/FORMATS.md, "Assembler").

use std::collections::HashMap;

const MOST_BYTES: usize = 65_536;
const CALLS: [&str; 8] = ["EXIT", "OUT", "MAKE", "COPY", "DROP", "SEND", "RECEIVE", "MOVE"];

/// The text is at fault somewhere.
pub struct Fault;

type Tried<T> = Result<T, Fault>;

pub type Labels = HashMap<String, usize>;

/// The instructions, in the order of their numbers from 1, with their operands: r register, v value or label, n number to 255,
/// c call, d distance.
const FORMS: [(&str, &str); 20] = [
    ("li", "rv"), ("lih", "rv"), ("mov", "rr"), ("add", "rrr"), ("sub", "rrr"), ("mul", "rrr"), ("and", "rrr"), ("or", "rrr"),
    ("xor", "rrr"), ("shl", "rrr"), ("shr", "rrr"), ("lw", "rrn"), ("sw", "rrn"), ("lb", "rrn"), ("sb", "rrn"), ("jmp", "v"),
    ("beq", "rrd"), ("bne", "rrd"), ("bltu", "rrd"), ("sys", "c"),
];

/// The calls that stand with their operands, in the order of their numbers from 1: how many registers each reads, and how many
/// operands may stand.
const LINES: [(&str, usize, &[usize]); 8] = [
    ("exit", 0, &[0]), ("out", 1, &[1]), ("make", 5, &[3, 5]), ("copy", 1, &[1]), ("drop", 1, &[1]), ("send", 5, &[1, 3, 5]),
    ("receive", 3, &[1, 3]), ("move", 5, &[5]),
];

/// The number of a call's word, its registers and its counts of operands.
fn call_line(word: &str) -> Option<(u8, usize, &'static [usize])> {
    (1..).zip(LINES).find(|(_, (other, ..))| *other == word).map(|(number, (_, registers, counts))| (number, registers, counts))
}

/// The number of an instruction's word, and its operands.
fn form_of(word: &str) -> Option<(u8, &'static str)> {
    (1..).zip(FORMS).find(|(_, (other, _))| *other == word).map(|(number, (_, kinds))| (number, kinds))
}

fn is_directive(word: &str) -> bool {
    matches!(word, ".word" | ".byte" | ".zero" | ".align" | ".ascii" | ".equ")
}

/// A line's parts, without its comment.
struct Line<'a> {
    label: Option<&'a str>,
    words: Vec<&'a str>,
    text: Option<&'a str>, // between quotation marks, where the line ends with them
    place: usize,
}

/// A text's image and its labels.
pub fn assemble(text: &str) -> Tried<(Vec<u8>, Labels)> {
    let mut lines = text.split('\n').map(line_of).collect::<Tried<Vec<Line>>>()?;
    let (mut labels, mut place) = (Labels::new(), 0);
    for line in &mut lines {
        line.place = place;
        let value = if line.words.first() == Some(&".equ") { given_value(line)? } else { place };
        if line.label.is_some_and(|label| labels.insert(label.to_owned(), value).is_some()) {
            return Err(Fault);
        }
        place += size_of(line);
    }
    let mut image = Vec::new();
    for line in &lines {
        line_into(&mut image, line, &labels)?;
    }
    if image.len() > MOST_BYTES { Err(Fault) } else { Ok((image, labels)) }
}

fn line_into(image: &mut Vec<u8>, line: &Line, labels: &Labels) -> Tried<()> {
    let Some((word, operands)) = line.words.split_first() else { return Ok(()) };
    if !count_fits(word, operands.len()) {
        return Err(Fault);
    }
    if let Some((number, registers, _)) = call_line(word) {
        return call_into(image, number, registers, operands, labels);
    }
    match form_of(word) {
        Some((number, kinds)) => image.extend_from_slice(&instruction(number, kinds, operands, labels, line.place)?),
        None => directive_into(image, word, operands, labels, line)?,
    }
    Ok(())
}

fn line_of(line: &str) -> Tried<Line<'_>> {
    let code = line.split(';').next().unwrap_or("");
    let mut words: Vec<&str> = code.split([' ', '\t', '\r', ',']).filter(|word| !word.is_empty()).collect();
    let mut label = words.first().and_then(|word| word.strip_suffix(':'));
    let is_given = if label.is_some() { words.remove(0); false } else { words.first() == Some(&".equ") };
    if is_given {
        label = words.get(1).copied();
    } else if words.first() == Some(&".equ") {
        return Err(Fault);
    }
    let is_word = |word: &&str| form_of(word).is_some() || call_line(word).is_some() || is_directive(word);
    if label.is_none_or(is_label) && words.first().is_none_or(is_word) {
        Ok(Line { label, words, text: text_of(code), place: 0 })
    } else {
        Err(Fault)
    }
}

/// The text between quotation marks with which a line ends.
fn text_of(code: &str) -> Option<&str> {
    let (_, rest) = code.split_once('"')?;
    let (text, behind) = rest.split_once('"')?;
    let is_printed = text.bytes().all(|byte| (32..127).contains(&byte));
    let is_last = behind.bytes().all(|byte| b" \t\r,".contains(&byte));
    (is_printed && is_last).then_some(text)
}

fn is_label(name: &str) -> bool {
    let is_part = |byte: u8| byte.is_ascii_lowercase() || byte.is_ascii_digit() || byte == b'_';
    let is_name = (1..=16).contains(&name.len()) && name.bytes().all(is_part) && !name.as_bytes()[0].is_ascii_digit();
    is_name && register_of(name).is_err()
}

/// What `.equ` gives its label.
fn given_value(line: &Line) -> Tried<usize> {
    Ok(number_of(line.words.get(2).ok_or(Fault)?, u32::MAX.into())? as usize)
}

fn begins_a_label(word: &str) -> bool {
    word.starts_with(|first: char| first.is_ascii_alphabetic() || first == '_')
}

/// How many bytes a line counts.
fn size_of(line: &Line) -> usize {
    let Some((word, operands)) = line.words.split_first() else { return 0 };
    match (*word, operands) {
        (".byte", _) => operands.len(),
        (".zero", [count]) => number_of(count, MOST_BYTES as u64).unwrap_or(0) as usize,
        (".align", [multiple]) => padding_of(multiple, line.place).unwrap_or(0),
        (".ascii", [first, ..]) => text_operand(first, line).map_or(0, str::len),
        (".zero" | ".align" | ".ascii" | ".equ", _) => 0,
        _ => 4 + 4 * call_line(word).map_or(0, |(_, registers, _)| registers),
    }
}

fn count_fits(word: &str, count: usize) -> bool {
    match word {
        ".byte" | ".ascii" => count >= 1,
        ".equ" => count == 2,
        _ => match call_line(word) {
            Some((_, _, counts)) => counts.contains(&count),
            None => count == form_of(word).map_or(1, |(_, kinds)| kinds.len()),
        },
    }
}

/// The instructions that set a call's registers, and the call.
fn call_into(image: &mut Vec<u8>, number: u8, registers: usize, operands: &[&str], labels: &Labels) -> Tried<()> {
    for register in 1..=registers {
        let operand = operands.get(register - 1).copied().unwrap_or("0");
        match register_of(operand) {
            Ok(other) if other >= 1 && usize::from(other) < register => return Err(Fault),
            Ok(other) => image.extend_from_slice(&[3, register as u8, other, 0]),
            Err(_) if number == 2 => return Err(Fault), // OUT takes a register
            Err(_) => {
                let [high, low] = (value_of(operand, labels, 65_535)? as u16).to_be_bytes();
                image.extend_from_slice(&[1, register as u8, high, low]);
            }
        }
    }
    image.extend_from_slice(&[20, 0, 0, number]);
    Ok(())
}

fn directive_into(image: &mut Vec<u8>, word: &str, operands: &[&str], labels: &Labels, line: &Line) -> Tried<()> {
    let first = operands[0];
    match word {
        ".word" => image.extend_from_slice(&(value_of(first, labels, u32::MAX.into())? as u32).to_be_bytes()),
        ".zero" => image.resize(image.len() + number_of(first, MOST_BYTES as u64)? as usize, 0),
        ".align" => image.resize(image.len() + padding_of(first, line.place)?, 0),
        ".ascii" => image.extend_from_slice(text_operand(first, line)?.as_bytes()),
        ".equ" => {}
        _ => {
            for operand in operands {
                image.push(number_of(operand, 255)? as u8);
            }
        }
    }
    Ok(())
}

fn instruction(number: u8, kinds: &str, operands: &[&str], labels: &Labels, place: usize) -> Tried<[u8; 4]> {
    // values of two bytes, and what stands alone, are the last bytes
    let mut bytes = [number, 0, 0, 0];
    for ((kind, operand), at) in kinds.bytes().zip(operands).zip(1..) {
        match kind {
            b'r' => bytes[at] = register_of(operand)?,
            b'n' => bytes[at] = number_of(operand, 255)? as u8,
            b'd' => bytes[at] = distance_of(operand, labels, place)? as u8,
            b'c' => bytes[3] = call_of(operand)?,
            _ => bytes[2..].copy_from_slice(&(value_of(operand, labels, 65_535)? as u16).to_be_bytes()),
        }
    }
    Ok(bytes)
}

fn number_of(word: &str, most: u64) -> Tried<u64> {
    if let [b'\'', byte @ b'!'..=b'~', b'\''] = word.as_bytes() {
        return if u64::from(*byte) > most { Err(Fault) } else { Ok((*byte).into()) };
    }
    let (digits, base) = word.strip_prefix("0x").map_or((word, 10), |digits| (digits, 16));
    if digits.is_empty() || !digits.chars().all(|digit| digit.is_digit(base)) {
        return Err(Fault);
    }
    let number = u64::from_str_radix(digits, base).map_err(|_| Fault)?;
    if number > most { Err(Fault) } else { Ok(number) }
}

fn register_of(word: &str) -> Tried<u8> {
    let digits = word.strip_prefix('r').ok_or(Fault)?;
    (0..16).find(|number| number.to_string() == digits).ok_or(Fault)
}

fn value_of(word: &str, labels: &Labels, most: u64) -> Tried<u64> {
    if !begins_a_label(word) {
        return number_of(word, most);
    }
    let (name, more) = word.split_once('+').map_or((word, Ok(0)), |(name, more)| (name, number_of(more, most)));
    let value = *labels.get(name).ok_or(Fault)? as u64 + more?;
    if value > most { Err(Fault) } else { Ok(value) }
}

fn call_of(word: &str) -> Tried<u8> {
    match (1..).zip(CALLS).find(|(_, call)| *call == word) {
        Some((number, _)) => Ok(number),
        None => Ok(number_of(word, 255)? as u8),
    }
}

/// How many words a label is from behind the instruction at this place.
fn distance_of(word: &str, labels: &Labels, place: usize) -> Tried<i8> {
    if !begins_a_label(word) {
        return Err(Fault);
    }
    let bytes = *labels.get(word).ok_or(Fault)? as i64 - (place as i64 + 4);
    if bytes % 4 != 0 {
        return Err(Fault);
    }
    i8::try_from(bytes / 4).map_err(|_| Fault)
}

/// How many bytes it is from a place to the next multiple of a number.
fn padding_of(word: &str, place: usize) -> Tried<usize> {
    match number_of(word, MOST_BYTES as u64)? as usize {
        0 => Err(Fault),
        multiple => Ok(place.next_multiple_of(multiple) - place),
    }
}

/// A text in whose line the first operand begins with its mark.
fn text_operand<'a>(word: &str, line: &Line<'a>) -> Tried<&'a str> {
    line.text.filter(|_| word.starts_with('"')).ok_or(Fault)
}
