//! The boot file (docs/FORMATS.md, "Boot file"): the system that it describes, or the first rule that it breaks.

use std::collections::HashMap;

use crate::assembler::{assemble, Labels};
use crate::document::{read_document, Table, Value};
use crate::process::{Format, BLOCK};
use crate::values::{Address, Link, Pid, MANAGER, SWITCHBOARD};

pub struct Room {
    pub slots: u8,
    pub blocks: u16,
}

pub struct Image {
    pub blocks: usize,
    code: Vec<u8>,
    labels: Labels,
}

impl Image {
    /// A fresh process's memory.
    pub fn memory(&self) -> Vec<u8> {
        let mut memory = Vec::with_capacity(BLOCK * self.blocks);
        memory.extend_from_slice(&self.code);
        memory.resize(BLOCK * self.blocks, 0);
        memory
    }
}

/// A process of the boot file, with the number of its image and its first links.
pub struct Born {
    pub pid: Pid,
    pub image: usize,
    pub links: Vec<Link>,
}

pub struct Boot {
    pub numbers: u32,
    pub quantum: u32,
    pub format: Format,
    pub machines: Vec<Room>,
    pub images: Vec<Image>,
    pub processes: Vec<Born>,
}

/// The least rule that the file breaks, and its first place.
pub struct Refused {
    pub rule: u8,
    pub place: usize,
}

type Read<T> = Result<T, Refused>;

/// Refuses with a rule at the first place where it is broken.
fn first(rule: u8, mut holds: impl Iterator<Item = bool>) -> Read<()> {
    match holds.position(|holds| !holds) {
        Some(place) => Err(Refused { rule, place }),
        None => Ok(()),
    }
}

fn must(rule: u8, holds: bool) -> Read<()> {
    if holds { Ok(()) } else { Err(Refused { rule, place: 0 }) }
}

// What stands in a table. A number, a text, a list is looked at once its type is known to be right.

#[derive(Clone, Copy)]
enum Type {
    Integer,
    String,
    Truth,
    Place, // an integer, or a label
    Tables,
}

fn has_type(value: &Value, wanted: Type) -> bool {
    match (wanted, value) {
        (Type::Integer | Type::Place, Value::Integer(_)) => true,
        (Type::String | Type::Place, Value::String(_)) => true,
        (Type::Truth, Value::Truth(_)) => true,
        (Type::Tables, Value::Array(values)) => values.iter().all(|value| matches!(value, Value::Table(_))),
        _ => false,
    }
}

/// Whether a table has the needed keys, perhaps some of the others, and no more, each with its type.
fn has_keys(table: &Table, needed: &[(&str, Type)], others: &[(&str, Type)]) -> bool {
    let fits = |(key, value): &(String, Value)| {
        needed.iter().chain(others).any(|(name, wanted)| name == key && has_type(value, *wanted))
    };
    table.entries.iter().all(fits) && needed.iter().all(|(name, _)| table.get(name).is_some())
}

fn integer(table: &Table, key: &str, absent: i64) -> i64 {
    match table.get(key) {
        Some(Value::Integer(number)) => *number,
        _ => absent,
    }
}

fn string<'a>(table: &'a Table, key: &str) -> &'a str {
    match table.get(key) {
        Some(Value::String(text)) => text,
        _ => "",
    }
}

fn truth(table: &Table, key: &str) -> bool {
    matches!(table.get(key), Some(Value::Truth(true)))
}

fn tables<'a>(table: &'a Table, key: &str) -> Vec<&'a Table> {
    let Some(Value::Array(values)) = table.get(key) else { return Vec::new() };
    let table_of = |value: &'a Value| match value {
        Value::Table(table) => Some(table),
        _ => None,
    };
    values.iter().filter_map(table_of).collect()
}

fn is_name(name: &str) -> bool {
    (1..=16).contains(&name.len()) && name.bytes().all(|byte| byte.is_ascii_lowercase() || byte.is_ascii_digit() || byte == b'_')
}

/// The names of tables with their places, where each is of the form, stands once, and is none of those that are taken.
fn names_of<'a>(rule: u8, named: &[&'a Table], taken: &[&str]) -> Read<Places<'a>> {
    let mut names = HashMap::new();
    for (place, table) in named.iter().enumerate() {
        let name = string(table, "name");
        if !is_name(name) || taken.contains(&name) || names.insert(name, place).is_some() {
            return Err(Refused { rule, place });
        }
    }
    Ok(names)
}

pub fn read_boot(bytes: &[u8]) -> Read<Boot> {
    let document = read_document(bytes).map_err(|_| Refused { rule: 1, place: 0 })?;
    let settings = [("format", Type::Integer), ("numbers", Type::Integer), ("quantum", Type::Integer)];
    let lists = [("machine", Type::Tables), ("image", Type::Tables), ("process", Type::Tables)];
    must(2, has_keys(&document, &[], &[settings, lists].concat()))?;
    let numbers = integer(&document, "numbers", 1_048_576);
    let quantum = integer(&document, "quantum", 16);
    let form = integer(&document, "format", 1);
    must(3, (1..=1_048_576).contains(&numbers) && (1..=1_000).contains(&quantum) && (1..=2).contains(&form))?;
    let format = if form == 1 { Format { slots: 32, longest: 64 } } else { Format { slots: 128, longest: 256 } };
    let machines = machines_of(&tables(&document, "machine"))?;
    let tables_of_images = tables(&document, "image");
    let images = images_of(&tables_of_images)?;
    let image_names = names_of(9, &tables_of_images, &[])?;
    let processes = processes_of(&tables(&document, "process"), &machines, &images, &image_names, format.slots)?;
    Ok(Boot { numbers: numbers as u32, quantum: quantum as u32, format, machines, images, processes })
}

fn machines_of(machines: &[&Table]) -> Read<Vec<Room>> {
    must(4, (1..=16).contains(&machines.len()))?;
    let keys = [("slots", Type::Integer), ("blocks", Type::Integer)];
    first(5, machines.iter().map(|machine| has_keys(machine, &keys, &[])))?;
    let room = |machine: &&Table| (integer(machine, "slots", 0), integer(machine, "blocks", 0));
    let fits = |(slots, blocks): (i64, i64)| (0..=64).contains(&slots) && (0..=4_096).contains(&blocks);
    first(6, machines.iter().map(room).map(fits))?;
    Ok(machines.iter().map(room).map(|(slots, blocks)| Room { slots: slots as u8, blocks: blocks as u16 }).collect())
}

fn images_of(images: &[&Table]) -> Read<Vec<Image>> {
    must(7, images.len() <= 256)?;
    let keys = [("name", Type::String), ("text", Type::String), ("blocks", Type::Integer)];
    first(8, images.iter().map(|image| has_keys(image, &keys, &[])))?;
    names_of(9, images, &[])?;
    first(10, images.iter().map(|image| (1..=256).contains(&integer(image, "blocks", 0))))?;
    let mut made = Vec::new();
    for (place, image) in images.iter().enumerate() {
        let (code, labels) = assemble(string(image, "text")).map_err(|_| Refused { rule: 11, place })?;
        made.push(Image { blocks: integer(image, "blocks", 0) as usize, code, labels });
    }
    first(12, made.iter().map(|image| image.code.len() <= BLOCK * image.blocks))?;
    Ok(made)
}

const PROCESS: [(&str, Type); 3] = [("name", Type::String), ("image", Type::String), ("machine", Type::Integer)];
const LINK: [(&str, Type); 7] = [
    ("code", Type::Integer), ("channel", Type::Integer), ("base", Type::Place), ("len", Type::Place),
    ("reply", Type::Truth), ("read", Type::Truth), ("write", Type::Truth),
];

fn is_link(link: &Table) -> bool {
    match link.get("control") {
        Some(_) => has_keys(link, &[("control", Type::String)], &[]),
        None => has_keys(link, &[("to", Type::String)], &LINK),
    }
}

fn is_process(process: &Table) -> bool {
    has_keys(process, &PROCESS, &[("links", Type::Tables)]) && tables(process, "links").into_iter().all(is_link)
}

/// The processes of the file by their names, as links find them.
struct Known<'a> {
    places: Places<'a>,
    born: Vec<(Pid, &'a Image)>,
}

type Places<'a> = HashMap<&'a str, usize>;

fn processes_of(processes: &[&Table], machines: &[Room], images: &[Image], image_names: &Places, slots: usize) -> Read<Vec<Born>> {
    first(13, processes.iter().map(|process| is_process(process)))?;
    let places = names_of(14, processes, &["switchboard", "manager"])?;
    let machine = |process: &Table| integer(process, "machine", 0);
    first(15, processes.iter().map(|process| (0..machines.len() as i64).contains(&machine(process))))?;
    first(16, processes.iter().map(|process| image_names.contains_key(string(process, "image"))))?;
    let image = |process: &Table| image_names[string(process, "image")];
    let mut room: Vec<(u8, usize)> = machines.iter().map(|room| (room.slots, room.blocks.into())).collect();
    first(17, processes.iter().map(|process| takes(&mut room[machine(process) as usize], images[image(process)].blocks)))?;
    first(18, processes.iter().map(|process| tables(process, "links").len() <= slots))?;
    let mut made = vec![2; machines.len()];
    let mut pid = |process: &Table| {
        made[machine(process) as usize] += 1;
        Pid { home: machine(process) as u8, number: made[machine(process) as usize] }
    };
    let born = processes.iter().map(|process| (pid(process), &images[image(process)])).collect();
    let known = Known { places, born };
    first(19, processes.iter().map(|process| tables(process, "links").into_iter().all(|link| known.knows(link))))?;
    let mut done = Vec::new();
    for (place, process) in processes.iter().enumerate() {
        let links: Option<Vec<Link>> = tables(process, "links").into_iter().map(|link| known.link(link)).collect();
        let links = links.ok_or(Refused { rule: 20, place })?;
        done.push(Born { pid: known.born[place].0, image: image(process), links });
    }
    Ok(done)
}

/// Takes a slot and blocks of a machine's room: whether there were as many.
fn takes(room: &mut (u8, usize), blocks: usize) -> bool {
    let fits = room.0 >= 1 && room.1 >= blocks;
    if fits {
        *room = (room.0 - 1, room.1 - blocks);
    }
    fits
}

impl Known<'_> {
    fn knows(&self, link: &Table) -> bool {
        match link.get("control") {
            Some(_) => self.places.contains_key(string(link, "control")),
            None => server_named(string(link, "to")).is_some() || self.places.contains_key(string(link, "to")),
        }
    }

    /// The link that a table describes, if it is in range.
    fn link(&self, link: &Table) -> Option<Link> {
        if link.get("control").is_some() {
            let child = self.places[string(link, "control")] + 1;
            return Some(Link::plain(Address { pid: MANAGER, moves: 0, at: 0 }, child as u32));
        }
        let code = u32::try_from(integer(link, "code", 0)).ok()?;
        let channel = u8::try_from(integer(link, "channel", 0)).ok().filter(|channel| *channel < 32)?;
        let (reply, read, write) = (truth(link, "reply"), truth(link, "read"), truth(link, "write"));
        if let Some(pid) = server_named(string(link, "to")) {
            let is_zero = |key| matches!(link.get(key), None | Some(Value::Integer(0)));
            let fits = code == 0 && is_zero("base") && is_zero("len") && !read && !write;
            let address = Address { pid, moves: 0, at: 0 };
            return fits.then(|| Link { channel, reply, ..Link::plain(address, 0) });
        }
        let (pid, image) = self.born[self.places[string(link, "to")]];
        let (base, length) = area_of(link, &image.labels)?;
        let within = base.checked_add(length)? <= (BLOCK * image.blocks) as i64;
        let address = Address { pid, moves: 0, at: pid.home };
        let (base, length) = (u32::try_from(base).ok()?, u32::try_from(length).ok()?);
        within.then_some(Link { address, code, base, length, channel, reply, read, write })
    }
}

fn server_named(name: &str) -> Option<Pid> {
    match name {
        "switchboard" => Some(SWITCHBOARD),
        "manager" => Some(MANAGER),
        _ => None,
    }
}

/// Where a link's area begins, and how long it is. A label as base is where it stands, and as length the area ends there.
fn area_of(link: &Table, labels: &Labels) -> Option<(i64, i64)> {
    let label = |key| labels.get(string(link, key)).map(|value| *value as i64);
    let base = match link.get("base") {
        Some(Value::String(_)) => label("base")?,
        _ => integer(link, "base", 0),
    };
    let length = match link.get("len") {
        Some(Value::String(_)) => label("len")?.checked_sub(base).filter(|length| *length >= 0)?,
        _ => integer(link, "len", 0),
    };
    Some((base, length))
}
