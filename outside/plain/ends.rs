//! The lines at the end of a run (docs/FORMATS.md, "Printed lines").

use std::collections::BTreeMap;

use crate::manager::Manager;
use crate::process::{Process, Status, BLOCK};
use crate::records::{Record, Resident};
use crate::text::Text;
use crate::values::{Message, Name, Pid, MANAGER};
use crate::world::World;

/// Where a process or a server stands.
struct Standing<'a> {
    machine: u8,
    place: &'static str,
    resident: &'a Resident,
}

type Standings<'a> = BTreeMap<Pid, Standing<'a>>;

/// Writes the lines at the end into a text.
pub fn end_lines(world: &World, text: &mut Text) {
    let standings = standings_of(world);
    text.begin("final").end();
    processes_into(world, &standings, text);
    servers_into(&standings, text);
    queues_into(world, &standings, text);
    text.begin("end").number(world.groups).end();
}

/// What leaves is there until it has gone; only then what comes is it.
fn standings_of<'a>(world: &'a World) -> Standings<'a> {
    let mut found = Standings::new();
    for machine in &world.machines {
        for (pid, record) in machine.records.iter() {
            let (place, resident) = match record {
                Record::Here(resident) => ("here", resident),
                Record::Leaving(leaving) => ("leaving", &leaving.resident),
                Record::Coming(coming) => match &coming.resident {
                    Some(resident) if !found.contains_key(&pid) => ("arriving", resident),
                    _ => continue,
                },
                _ => continue,
            };
            found.insert(pid, Standing { machine: machine.number, place, resident });
        }
    }
    found
}

/// All processes in the order of their names, those that have ended among them.
fn processes_into(world: &World, standings: &Standings, text: &mut Text) {
    let mut ended = world.common.ended.iter().peekable();
    for (pid, standing) in standings {
        while let Some((other, why)) = ended.next_if(|(other, _)| *other < pid) {
            ended_into(*other, *why, text);
        }
        if let Resident::Process(process) = standing.resident {
            process_into(process, standing, text);
        }
    }
    for (pid, why) in ended {
        ended_into(*pid, *why, text);
    }
}

fn ended_into(pid: Pid, why: u8, text: &mut Text) {
    text.begin("process").pid(pid).word("ended").number(why).end();
}

fn process_into(process: &Process, standing: &Standing, text: &mut Text) {
    let pid = process.pid;
    text.begin("process").pid(pid).word("at").number(standing.machine).word(standing.place);
    status_into(&process.status, text);
    text.word(if process.stopped { "stopped" } else { "go" }).number(process.sent).end();
    text.begin("registers").pid(pid);
    for register in process.core.registers {
        text.number(register);
    }
    text.number(process.core.counter).end();
    for (block, bytes) in process.core.memory.chunks(BLOCK).enumerate() {
        if let Some(last) = bytes.iter().rposition(|byte| *byte != 0) {
            text.begin("memory").pid(pid).number(block as u64).hex(&bytes[..=last]).end();
        }
    }
    for (slot, link) in process.table.iter() {
        text.begin("link").pid(pid).number(slot as u64).link(link).end();
    }
}

fn status_into(status: &Status, text: &mut Text) {
    match status {
        Status::Ready => text.word("ready"),
        Status::Waiting(wait) => text.word("waiting").number(wait.mask).number(wait.base).number(wait.capacity),
        Status::Moving(moving) => {
            text.word("moving").number(u32::from(moving.into)).pid(moving.owner.pid);
            text.number(moving.base).number(moving.own).number(moving.left)
        }
    };
}

fn servers_into(standings: &Standings, text: &mut Text) {
    for (pid, standing) in standings {
        let sent = match standing.resident {
            Resident::Process(_) => continue,
            Resident::Board(board) => board.sent,
            Resident::Manager(manager) => manager.sent,
        };
        text.begin("server").pid(*pid).number(sent).end();
        if (standing.machine, standing.place) != (0, "here") {
            text.begin("place").pid(*pid).word("at").number(standing.machine).word(standing.place).end();
        }
    }
    for standing in standings.values() {
        match standing.resident {
            Resident::Process(_) => {}
            Resident::Board(board) => {
                for (name, link) in &board.names {
                    text.begin("name").hex(name).link(link).end();
                }
            }
            Resident::Manager(manager) => manager_into(manager, text),
        }
    }
}

fn manager_into(manager: &Manager, text: &mut Text) {
    for (number, child) in (1u64..).zip(&manager.children) {
        text.begin("child").number(number).pid(child.pid).word("at").number(child.at).end();
    }
    for count in manager.pending.keys() {
        text.begin("pending").name(Name { sender: MANAGER, count: *count, answers: false }).end();
    }
}

/// The lists that aren't empty: queues, what is held, inboxes, streams.
fn queues_into(world: &World, standings: &Standings, text: &mut Text) {
    for (pid, standing) in standings {
        if let Resident::Process(process) = standing.resident {
            list_into(text, process.queue.in_order(), |text| text.begin("queue").pid(*pid));
        }
    }
    for machine in &world.machines {
        for (pid, record) in machine.records.iter() {
            let held = match record {
                Record::Leaving(leaving) => &leaving.held,
                Record::Coming(coming) => &coming.held,
                _ => continue,
            };
            list_into(text, held, |text| text.begin("holding").number(machine.number).pid(pid));
        }
    }
    for machine in &world.machines {
        list_into(text, &machine.inbox, |text| text.begin("inbox").number(machine.number));
    }
    for from in 0..world.machines.len() as u8 {
        for to in 0..world.machines.len() as u8 {
            let names = world.common.network.not_taken(from, to);
            names_into(text, names, |text| text.begin("stream").number(from).number(to));
        }
    }
}

/// A line of messages' names behind words, where there are some.
fn list_into<'a>(text: &mut Text, messages: impl IntoIterator<Item = &'a Message>, begin: impl Fn(&mut Text) -> &mut Text) {
    names_into(text, messages.into_iter().map(|message| message.name), begin);
}

fn names_into(text: &mut Text, names: impl IntoIterator<Item = Name>, begin: impl Fn(&mut Text) -> &mut Text) {
    let mut names = names.into_iter().peekable();
    if names.peek().is_some() {
        begin(text);
        names.for_each(|name| {
            text.name(name);
        });
        text.end();
    }
}
