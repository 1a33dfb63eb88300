//! What a machine knows of each process and server (docs/SYSTEM.md, "Between machines").

use crate::manager::Manager;
use crate::process::Process;
use crate::state;
use crate::switchboard::Switchboard;
use crate::values::{Address, Asker, Message, Pid, MANAGER, SWITCHBOARD};

/// What stands on a machine and can move to another.
pub enum Resident {
    Process(Box<Process>),
    Board(Box<Switchboard>),
    Manager(Box<Manager>),
}

impl Resident {
    pub fn pid(&self) -> Pid {
        match self {
            Resident::Process(process) => process.pid,
            Resident::Board(_) => SWITCHBOARD,
            Resident::Manager(_) => MANAGER,
        }
    }

    /// How often it has moved.
    pub fn moves(&self) -> u32 {
        match self {
            Resident::Process(process) => process.moves,
            Resident::Board(board) => board.moves,
            Resident::Manager(manager) => manager.moves,
        }
    }

    pub fn moves_once_more(&mut self) {
        match self {
            Resident::Process(process) => process.moves += 1,
            Resident::Board(board) => board.moves += 1,
            Resident::Manager(manager) => manager.moves += 1,
        }
    }

    /// Of memory; a server has none.
    pub fn blocks(&self) -> usize {
        match self {
            Resident::Process(process) => process.blocks(),
            _ => 0,
        }
    }

    pub fn address(&self, here: u8) -> Address {
        Address { pid: self.pid(), moves: self.moves(), at: here }
    }

    pub fn state(&self) -> Vec<u8> {
        match self {
            Resident::Process(process) => state::write_process(process),
            Resident::Board(board) => state::write_switchboard(board),
            Resident::Manager(manager) => state::write_manager(manager),
        }
    }
}

/// One that leaves: its state bytes, who asked for the move where one did, and the messages that wait meanwhile.
pub struct Leaving {
    pub resident: Resident,
    pub to: u8,
    pub state: Vec<u8>,
    pub asker: Option<Box<Asker>>,
    pub held: Vec<Message>,
}

/// One that comes, as far as it has come.
pub struct Coming {
    pub from: u8,
    pub blocks: usize,
    pub moves: u32,
    pub asker: Option<Box<Asker>>,
    pub state: Vec<u8>,
    pub resident: Option<Resident>, // once all of its state has come
    pub whole: bool,                // whether all of it has come
    pub held: Vec<Message>,
}

#[derive(Default)]
pub enum Record {
    #[default]
    Unknown,
    Here(Resident),
    Leaving(Box<Leaving>),
    Coming(Box<Coming>),
    Gone { to: u8, moves: u32 },
}

/// A record, and beside it the machines that may send on to this one, a bit each.
#[derive(Default)]
struct Place {
    record: Record,
    predecessors: u16,
}

/// The records of a machine, by home and number.
pub struct Records {
    homes: Vec<Vec<Place>>,
}

impl Records {
    pub fn new(machines: usize) -> Records {
        Records { homes: (0..machines).map(|_| Vec::new()).collect() }
    }

    pub fn get(&self, pid: Pid) -> &Record {
        let place = self.homes[pid.home as usize].get(pid.number as usize);
        place.map_or(&Record::Unknown, |place| &place.record)
    }

    fn place(&mut self, pid: Pid) -> &mut Place {
        let numbers = &mut self.homes[pid.home as usize];
        let number = pid.number as usize;
        if numbers.len() <= number {
            numbers.resize_with(number + 1, Place::default);
        }
        &mut numbers[number]
    }

    /// Of a process or server of which something may be known.
    pub fn at(&mut self, pid: Pid) -> &mut Record {
        &mut self.place(pid).record
    }

    pub fn process(&mut self, pid: Pid) -> &mut Process {
        match self.at(pid) {
            Record::Here(Resident::Process(process)) => process,
            _ => unreachable!("it is here"),
        }
    }

    pub fn take(&mut self, pid: Pid) -> Record {
        std::mem::take(self.at(pid))
    }

    pub fn add_predecessor(&mut self, pid: Pid, machine: u8) {
        self.place(pid).predecessors |= 1 << machine;
    }

    pub fn take_predecessors(&mut self, pid: Pid) -> u16 {
        std::mem::take(&mut self.place(pid).predecessors)
    }

    /// All records, in the order of the names.
    pub fn iter(&self) -> impl Iterator<Item = (Pid, &Record)> {
        (0..).zip(&self.homes).flat_map(|(home, numbers)| {
            (0..).zip(numbers).map(move |(number, place)| (Pid { home, number }, &place.record))
        })
    }
}
