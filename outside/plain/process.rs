//! A process, its receives and its data moves (docs/SYSTEM.md, "Calls" and "Data moves").

use crate::mail::Mail;
use crate::processor::Core;
use crate::table::Table;
use crate::values::{Address, Link, Message, Name, Pid, What};

pub const BLOCK: usize = 256;
const PIECE: u32 = 256;

pub const DONE: u8 = 0;
const FULL: u8 = 2;
const TOO_LONG: u8 = 6;
const OWNER_ENDED: u8 = 7;

pub enum Status {
    Ready,
    Waiting(Wait),
    Moving(Move),
}

/// For a message on a channel of the mask.
#[derive(Clone, Copy)]
pub struct Wait {
    pub mask: u32,
    pub base: u32,
    pub capacity: u32,
}

/// Data, from the area of an owner or into it: where the piece under way begins in the owner's memory and in its own, how much
/// is left with it, and the number of its request.
#[derive(Clone, Copy)]
pub struct Move {
    pub into: bool,
    pub owner: Address,
    pub base: u32,
    pub own: u32,
    pub left: u32,
    pub pending: u32,
}

pub struct Process {
    pub pid: Pid,
    pub core: Core,
    pub table: Table,
    pub status: Status,
    pub stopped: bool,
    pub sent: u32,
    pub moves: u32,
    pub longest: u32, // a body
    pub queue: Mail,
}

/// What every process of a system has alike.
#[derive(Clone, Copy)]
pub struct Format {
    pub slots: usize,
    pub longest: u32,
}

impl Process {
    /// One that hasn't done anything yet.
    pub fn fresh(pid: Pid, memory: Vec<u8>, links: &[Link], format: Format) -> Process {
        let core = Core { registers: [0; 16], counter: 0, memory };
        Process::with(pid, core, Table::new(format.slots, links), format)
    }

    pub fn with(pid: Pid, core: Core, table: Table, format: Format) -> Process {
        let (status, longest, queue) = (Status::Ready, format.longest, Mail::default());
        Process { pid, core, table, status, stopped: false, sent: 0, moves: 0, longest, queue }
    }

    pub fn blocks(&self) -> usize {
        self.core.memory.len() / BLOCK
    }

    pub fn address(&self, here: u8) -> Address {
        Address { pid: self.pid, moves: self.moves, at: here }
    }

    /// The process's next message.
    pub fn message(&mut self, to: Address, here: u8, what: What) -> Message {
        let name = Name { sender: self.pid, count: self.sent, answers: false };
        self.sent += 1;
        Message { name, to, sender: self.address(here), what }
    }

    /// Links and a data move lead to where a process went, where they know fewer moves of it: how many links changed.
    pub fn follow(&mut self, about: Address) -> u32 {
        if let Status::Moving(moving) = &mut self.status {
            moving.owner.follow(about);
        }
        self.table.follow(about)
    }

    // Being served

    pub fn can_be_served(&self) -> bool {
        match self.status {
            _ if self.stopped => false,
            Status::Ready => true,
            Status::Waiting(wait) => self.queue.has_on(wait.mask),
            Status::Moving(_) => false,
        }
    }

    /// Ends a receive: the message's name, and the code with which it was refused, or 0.
    pub fn complete_receive(&mut self, wait: Wait) -> (Name, u8) {
        self.status = Status::Ready;
        let empty = self.table.empty();
        let judge = |message: &Message| match &message.what {
            What::User { body, .. } if body.len() > wait.capacity as usize => Err((message.name, TOO_LONG)),
            What::User { links, .. } if links.len() > empty => Err((message.name, FULL)),
            _ => Ok(()),
        };
        let (name, code) = match self.queue.take_if(wait.mask, judge) {
            Ok(message) => {
                self.take_message(wait, &message.what);
                (message.name, DONE)
            }
            Err(refused) => refused,
        };
        self.core.registers[0] = code.into();
        (name, code)
    }

    fn take_message(&mut self, wait: Wait, what: &What) {
        let What::User { code, channel, body, links } = what else { unreachable!() };
        let base = wait.base as usize;
        self.core.memory[base..base + body.len()].copy_from_slice(body);
        let told = [*code, (*channel).into(), body.len() as u32, links.len() as u32];
        self.core.registers[1..5].copy_from_slice(&told);
        for (link, register) in links.iter().zip(5..) {
            self.core.registers[register] = self.table.keep(*link);
        }
    }

    // Data moves

    /// The request for the piece that the status says.
    pub fn request(&mut self, here: u8) -> Message {
        let pending = self.sent;
        let Status::Moving(moving) = &mut self.status else { unreachable!() };
        moving.pending = pending;
        let length = moving.left.min(PIECE);
        let (owner, base, own) = (moving.owner, moving.base, moving.own as usize);
        let what = if moving.into {
            What::Write { base, bytes: self.core.memory[own..own + length as usize].to_vec() }
        } else {
            What::Read { base, length: length as u16 }
        };
        self.message(owner, here, what)
    }

    /// Does what a request for a piece of this process's memory asks: the answer.
    pub fn serve_piece(&mut self, request: &Message, here: u8) -> Message {
        let what = match &request.what {
            What::Read { base, length } => {
                let base = *base as usize;
                What::Block { bytes: self.core.memory[base..base + *length as usize].to_vec() }
            }
            What::Write { base, bytes } => {
                let base = *base as usize;
                self.core.memory[base..base + bytes.len()].copy_from_slice(bytes);
                What::Written
            }
            _ => unreachable!(),
        };
        request.answer(self.address(here), what)
    }

    /// A piece has come, or gone, or its owner has ended: the next request, or none where the move has ended.
    pub fn land(&mut self, what: &What, here: u8) -> Option<Message> {
        let Status::Moving(moving) = &mut self.status else { unreachable!() };
        let length = moving.left.min(PIECE);
        let own = moving.own as usize;
        moving.base += length;
        moving.own += length;
        moving.left -= length;
        let left = moving.left;
        match what {
            What::Gone => return self.end_move(OWNER_ENDED),
            What::Block { bytes } => self.core.memory[own..own + length as usize].copy_from_slice(bytes),
            _ => {}
        }
        if left > 0 { Some(self.request(here)) } else { self.end_move(DONE) }
    }

    fn end_move(&mut self, code: u8) -> Option<Message> {
        self.core.registers[0] = code.into();
        self.status = Status::Ready;
        None
    }
}
