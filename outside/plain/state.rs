//! The state bytes of processes and servers that move (docs/FORMATS.md, "State bytes").

use crate::manager::{Manager, Pending};
use crate::packet::{Reader, Writer};
use crate::process::{Format, Move, Process, Status, Wait, BLOCK};
use crate::processor::Core;
use crate::switchboard::Switchboard;
use crate::table::Table;
use crate::values::{MANAGER, SWITCHBOARD};

const PROCESS_VERSION: u8 = 3;
const SERVER_VERSION: u8 = 4;

pub fn write_process(process: &Process) -> Vec<u8> {
    let mut bytes = Vec::with_capacity(129 + 24 * process.table.count());
    let to = &mut Writer { bytes: &mut bytes };
    to.u8(PROCESS_VERSION).pid(process.pid).u16(process.blocks() as u16).truth(process.stopped);
    write_status(to, &process.status);
    to.u32(process.sent).u32(process.moves);
    for register in process.core.registers {
        to.u32(register);
    }
    to.u32(process.core.counter).all(&process.table.used().to_be_bytes());
    for (_, link) in process.table.iter() {
        to.link(link);
    }
    bytes
}

fn write_status(to: &mut Writer, status: &Status) {
    match status {
        Status::Ready => to.u8(0),
        Status::Waiting(wait) => to.u8(1).u32(wait.mask).u32(wait.base).u32(wait.capacity),
        Status::Moving(moving) => {
            to.u8(2).truth(moving.into).address(moving.owner);
            to.u32(moving.base).u32(moving.own).u32(moving.left).u32(moving.pending)
        }
    };
}

/// The process of these state bytes, with its memory still to come.
pub fn read_process(bytes: &[u8], format: Format) -> Process {
    let mut reader = Reader::new(bytes);
    assert_eq!(reader.u8(), PROCESS_VERSION);
    let pid = reader.pid();
    let memory = Vec::with_capacity(BLOCK * reader.u16() as usize);
    let stopped = reader.truth();
    let status = read_status(&mut reader);
    let (sent, moves) = (reader.u32(), reader.u32());
    let registers = std::array::from_fn(|_| reader.u32());
    let core = Core { registers, counter: reader.u32(), memory };
    let used = reader.u128();
    let table = Table::with_used(format.slots, used, || reader.link());
    let mut process = Process::with(pid, core, table, format);
    (process.status, process.stopped) = (status, stopped);
    (process.sent, process.moves) = (sent, moves);
    process
}

fn read_status(reader: &mut Reader) -> Status {
    match reader.u8() {
        0 => Status::Ready,
        1 => Status::Waiting(Wait { mask: reader.u32(), base: reader.u32(), capacity: reader.u32() }),
        _ => Status::Moving(Move {
            into: reader.truth(),
            owner: reader.address(),
            base: reader.u32(),
            own: reader.u32(),
            left: reader.u32(),
            pending: reader.u32(),
        }),
    }
}

/// What stands behind the head, with the counts of messages and moves.
fn read_server_head(bytes: &[u8]) -> (Reader<'_>, u32, u32) {
    let mut reader = Reader::new(bytes);
    assert_eq!(reader.u8(), SERVER_VERSION);
    reader.pid();
    let (sent, moves) = (reader.u32(), reader.u32());
    (reader, sent, moves)
}

pub fn write_switchboard(board: &Switchboard) -> Vec<u8> {
    let mut bytes = Vec::new();
    let to = &mut Writer { bytes: &mut bytes };
    to.u8(SERVER_VERSION).pid(SWITCHBOARD).u32(board.sent).u32(board.moves);
    to.u32(board.names.len() as u32);
    for (name, link) in &board.names {
        to.u8(name.len() as u8).all(name).link(link);
    }
    bytes
}

pub fn read_switchboard(bytes: &[u8]) -> Switchboard {
    let (mut reader, sent, moves) = read_server_head(bytes);
    let mut board = Switchboard::default();
    (board.sent, board.moves) = (sent, moves);
    for _ in 0..reader.u32() {
        let length = reader.u8();
        let name = reader.bytes(length.into()).to_vec();
        board.register(name, reader.link());
    }
    board
}

pub fn write_manager(manager: &Manager) -> Vec<u8> {
    let mut bytes = Vec::new();
    let to = &mut Writer { bytes: &mut bytes };
    to.u8(SERVER_VERSION).pid(MANAGER).u32(manager.sent).u32(manager.moves);
    to.u32(manager.children.len() as u32);
    for child in &manager.children {
        to.address(*child);
    }
    to.address(manager.board).u32(manager.pending.len() as u32);
    for (number, request) in &manager.pending {
        to.u32(*number).truth(request.moves).link_if_any(request.link.as_ref());
    }
    bytes
}

/// The manager of these state bytes, on a system of so many machines and images.
pub fn read_manager(bytes: &[u8], machines: usize, images: usize) -> Manager {
    let (mut reader, sent, moves) = read_server_head(bytes);
    let children = (0..reader.u32()).map(|_| reader.address()).collect();
    let mut manager = Manager { sent, moves, board: reader.address(), ..Manager::new(machines, images, children) };
    for _ in 0..reader.u32() {
        let (number, moves) = (reader.u32(), reader.truth());
        let link = reader.truth().then(|| reader.link());
        manager.pending.insert(number, Pending { moves, link });
    }
    manager
}
