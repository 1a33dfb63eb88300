//! The process manager (docs/SYSTEM.md, "The servers").

use std::collections::BTreeMap;

use crate::values::{Address, Link, Message, Name, Pid, What, MANAGER, SWITCHBOARD};

const CREATE: u8 = 1;
const STOP: u8 = 2;
const RESUME: u8 = 3;
const KILL: u8 = 4;
const MOVE: u8 = 5;

const DONE: u8 = 0;
const NO_ROOM: u8 = 1;
const BAD_REQUEST: u8 = 2;

pub struct Manager {
    pub sent: u32,
    pub moves: u32,
    pub children: Vec<Address>,
    pub board: Address,
    pub pending: BTreeMap<u32, Pending>, // by the number of the request
    pub machines: usize,
    pub images: usize,
}

/// A request without a taken answer: whether it is one to move, and the link for the answer.
pub struct Pending {
    pub moves: bool,
    pub link: Option<Link>,
}

impl Manager {
    pub fn new(machines: usize, images: usize, children: Vec<Address>) -> Manager {
        let board = Address { pid: SWITCHBOARD, moves: 0, at: 0 };
        Manager { sent: 0, moves: 0, children, board, pending: BTreeMap::new(), machines, images }
    }

    pub fn address(&self, here: u8) -> Address {
        Address { pid: MANAGER, moves: self.moves, at: here }
    }

    fn message(&mut self, to: Address, here: u8, what: What) -> Message {
        let name = Name { sender: MANAGER, count: self.sent, answers: false };
        self.sent += 1;
        Message { name, to, sender: self.address(here), what }
    }

    /// A byte over a link, if there is one.
    fn over(&mut self, link: Option<Link>, here: u8, byte: u8, links: Vec<Link>) -> Option<Message> {
        let link = link?;
        let what = What::User { code: link.code, channel: link.channel, body: vec![byte], links };
        Some(self.message(link.address, here, what))
    }

    /// Does what a message asks, on the machine where the manager is: what is sent then, if anything.
    pub fn take(&mut self, message: Message, here: u8) -> Option<Message> {
        match message.what {
            What::User { code, body, links, .. } => self.asked(here, code, &body, links),
            What::Moved { result } => {
                let link = self.answered(message.name);
                self.over(link, here, result, Vec::new())
            }
            What::NoRoom => {
                let link = self.answered(message.name);
                self.over(link, here, NO_ROOM, Vec::new())
            }
            What::Created { pid } => {
                let link = self.answered(message.name);
                self.children.push(Address { pid, moves: 0, at: pid.home });
                let control = Link::plain(self.address(here), self.children.len() as u32);
                self.over(link, here, DONE, vec![control])
            }
            _ => unreachable!(),
        }
    }

    /// A pending request is answered: the link for its answer.
    fn answered(&mut self, name: Name) -> Option<Link> {
        self.pending.remove(&name.count)?.link
    }

    fn asked(&mut self, here: u8, code: u32, body: &[u8], links: Vec<Link>) -> Option<Message> {
        let first = links.first().copied();
        let request = if code == 0 { self.to_make(body, links) } else { self.to_control(code, body) };
        let Some((to, what)) = request else { return self.over(first, here, BAD_REQUEST, Vec::new()) };
        let moves = matches!(what, What::Move { .. });
        if moves || matches!(what, What::Create { .. }) {
            self.pending.insert(self.sent, Pending { moves, link: first });
        }
        Some(self.message(to, here, what))
    }

    /// The request to make a process, if that is what the body asks.
    fn to_make(&self, body: &[u8], mut links: Vec<Link>) -> Option<(Address, What)> {
        let [CREATE, machine, high, low] = *body else { return None };
        let image = u16::from_be_bytes([high, low]);
        if links.is_empty() || machine as usize >= self.machines || image as usize >= self.images {
            return None;
        }
        links.remove(0);
        Some((Address::kernel(machine), What::Create { image, links }))
    }

    /// What does to a child what the body asks, if it asks something of a child.
    fn to_control(&self, number: u32, body: &[u8]) -> Option<(Address, What)> {
        let child = *self.children.get(number as usize - 1)?;
        let what = match *body {
            [STOP] => What::Stop,
            [RESUME] => What::Resume,
            [KILL] => What::Kill,
            [MOVE, to] if (to as usize) < self.machines => What::Move { to },
            _ => return None,
        };
        Some((child, what))
    }

    /// The manager's address of what is to move, on the machine where the manager is: of a child, or of a server.
    pub fn leads_to(&self, pid: Pid, here: u8) -> Option<Address> {
        match pid {
            MANAGER => Some(self.address(here)),
            SWITCHBOARD => Some(self.board),
            _ => self.children.iter().find(|child| child.pid == pid).copied(),
        }
    }

    pub fn follow(&mut self, about: Address) -> u32 {
        let children: u32 = self.children.iter_mut().map(|child| child.follow(about) as u32).sum();
        let links = self.pending.values_mut().filter_map(|request| request.link.as_mut());
        let links: u32 = links.map(|link| link.address.follow(about) as u32).sum();
        children + links + self.board.follow(about) as u32
    }
}
