//! The switchboard (docs/SYSTEM.md, "The servers").

use std::collections::HashMap;

use crate::values::{Address, Link, Message, Name, What, SWITCHBOARD};

const REGISTER: u8 = 1;
const LOOK_UP: u8 = 2;

const REGISTERED: u8 = 0;
const FOUND: u8 = 1;
const UNKNOWN: u8 = 2;
const TAKEN: u8 = 3;
const BAD_LINK: u8 = 4;
const BAD_REQUEST: u8 = 5;

const LONGEST_NAME: usize = 16;

#[derive(Default)]
pub struct Switchboard {
    pub sent: u32,
    pub moves: u32,
    pub names: Vec<(Vec<u8>, Link)>, // in the order in which they were registered
    places: HashMap<Vec<u8>, usize>,
}

impl Switchboard {
    pub fn address(&self, here: u8) -> Address {
        Address { pid: SWITCHBOARD, moves: self.moves, at: here }
    }

    pub fn register(&mut self, name: Vec<u8>, link: Link) {
        self.places.insert(name.clone(), self.names.len());
        self.names.push((name, link));
    }

    fn find(&self, name: &[u8]) -> Option<Link> {
        self.places.get(name).map(|place| self.names[*place].1)
    }

    /// Does what a message asks, on the machine where the switchboard is: the answer, if any.
    pub fn take(&mut self, what: &What, here: u8) -> Option<Message> {
        let What::User { body, links, .. } = what else { return None };
        let first = links.first()?;
        let (result, found) = self.result(body, links);
        let name = Name { sender: SWITCHBOARD, count: self.sent, answers: false };
        self.sent += 1;
        let links = found.into_iter().collect();
        let what = What::User { code: first.code, channel: first.channel, body: vec![result], links };
        Some(Message { name, to: first.address, sender: self.address(here), what })
    }

    fn result(&mut self, body: &[u8], links: &[Link]) -> (u8, Option<Link>) {
        let Some((operation, name)) = body.split_first() else { return (BAD_REQUEST, None) };
        if name.is_empty() || name.len() > LONGEST_NAME {
            return (BAD_REQUEST, None);
        }
        match (*operation, links) {
            (LOOK_UP, [_]) => match self.find(name) {
                Some(link) => (FOUND, Some(link)),
                None => (UNKNOWN, None),
            },
            (REGISTER, [_, link]) if link.reply => (BAD_LINK, None),
            (REGISTER, [_, _]) if self.find(name).is_some() => (TAKEN, None),
            (REGISTER, [_, link]) => {
                self.register(name.to_vec(), *link);
                (REGISTERED, None)
            }
            _ => (BAD_REQUEST, None),
        }
    }

    pub fn follow(&mut self, about: Address) -> u32 {
        self.names.iter_mut().map(|(_, link)| link.address.follow(about) as u32).sum()
    }
}
