//! The calls of a process (docs/SYSTEM.md, "Calls").

use crate::process::{Move, Process, Status, Wait, DONE};
use crate::values::{Link, Message, What};

const NO_LINK: u8 = 1;
const FULL: u8 = 2;
const BAD_KIND: u8 = 3;
const BAD_RANGE: u8 = 4;
const NO_RIGHT: u8 = 5;
const TOO_LONG: u8 = 6;
const NOT_COPYABLE: u8 = 8;

const MOST_LINKS: u32 = 4;
const UNKNOWN_CALL: u8 = 4;

/// What a call comes to.
pub enum Outcome {
    Replied(u8),
    Out(u32),
    Waits,
    Sent(Message),
    Ended(u8),
}

/// A call is refused with a code, or done with a value.
type Tried<T> = Result<T, u8>;

fn refused_if(holds: bool, code: u8) -> Tried<()> {
    if holds { Err(code) } else { Ok(()) }
}

impl Process {
    /// Carries a call out, on the machine where the process is.
    pub fn call(&mut self, number: u8, here: u8) -> Outcome {
        let tried = match number {
            1 => return Outcome::Ended(0),
            2 => self.out(),
            3 => self.make(here),
            4 => self.copy(),
            5 => self.drop_link(),
            6 => self.send(here),
            7 => self.receive(),
            8 => self.move_data(here),
            _ => return Outcome::Ended(UNKNOWN_CALL),
        };
        tried.unwrap_or_else(|code| self.reply(code))
    }

    fn reply(&mut self, code: u8) -> Outcome {
        self.core.registers[0] = code.into();
        Outcome::Replied(code)
    }

    /// The arguments, from register 1 on.
    fn arguments<const N: usize>(&self) -> [u32; N] {
        *self.core.registers[1..].first_chunk().expect("there are fifteen")
    }

    fn link_in(&self, slot: u32) -> Tried<Link> {
        self.table.get(slot).copied().ok_or(NO_LINK)
    }

    /// So many bytes from there on must lie within the memory.
    fn within_memory(&self, base: u32, length: u32) -> Tried<()> {
        refused_if(base as u64 + length as u64 > self.core.memory.len() as u64, BAD_RANGE)
    }

    /// Puts a link into a slot, whose number goes into register 1.
    fn keep(&mut self, link: Link) -> Tried<Outcome> {
        refused_if(self.table.empty() == 0, FULL)?;
        self.core.registers[1] = self.table.keep(link);
        Ok(self.reply(DONE))
    }

    fn out(&mut self) -> Tried<Outcome> {
        let [word] = self.arguments();
        self.core.registers[0] = DONE.into();
        Ok(Outcome::Out(word))
    }

    fn make(&mut self, here: u8) -> Tried<Outcome> {
        let [code, channel, flags, base, length] = self.arguments();
        refused_if(flags > 7, BAD_KIND)?;
        refused_if(channel > 31, BAD_RANGE)?;
        self.within_memory(base, length)?;
        let (reply, read, write) = (flags & 1 != 0, flags & 2 != 0, flags & 4 != 0);
        self.keep(Link { address: self.address(here), code, base, length, channel: channel as u8, reply, read, write })
    }

    fn copy(&mut self) -> Tried<Outcome> {
        let [slot] = self.arguments();
        let link = self.link_in(slot)?;
        refused_if(link.reply, NOT_COPYABLE)?;
        self.keep(link)
    }

    fn drop_link(&mut self) -> Tried<Outcome> {
        let [slot] = self.arguments();
        self.link_in(slot)?;
        self.table.remove(slot);
        Ok(self.reply(DONE))
    }

    fn send(&mut self, here: u8) -> Tried<Outcome> {
        let [slot, body, length, count, listed] = self.arguments();
        let carrier = self.link_in(slot)?;
        refused_if(length > self.longest || count > MOST_LINKS, TOO_LONG)?;
        self.within_memory(body, length)?;
        self.within_memory(listed, count)?;
        let mut named = [slot; MOST_LINKS as usize + 1];
        let named = &mut named[..count as usize + 1];
        for (place, byte) in named[1..].iter_mut().zip(&self.core.memory[listed as usize..]) {
            *place = u32::from(*byte);
        }
        let links = named[1..].iter().map(|slot| self.link_in(*slot)).collect::<Tried<Vec<Link>>>()?;
        self.use_up(named)?;
        let body = self.core.memory[body as usize..(body + length) as usize].to_vec();
        self.core.registers[0] = DONE.into();
        let what = What::User { code: carrier.code, channel: carrier.channel, body, links };
        Ok(Outcome::Sent(self.message(carrier.address, here, what)))
    }

    /// Reply links leave the slots that are named, each of which may be named once.
    fn use_up(&mut self, named: &[u32]) -> Tried<()> {
        let is_reply = |slot: u32| self.table.get(slot).is_some_and(|link| link.reply);
        let twice = |place: usize| named[..place].contains(&named[place]) && is_reply(named[place]);
        refused_if((1..named.len()).any(twice), BAD_KIND)?;
        for slot in named {
            if self.table.get(*slot).is_some_and(|link| link.reply) {
                self.table.remove(*slot);
            }
        }
        Ok(())
    }

    fn receive(&mut self) -> Tried<Outcome> {
        let [mask, base, capacity] = self.arguments();
        self.within_memory(base, capacity)?;
        self.status = Status::Waiting(Wait { mask, base, capacity });
        Ok(Outcome::Waits)
    }

    fn move_data(&mut self, here: u8) -> Tried<Outcome> {
        let [slot, direction, offset, own, length] = self.arguments();
        let link = self.link_in(slot)?;
        refused_if(direction > 1, BAD_KIND)?;
        let into = direction == 1;
        refused_if(!(if into { link.write } else { link.read }), NO_RIGHT)?;
        refused_if(offset as u64 + length as u64 > link.length as u64, BAD_RANGE)?;
        self.within_memory(own, length)?;
        if length == 0 {
            return Ok(self.reply(DONE));
        }
        let (owner, base) = (link.address, link.base + offset);
        self.status = Status::Moving(Move { into, owner, base, own, left: length, pending: self.sent });
        Ok(Outcome::Sent(self.request(here)))
    }
}
