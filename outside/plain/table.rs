//! A process's table of links (docs/SYSTEM.md, "Links").

use crate::values::{Address, Link};

pub struct Table {
    links: Vec<Link>, // what stands in an empty slot means nothing
    used: u128,       // bit s says whether slot s holds a link
    slots: usize,
}

impl Table {
    /// A table with these links in its first slots.
    pub fn new(slots: usize, links: &[Link]) -> Table {
        let used = if links.len() == 128 { u128::MAX } else { (1 << links.len()) - 1 };
        Table { links: links.to_vec(), used, slots }
    }

    /// A table with these links in the slots of these bits, in order.
    pub fn with_used(slots: usize, used: u128, mut next: impl FnMut() -> Link) -> Table {
        let mut table = Table { links: Vec::new(), used: 0, slots };
        for slot in bits(used) {
            table.put(slot, next());
        }
        table
    }

    pub fn used(&self) -> u128 {
        self.used
    }

    pub fn count(&self) -> usize {
        self.used.count_ones() as usize
    }

    pub fn empty(&self) -> usize {
        self.slots - self.count()
    }

    pub fn get(&self, slot: u32) -> Option<&Link> {
        let holds = slot < 128 && self.used >> slot & 1 == 1;
        if holds { self.links.get(slot as usize) } else { None }
    }

    fn put(&mut self, slot: usize, link: Link) {
        while self.links.len() <= slot {
            self.links.push(link);
        }
        self.links[slot] = link;
        self.used |= 1 << slot;
    }

    /// Puts a link into the lowest empty slot, which there must be.
    pub fn keep(&mut self, link: Link) -> u32 {
        let slot = self.used.trailing_ones();
        self.put(slot as usize, link);
        slot
    }

    pub fn remove(&mut self, slot: u32) {
        self.used &= !(1 << slot);
    }

    /// The links and their slots, in order.
    pub fn iter(&self) -> impl Iterator<Item = (usize, &Link)> {
        bits(self.used).map(|slot| (slot, &self.links[slot]))
    }

    /// Links to a process lead to where it went, where they know fewer moves of it: how many changed.
    pub fn follow(&mut self, about: Address) -> u32 {
        bits(self.used).map(|slot| self.links[slot].address.follow(about) as u32).sum()
    }
}

/// The numbers of the bits that are set, ascending.
fn bits(mut set: u128) -> impl Iterator<Item = usize> {
    std::iter::from_fn(move || {
        let bit = set.trailing_zeros();
        (bit < 128).then(|| {
            set &= set - 1;
            bit as usize
        })
    })
}
