//! The queue of a process: the messages that wait for it, by channel (docs/SYSTEM.md, "Calls").

use std::collections::VecDeque;

use crate::values::{Message, What};

/// Each message stands behind the earlier ones of its channel, with how many had come before it.
#[derive(Default)]
pub struct Mail {
    channels: Vec<Channel>, // those on which one ever came
    waiting: u32,           // a bit for each on which one waits
    come: u64,
}

struct Channel {
    number: u8,
    messages: VecDeque<(u64, Message)>,
}

impl Mail {
    pub fn add(&mut self, message: Message) {
        let What::User { channel: number, .. } = message.what else { unreachable!() };
        self.waiting |= 1 << number;
        let entry = (self.come, message);
        self.come += 1;
        match self.channels.iter_mut().find(|channel| channel.number == number) {
            Some(channel) => channel.messages.push_back(entry),
            None => self.channels.push(Channel { number, messages: VecDeque::from([entry]) }),
        }
    }

    pub fn has_on(&self, mask: u32) -> bool {
        self.waiting & mask != 0
    }

    /// The channel of the mask whose first message came before those of the others.
    fn first_on(&mut self, mask: u32) -> Option<&mut Channel> {
        let of_mask = self.channels.iter_mut().filter(|channel| mask >> channel.number & 1 == 1);
        of_mask.filter(|channel| !channel.messages.is_empty()).min_by_key(|channel| channel.messages[0].0)
    }

    /// Takes the first message on a channel of the mask, which there must be, unless it is refused.
    pub fn take_if<T>(&mut self, mask: u32, judge: impl FnOnce(&Message) -> Result<(), T>) -> Result<Message, T> {
        let channel = self.first_on(mask).expect("one waits");
        judge(&channel.messages[0].1)?;
        let (_, message) = channel.messages.pop_front().expect("it stands there");
        if channel.messages.is_empty() {
            let number = channel.number;
            self.waiting &= !(1 << number);
        }
        Ok(message)
    }

    /// All messages in the order in which they came.
    pub fn in_order(&self) -> Vec<&Message> {
        let mut all: Vec<&(u64, Message)> = self.channels.iter().flat_map(|channel| &channel.messages).collect();
        all.sort_unstable_by_key(|(come, _)| *come);
        all.into_iter().map(|(_, message)| message).collect()
    }

    /// The same, taken out.
    pub fn take_all(&mut self) -> Vec<Message> {
        let mut all: Vec<(u64, Message)> = self.channels.drain(..).flat_map(|channel| channel.messages).collect();
        all.sort_unstable_by_key(|(come, _)| *come);
        self.waiting = 0;
        all.into_iter().map(|(_, message)| message).collect()
    }
}
