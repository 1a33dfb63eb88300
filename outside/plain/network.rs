//! Streams and wires, and how many messages each pair of machines counts (docs/SYSTEM.md, "Between machines").

use std::collections::VecDeque;

use crate::packet::{read_head, read_message, write_acknowledgement, write_data, Head};
use crate::text::Text;
use crate::values::{Message, Name};

const WINDOW: usize = 8;

/// Why a run ends before its schedule does: a pair of machines counts as many messages as it may, or a write failed.
pub enum Stop {
    Worn { from: u8, to: u8 },
    WriteFault,
}

/// What is done, or stops the run in its midst.
pub type Done<T = ()> = Result<T, Stop>;

/// All packets that were ever put on a wire, one behind the other, each with a mark for whether it was delivered.
#[derive(Default)]
pub struct Wire {
    bytes: Vec<u8>,
    puts: Vec<Put>,
    first: usize, // all before it were delivered
}

struct Put {
    end: usize,
    delivered: bool,
}

impl Wire {
    pub fn len(&self) -> usize {
        self.puts.len()
    }

    fn start(&self, number: usize) -> usize {
        if number == 0 { 0 } else { self.puts[number - 1].end }
    }

    pub fn packet(&self, number: usize) -> &[u8] {
        &self.bytes[self.start(number)..self.puts[number].end]
    }

    /// The bytes that were written last are a packet: its number.
    fn put(&mut self) -> usize {
        self.puts.push(Put { end: self.bytes.len(), delivered: false });
        self.puts.len() - 1
    }

    fn put_again(&mut self, number: usize) -> usize {
        let place = self.start(number)..self.puts[number].end;
        self.bytes.extend_from_within(place);
        self.put()
    }

    pub fn mark_delivered(&mut self, number: usize) {
        self.puts[number].delivered = true;
        while self.puts.get(self.first).is_some_and(|put| put.delivered) {
            self.first += 1;
        }
    }

    /// The first packet that was never delivered, or so many as there are.
    pub fn first_undelivered(&self) -> usize {
        self.first
    }

    pub fn was_delivered(&self, number: usize) -> bool {
        self.puts[number].delivered
    }
}

/// The messages from one machine to another, at both ends. What has gone out stands in its packet.
#[derive(Default)]
pub struct Stream {
    acknowledged: u32,
    out: VecDeque<usize>, // the packets in which those that have gone out and aren't acknowledged went first
    waiting: VecDeque<Message>, // those behind them
    taken: u32,
    early: Vec<(u32, Message)>,
}

impl Stream {
    fn next(&self) -> u32 {
        self.acknowledged + self.out.len() as u32
    }

    /// A message that came early, by its number.
    fn take_early(&mut self, number: u32) -> Option<Message> {
        let place = self.early.iter().position(|(other, _)| *other == number)?;
        Some(self.early.swap_remove(place).1)
    }
}

/// Everything between the machines, with the lines that are said of it.
pub struct Network {
    pub text: Text,
    machines: usize,
    most: u32, // how many messages a pair may count
    counts: Vec<u32>,
    streams: Vec<Stream>,
    wires: Vec<Wire>,
    undelivered: [u16; 16], // by sender: a bit for each receiver to whom a packet was put that was never delivered
    unacknowledged: u64,
}

impl Network {
    pub fn new(machines: usize, most: u32) -> Network {
        let pairs = machines * machines;
        let streams = (0..pairs).map(|_| Stream::default()).collect();
        let wires = (0..pairs).map(|_| Wire::default()).collect();
        let counts = vec![0; pairs];
        Network { text: Text::new(), machines, most, counts, streams, wires, undelivered: [0; 16], unacknowledged: 0 }
    }

    fn pair(&self, from: u8, to: u8) -> usize {
        from as usize * self.machines + to as usize
    }

    pub fn wire(&self, from: u8, to: u8) -> &Wire {
        &self.wires[self.pair(from, to)]
    }

    /// The first receiver, from this one on, to whom a packet was put that was never delivered.
    pub fn next_undelivered(&self, from: u8, to: u8) -> Option<u8> {
        let receivers = u32::from(self.undelivered[from as usize]) >> to;
        (receivers != 0).then(|| to + receivers.trailing_zeros() as u8)
    }

    /// Whether each message between machines is taken and acknowledged.
    pub fn is_quiet(&self) -> bool {
        self.unacknowledged == 0
    }

    /// Counts a message that is routed, and says so.
    pub fn route(&mut self, from: u8, to: u8, message: &Message) -> Done {
        let pair = self.pair(from, to);
        if self.counts[pair] == self.most {
            return Err(Stop::Worn { from, to });
        }
        self.counts[pair] += 1;
        let text = self.text.begin("put").number(from).number(to).name(message.name);
        text.word(message.what.kind().1).pid(message.to.pid).end();
        Ok(())
    }

    /// Gives a message to the stream to another machine.
    pub fn give(&mut self, from: u8, to: u8, message: Message) {
        self.unacknowledged += 1;
        let pair = self.pair(from, to);
        if self.streams[pair].out.len() < WINDOW {
            self.go_out(from, to, &message);
        } else {
            self.streams[pair].waiting.push_back(message);
        }
    }

    fn go_out(&mut self, from: u8, to: u8, message: &Message) {
        let pair = self.pair(from, to);
        let (stream, wire) = (&mut self.streams[pair], &mut self.wires[pair]);
        let number = stream.next();
        write_data(&mut wire.bytes, from, to, number, message);
        let packet = wire.put();
        stream.out.push_back(packet);
        self.say_packet(from, to, packet, "data", number);
    }

    /// Sends again what a machine has sent that isn't acknowledged.
    pub fn tick(&mut self, from: u8) {
        let others = (0..self.machines as u8).filter(|to| *to != from);
        let count: usize = others.clone().map(|to| self.streams[self.pair(from, to)].out.len()).sum();
        self.text.begin("resent").number(from).number(count as u64).end();
        for to in others {
            let pair = self.pair(from, to);
            for place in 0..self.streams[pair].out.len() {
                let stream = &self.streams[pair];
                let (number, packet) = (stream.acknowledged + place as u32, stream.out[place]);
                let again = self.wires[pair].put_again(packet);
                self.say_packet(from, to, again, "data", number);
            }
        }
    }

    /// A packet arrives: messages that are taken go into the inbox.
    pub fn deliver(&mut self, from: u8, to: u8, number: u64, inbox: &mut VecDeque<Message>) {
        let pair = self.pair(from, to);
        if number >= self.wires[pair].len() as u64 {
            self.text.begin("none").end();
            return;
        }
        let wire = &mut self.wires[pair];
        wire.mark_delivered(number as usize);
        if wire.first == wire.len() {
            self.undelivered[from as usize] &= !(1 << to);
        }
        match read_head(wire.packet(number as usize)).0 {
            Head::Acknowledgement(count) => self.acknowledged(from, to, count),
            Head::Data(message) => {
                self.arrives(from, to, message, number as usize, inbox);
                self.acknowledge(from, to);
            }
        }
    }

    /// An acknowledgement of what went the other way has come.
    fn acknowledged(&mut self, from: u8, to: u8, count: u32) {
        self.text.begin("acked").number(from).number(to).number(count).end();
        let pair = self.pair(to, from);
        let stream = &mut self.streams[pair];
        while stream.acknowledged < count {
            stream.acknowledged += 1;
            stream.out.pop_front();
            self.unacknowledged -= 1;
        }
        while self.streams[pair].out.len() < WINDOW {
            let Some(message) = self.streams[pair].waiting.pop_front() else { return };
            self.go_out(to, from, &message);
        }
    }

    fn arrives(&mut self, from: u8, to: u8, number: u32, packet: usize, inbox: &mut VecDeque<Message>) {
        let pair = self.pair(from, to);
        let (stream, wire, text) = (&mut self.streams[pair], &self.wires[pair], &mut self.text);
        let message = || read_message(read_head(wire.packet(packet)).1);
        if number < stream.taken {
            text.begin("old").number(from).number(to).number(number).end();
        } else if number > stream.taken {
            text.begin("early").number(from).number(to).number(number).end();
            if stream.early.iter().all(|(other, _)| *other != number) {
                stream.early.push((number, message()));
            }
        } else {
            let mut next = Some(message());
            while let Some(message) = next {
                text.begin("taken").number(from).number(to).number(stream.taken).end();
                inbox.push_back(message);
                stream.taken += 1;
                next = stream.take_early(stream.taken);
            }
        }
    }

    /// Answers a packet with a message by how many were taken.
    fn acknowledge(&mut self, from: u8, to: u8) {
        let count = self.streams[self.pair(from, to)].taken;
        let back = self.pair(to, from);
        let wire = &mut self.wires[back];
        write_acknowledgement(&mut wire.bytes, to, from, count);
        let packet = wire.put();
        self.say_packet(to, from, packet, "ack", count);
    }

    /// A packet was put, and was never delivered.
    fn say_packet(&mut self, from: u8, to: u8, packet: usize, word: &str, number: u32) {
        self.undelivered[from as usize] |= 1 << to;
        let text = self.text.begin("packet").number(from).number(to);
        text.number(packet as u64).word(word).number(number).end();
    }

    /// The names of the messages that were given and aren't taken.
    pub fn not_taken(&self, from: u8, to: u8) -> Vec<Name> {
        let pair = self.pair(from, to);
        let (stream, wire) = (&self.streams[pair], &self.wires[pair]);
        let taken = (stream.taken - stream.acknowledged) as usize;
        let out = stream.out.iter().skip(taken);
        let out = out.map(|packet| read_message(read_head(wire.packet(*packet)).1).name);
        out.chain(stream.waiting.iter().map(|message| message.name)).collect()
    }
}
