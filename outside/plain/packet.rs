//! Packets as bytes: messages are written and read again (docs/FORMATS.md, "Packets").
//!
//! Packets come from this program alone, so bytes that are no packet end it.

use crate::values::{Address, Asker, Link, Message, Name, Pid, What};

const VERSION: u8 = 4;
const DATA: u8 = 1;
const ACKNOWLEDGEMENT: u8 = 2;

/// What a packet carries: the message with this number, which stands behind the head, or that so many have come.
pub enum Head {
    Data(u32),
    Acknowledgement(u32),
}

const HEAD_BYTES: usize = 8;

fn head(kind: u8, from: u8, to: u8, number: u32) -> [u8; HEAD_BYTES] {
    let [a, b, c, d] = number.to_be_bytes();
    [VERSION, kind, from, to, a, b, c, d]
}

pub fn write_acknowledgement(bytes: &mut Vec<u8>, from: u8, to: u8, count: u32) {
    bytes.extend_from_slice(&head(ACKNOWLEDGEMENT, from, to, count));
}

/// A packet's head, and what stands behind it.
pub fn read_head(packet: &[u8]) -> (Head, &[u8]) {
    let (head, rest) = packet.split_at(HEAD_BYTES);
    let number = u32::from_be_bytes([head[4], head[5], head[6], head[7]]);
    match (head[0], head[1]) {
        (VERSION, DATA) => (Head::Data(number), rest),
        (VERSION, ACKNOWLEDGEMENT) => (Head::Acknowledgement(number), rest),
        _ => panic!("no packet"),
    }
}

pub fn write_data(bytes: &mut Vec<u8>, from: u8, to: u8, number: u32, message: &Message) {
    // the head and the names and addresses come first, which have always as many bytes
    let mut fixed = [0; 39];
    fixed[..8].copy_from_slice(&head(DATA, from, to, number));
    fixed[8..13].copy_from_slice(&pid_bytes(message.name.sender));
    fixed[13..17].copy_from_slice(&message.name.count.to_be_bytes());
    fixed[17] = message.name.answers as u8;
    fixed[18..28].copy_from_slice(&address_bytes(message.to));
    fixed[28..38].copy_from_slice(&address_bytes(message.sender));
    fixed[38] = message.what.kind().0;
    bytes.extend_from_slice(&fixed);
    write_fields(&mut Writer { bytes }, &message.what);
}

fn pid_bytes(pid: Pid) -> [u8; 5] {
    let [a, b, c, d] = pid.number.to_be_bytes();
    [pid.home, a, b, c, d]
}

fn address_bytes(address: Address) -> [u8; 10] {
    let [home, a, b, c, d] = pid_bytes(address.pid);
    let [e, f, g, h] = address.moves.to_be_bytes();
    [home, a, b, c, d, address.at, e, f, g, h]
}

fn link_bytes(link: &Link) -> [u8; 24] {
    let mut bytes = [0; 24];
    bytes[..10].copy_from_slice(&address_bytes(link.address));
    bytes[10] = link.reply as u8 | (link.read as u8) << 2 | (link.write as u8) << 3;
    bytes[11..15].copy_from_slice(&link.code.to_be_bytes());
    bytes[15] = link.channel;
    bytes[16..20].copy_from_slice(&link.base.to_be_bytes());
    bytes[20..24].copy_from_slice(&link.length.to_be_bytes());
    bytes
}

/// Writes field after field.
pub struct Writer<'a> {
    pub bytes: &'a mut Vec<u8>,
}

impl Writer<'_> {
    pub fn all(&mut self, bytes: &[u8]) -> &mut Self {
        self.bytes.extend_from_slice(bytes);
        self
    }

    pub fn u8(&mut self, number: u8) -> &mut Self {
        self.bytes.push(number);
        self
    }

    pub fn truth(&mut self, truth: bool) -> &mut Self {
        self.u8(truth.into())
    }

    pub fn u16(&mut self, number: u16) -> &mut Self {
        self.all(&number.to_be_bytes())
    }

    pub fn u32(&mut self, number: u32) -> &mut Self {
        self.all(&number.to_be_bytes())
    }

    pub fn pid(&mut self, pid: Pid) -> &mut Self {
        self.all(&pid_bytes(pid))
    }

    pub fn address(&mut self, address: Address) -> &mut Self {
        self.all(&address_bytes(address))
    }

    pub fn link(&mut self, link: &Link) -> &mut Self {
        self.all(&link_bytes(link))
    }

    /// The length of some bytes, and these.
    fn block(&mut self, bytes: &[u8]) -> &mut Self {
        self.u16(bytes.len() as u16).all(bytes)
    }

    fn links(&mut self, links: &[Link]) -> &mut Self {
        links.iter().fold(self.u8(links.len() as u8), |to, link| to.link(link))
    }

    pub fn link_if_any(&mut self, link: Option<&Link>) -> &mut Self {
        match link {
            Some(link) => self.truth(true).link(link),
            None => self.truth(false),
        }
    }

    fn asker(&mut self, asker: Option<&Asker>) -> &mut Self {
        match asker {
            Some(asker) => self.truth(true).u32(asker.count).address(asker.address),
            None => self.truth(false),
        }
    }
}

fn write_fields(to: &mut Writer, what: &What) {
    match what {
        What::User { code, channel, body, links } => to.u32(*code).u8(*channel).block(body).links(links),
        What::Stop | What::Resume | What::Kill | What::Written | What::Gone | What::NoRoom => to,
        What::Read { base, length } => to.u32(*base).u16(*length),
        What::Write { base, bytes } => to.u32(*base).block(bytes),
        What::Block { bytes } => to.block(bytes),
        What::Create { image, links } => to.u16(*image).links(links),
        What::Created { pid } | What::AllTaken { pid } | What::Restart { pid } => to.pid(*pid),
        What::CallOff { pid } | What::Bury { pid } => to.pid(*pid),
        What::Migrate { to: machine } | What::Move { to: machine } => to.u8(*machine),
        What::Moved { result } => to.u8(*result),
        What::Update { about } => to.address(*about),
        What::Ask { pid, blocks, moves, size, asker } => to.pid(*pid).u16(*blocks).u32(*moves).u32(*size).asker(asker.as_deref()),
        What::Refuse { pid, slots, blocks } => to.pid(*pid).u8(*slots).u16(*blocks),
        What::PullState { pid, chunk } => to.pid(*pid).u32(*chunk),
        What::State { pid, chunk, last, bytes } => to.pid(*pid).u32(*chunk).truth(*last).block(bytes),
        What::PullBlock { pid, block } => to.pid(*pid).u8(*block),
        What::Memory { pid, block, bytes } => to.pid(*pid).u8(*block).all(bytes),
    };
}

/// Reads bytes from the front.
pub struct Reader<'a> {
    rest: &'a [u8],
}

impl<'a> Reader<'a> {
    pub fn new(bytes: &'a [u8]) -> Reader<'a> {
        Reader { rest: bytes }
    }

    pub fn bytes(&mut self, count: usize) -> &'a [u8] {
        let (front, rest) = self.rest.split_at(count);
        self.rest = rest;
        front
    }

    fn array<const N: usize>(&mut self) -> [u8; N] {
        let (front, rest) = self.rest.split_first_chunk().expect("bytes are missing");
        self.rest = rest;
        *front
    }

    pub fn u8(&mut self) -> u8 {
        self.array::<1>()[0]
    }

    pub fn truth(&mut self) -> bool {
        self.u8() != 0
    }

    pub fn u16(&mut self) -> u16 {
        u16::from_be_bytes(self.array())
    }

    pub fn u32(&mut self) -> u32 {
        u32::from_be_bytes(self.array())
    }

    pub fn u128(&mut self) -> u128 {
        u128::from_be_bytes(self.array())
    }

    pub fn pid(&mut self) -> Pid {
        let [home, a, b, c, d] = self.array();
        Pid { home, number: u32::from_be_bytes([a, b, c, d]) }
    }

    pub fn address(&mut self) -> Address {
        let [home, a, b, c, d, at, e, f, g, h] = self.array();
        let pid = Pid { home, number: u32::from_be_bytes([a, b, c, d]) };
        Address { pid, moves: u32::from_be_bytes([e, f, g, h]), at }
    }

    pub fn link(&mut self) -> Link {
        let address = self.address();
        let flags = self.u8();
        let (code, channel) = (self.u32(), self.u8());
        let (base, length) = (self.u32(), self.u32());
        Link { address, code, base, length, channel, reply: flags & 1 != 0, read: flags & 4 != 0, write: flags & 8 != 0 }
    }

    fn block(&mut self) -> Vec<u8> {
        let length = self.u16();
        self.bytes(length.into()).to_vec()
    }

    fn links(&mut self) -> Vec<Link> {
        let count = self.u8();
        (0..count).map(|_| self.link()).collect()
    }

    fn asker(&mut self) -> Option<Box<Asker>> {
        self.truth().then(|| Box::new(Asker { count: self.u32(), address: self.address() }))
    }

    pub fn name(&mut self) -> Name {
        Name { sender: self.pid(), count: self.u32(), answers: self.truth() }
    }
}

/// The message that stands behind a head.
pub fn read_message(bytes: &[u8]) -> Message {
    let mut reader = Reader::new(bytes);
    let (name, to, sender) = (reader.name(), reader.address(), reader.address());
    let kind = reader.u8();
    Message { name, to, sender, what: read_fields(kind, &mut reader) }
}

fn read_fields(kind: u8, from: &mut Reader) -> What {
    match kind {
        1 => What::User { code: from.u32(), channel: from.u8(), body: from.block(), links: from.links() },
        2 => What::Stop,
        3 => What::Resume,
        4 => What::Kill,
        5 => What::Read { base: from.u32(), length: from.u16() },
        6 => What::Write { base: from.u32(), bytes: from.block() },
        7 => What::Block { bytes: from.block() },
        8 => What::Written,
        9 => What::Gone,
        10 => What::Create { image: from.u16(), links: from.links() },
        11 => What::Created { pid: from.pid() },
        12 => What::NoRoom,
        13 => What::Migrate { to: from.u8() },
        14 => What::Update { about: from.address() },
        15 => What::Ask { pid: from.pid(), blocks: from.u16(), moves: from.u32(), size: from.u32(), asker: from.asker() },
        16 => What::Refuse { pid: from.pid(), slots: from.u8(), blocks: from.u16() },
        17 => What::PullState { pid: from.pid(), chunk: from.u32() },
        18 => What::State { pid: from.pid(), chunk: from.u32(), last: from.truth(), bytes: from.block() },
        19 => What::PullBlock { pid: from.pid(), block: from.u8() },
        20 => What::Memory { pid: from.pid(), block: from.u8(), bytes: from.bytes(256).to_vec() },
        21 => What::AllTaken { pid: from.pid() },
        22 => What::Restart { pid: from.pid() },
        23 => What::Move { to: from.u8() },
        24 => What::Moved { result: from.u8() },
        25 => What::CallOff { pid: from.pid() },
        26 => What::Bury { pid: from.pid() },
        _ => panic!("no kind of message"),
    }
}
