//! A machine and its turns (docs/SYSTEM.md, "A turn of a machine").

use std::collections::{BTreeMap, VecDeque};

use crate::boot::Image;
use crate::calls::Outcome;
use crate::network::{Done, Network};
use crate::process::{Format, Process, Status, Wait};
use crate::processor::Reached;
use crate::records::{Record, Records, Resident};
use crate::values::{Address, Link, Message, Name, Pid, What};

const KILLED: u8 = 5;
const HAS_ENDED: u8 = 3; // what is answered to who asked for a move

/// What machines share: the network, what the boot file says of all, and why each process that has ended did.
pub struct Common {
    pub network: Network,
    pub format: Format,
    pub quantum: u32,
    pub images: Vec<Image>,
    pub machines: usize,
    pub ended: BTreeMap<Pid, u8>,
}

impl Common {
    /// A line of a word and a message's name, with which all is said.
    pub fn say(&mut self, word: &str, name: Name) -> Done {
        self.network.text.begin(word).name(name).end();
        Ok(())
    }
}

/// A machine, with the slots and blocks that are free.
pub struct Machine {
    pub number: u8,
    pub slots: u8,
    pub blocks: u16,
    pub inbox: VecDeque<Message>,
    pub ring: VecDeque<Pid>,
    pub records: Records,
    sent: u32, // the kernel's own messages
    made: u32,
}

impl Machine {
    pub fn new(number: u8, slots: u8, blocks: u16, machines: usize) -> Machine {
        let (inbox, ring) = (VecDeque::new(), VecDeque::new());
        Machine { number, slots, blocks, inbox, ring, records: Records::new(machines), sent: 0, made: 0 }
    }

    /// A resident is here, and a process last in the ring.
    pub fn stands(&mut self, resident: Resident) {
        let pid = resident.pid();
        *self.records.at(pid) = Record::Here(resident);
        if !pid.is_server() {
            self.ring.push_back(pid);
        }
    }

    pub fn leaves_ring(&mut self, pid: Pid) {
        self.ring.retain(|other| *other != pid);
    }

    /// Makes a process, for which there is room.
    pub fn make(&mut self, memory: Vec<u8>, links: &[Link], format: Format) -> Pid {
        self.made += 1;
        let pid = Pid { home: self.number, number: 2 + self.made };
        let process = Process::fresh(pid, memory, links, format);
        self.take_room(process.blocks());
        self.stands(Resident::Process(Box::new(process)));
        pid
    }

    pub fn has_room(&self, blocks: usize) -> bool {
        self.slots > 0 && self.blocks as usize >= blocks
    }

    pub fn take_room(&mut self, blocks: usize) {
        self.slots -= 1;
        self.blocks -= blocks as u16;
    }

    pub fn give_room_back(&mut self, blocks: usize) {
        self.slots += 1;
        self.blocks += blocks as u16;
    }

    // Messages

    /// Routes a message to where its address leads.
    pub fn put(&mut self, message: Message, common: &mut Common) -> Done {
        let to = message.to.at;
        common.network.route(self.number, to, &message)?;
        if to == self.number {
            self.inbox.push_back(message);
        } else {
            common.network.give(self.number, to, message);
        }
        Ok(())
    }

    pub fn put_if_any(&mut self, message: Option<Message>, common: &mut Common) -> Done {
        message.map_or(Ok(()), |message| self.put(message, common))
    }

    /// The kernel's next message.
    pub fn own(&mut self, to: Address, what: What) -> Message {
        let sender = Address::kernel(self.number);
        let name = Name { sender: sender.pid, count: self.sent, answers: false };
        self.sent += 1;
        Message { name, to, sender, what }
    }

    /// Puts the kernel's next message, which is for another machine's kernel.
    pub fn tell_kernel(&mut self, other: u8, what: What, common: &mut Common) -> Done {
        let message = self.own(Address::kernel(other), what);
        self.put(message, common)
    }

    // Turns

    /// Where the first process that can be served stands in the ring.
    pub fn first_served(&self) -> Option<usize> {
        self.ring.iter().position(|pid| match self.records.get(*pid) {
            Record::Here(Resident::Process(process)) => process.can_be_served(),
            _ => false,
        })
    }

    /// Whether a turn would not be idle.
    pub fn can_act(&self) -> bool {
        !self.inbox.is_empty() || self.first_served().is_some()
    }

    pub fn turn(&mut self, common: &mut Common) -> Done {
        if let Some(message) = self.inbox.pop_front() {
            return self.handle(message, common);
        }
        match self.first_served() {
            Some(place) => {
                let pid = self.ring.remove(place).expect("it stands there");
                self.ring.push_back(pid);
                self.serve(pid, common)
            }
            None => {
                common.network.text.begin("idle").number(self.number).end();
                Ok(())
            }
        }
    }

    fn serve(&mut self, pid: Pid, common: &mut Common) -> Done {
        let process = self.records.process(pid);
        if let Status::Waiting(wait) = process.status {
            receive(process, wait, common);
            return Ok(());
        }
        let (count, reached) = process.core.execute(common.quantum);
        let text = &mut common.network.text;
        text.begin("ran").pid(pid).number(count).end();
        let (number, outcome) = match reached {
            None => return Ok(()),
            Some(Reached::Fault(why)) => (0, Outcome::Ended(why)),
            Some(Reached::Call(number)) => (number, process.call(number, self.number)),
        };
        match outcome {
            Outcome::Replied(code) => text.begin("call").pid(pid).number(number).number(code).end(),
            Outcome::Out(word) => text.begin("out").pid(pid).number(word).end(),
            Outcome::Waits => text.begin("wait").pid(pid).end(),
            Outcome::Sent(message) => {
                text.begin("send").pid(pid).name(message.name).end();
                return self.put(message, common);
            }
            Outcome::Ended(why) => {
                text.begin("end").pid(pid).number(why).end();
                return self.end(pid, why, common);
            }
        }
        Ok(())
    }

    /// A process has ended: its queue goes with it, and the forwarding addresses that lead to it.
    fn end(&mut self, pid: Pid, why: u8, common: &mut Common) -> Done {
        self.leaves_ring(pid);
        common.ended.insert(pid, why);
        let process = self.records.process(pid);
        for message in process.queue.in_order() {
            common.network.text.begin("dropped").name(message.name).end();
        }
        let blocks = process.blocks();
        self.give_room_back(blocks);
        self.forget(pid, None, common)
    }

    /// Forgets a process that has ended, says of which message it heard of that, and tells those that send on to it.
    fn forget(&mut self, pid: Pid, told_by: Option<Name>, common: &mut Common) -> Done {
        self.records.take(pid);
        let told = self.records.take_predecessors(pid);
        if let Some(name) = told_by {
            common.network.text.begin("buried").name(name).number(told.count_ones()).end();
        }
        for other in (0..16).filter(|other| told >> other & 1 == 1) {
            self.tell_kernel(other, What::Bury { pid }, common)?;
        }
        Ok(())
    }

    fn bury(&mut self, pid: Pid, name: Name, common: &mut Common) -> Done {
        if let Record::Unknown = self.records.get(pid) {
            common.network.text.begin("buried").name(name).number(0u32).end();
            return Ok(());
        }
        self.forget(pid, Some(name), common)
    }

    fn handle(&mut self, message: Message, common: &mut Common) -> Done {
        let pid = message.to.pid;
        if pid.number == 0 {
            return self.handle_kernel(message, common);
        }
        let held = match self.records.at(pid) {
            Record::Here(Resident::Process(_)) => return self.handle_process(message, common),
            Record::Here(_) => return self.handle_server(message, common),
            Record::Gone { to, moves } => {
                let (to, moves) = (*to, *moves);
                return self.forward(message, to, moves, common);
            }
            Record::Unknown => return self.handle_ended(message, common),
            Record::Leaving(leaving) => &mut leaving.held,
            Record::Coming(coming) => &mut coming.held,
        };
        let name = message.name;
        held.push(message);
        common.say("held", name)
    }

    fn handle_kernel(&mut self, message: Message, common: &mut Common) -> Done {
        match message.what {
            What::Create { .. } => self.create(message, common),
            What::Bury { pid } => self.bury(pid, message.name, common),
            _ => self.handle_step(message, common),
        }
    }

    fn create(&mut self, message: Message, common: &mut Common) -> Done {
        let What::Create { image, links } = &message.what else { unreachable!() };
        let image = &common.images[*image as usize];
        let text = &mut common.network.text;
        let what = if self.has_room(image.blocks) {
            let pid = self.make(image.memory(), links, common.format);
            text.begin("created").name(message.name).pid(pid).end();
            What::Created { pid }
        } else {
            text.begin("nospace").name(message.name).number(self.slots).number(self.blocks).end();
            What::NoRoom
        };
        self.put(message.answer(Address::kernel(self.number), what), common)
    }

    fn handle_process(&mut self, message: Message, common: &mut Common) -> Done {
        let pid = message.to.pid;
        let process = self.records.process(pid);
        match &message.what {
            What::User { .. } => {
                let name = message.name;
                process.queue.add(message);
                return common.say("queued", name);
            }
            What::Update { about } => return say_updated(common, message.name, process.follow(*about)),
            What::Migrate { .. } | What::Move { .. } => return self.is_to_move(message, common),
            _ => common.say("served", message.name)?,
        }
        match &message.what {
            What::Stop => process.stopped = true,
            What::Resume => process.stopped = false,
            What::Kill => return self.end(pid, KILLED, common),
            What::Read { .. } | What::Write { .. } => {
                let answer = process.serve_piece(&message, self.number);
                return self.put(answer, common);
            }
            landing => {
                let request = process.land(landing, self.number);
                return self.put_if_any(request, common);
            }
        }
        Ok(())
    }

    fn handle_server(&mut self, message: Message, common: &mut Common) -> Done {
        let Record::Here(server) = self.records.at(message.to.pid) else { unreachable!() };
        if let What::Migrate { .. } = message.what {
            return self.is_to_move(message, common);
        }
        if let What::Update { about } = message.what {
            let count = match server {
                Resident::Board(board) => board.follow(about),
                Resident::Manager(manager) => manager.follow(about),
                Resident::Process(_) => unreachable!(),
            };
            return say_updated(common, message.name, count);
        }
        common.say("took", message.name)?;
        let sent = match server {
            Resident::Board(board) => board.take(&message.what, self.number),
            Resident::Manager(manager) => manager.take(message, self.number),
            Resident::Process(_) => unreachable!(),
        };
        self.put_if_any(sent, common)
    }

    /// There is no record of the receiver, so it has ended.
    fn handle_ended(&mut self, message: Message, common: &mut Common) -> Done {
        let what = match message.what {
            What::Read { .. } | What::Write { .. } => What::Gone,
            What::Move { .. } => What::Moved { result: HAS_ENDED },
            What::Migrate { .. } => return common.say("nomove", message.name),
            What::Update { .. } => return say_updated(common, message.name, 0),
            _ => return common.say("dropped", message.name),
        };
        common.say("gone", message.name)?;
        let sender = Address { at: self.number, ..message.to };
        self.put(message.answer(sender, what), common)
    }

    /// Sends a message on, and tells its sender where the receiver went.
    fn forward(&mut self, message: Message, to: u8, moves: u32, common: &mut Common) -> Done {
        common.network.text.begin("forwarded").name(message.name).number(to).end();
        let (about, sender) = (Address { pid: message.to.pid, moves, at: to }, message.sender);
        let tells = message.what.tells_sender();
        self.put(message.sent_on(to, moves), common)?;
        if tells {
            let update = self.own(sender, What::Update { about });
            self.put(update, common)?;
        }
        Ok(())
    }
}

fn say_updated(common: &mut Common, name: Name, links: u32) -> Done {
    common.network.text.begin("updated").name(name).number(links).end();
    Ok(())
}

fn receive(process: &mut Process, wait: Wait, common: &mut Common) {
    let (name, code) = process.complete_receive(wait);
    let text = &mut common.network.text;
    if code == 0 {
        text.begin("receive").pid(process.pid).name(name).end();
    } else {
        text.begin("refuse").pid(process.pid).name(name).number(code).end();
    }
}
