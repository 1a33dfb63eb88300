//! Migrations: their eight steps, and how they are called off (docs/MIGRATION.md; docs/SYSTEM.md, "Between machines").

use crate::machine::{Common, Machine};
use crate::network::Done;
use crate::process::BLOCK;
use crate::records::{Coming, Leaving, Record, Resident};
use crate::state;
use crate::text::Text;
use crate::values::{Asker, Message, Name, Pid, What, MANAGER, SWITCHBOARD};

const CHUNK: usize = 512;

// what is answered to who asked for a move
const MOVED: u8 = 0;
const STAYED: u8 = 1;

fn say_step(text: &mut Text, number: u8, pid: Pid) {
    text.begin("step").number(number).pid(pid).end();
}

impl Machine {
    /// A schedule's word that a process is to move, on the machine where the manager is.
    pub fn migrate(&mut self, pid: Pid, to: u8, common: &mut Common) -> Done {
        let Record::Here(Resident::Manager(manager)) = self.records.get(MANAGER) else { unreachable!() };
        let (child, sender) = (manager.leads_to(pid, self.number), manager.address(self.number));
        let Some(child) = child else {
            common.network.text.begin("nochild").pid(pid).end();
            return Ok(());
        };
        let request = self.own(child, What::Migrate { to });
        self.put(Message { sender, ..request }, common)
    }

    /// A schedule's request to move what is here (migrate), or that of one who is told how it ended (move).
    pub fn is_to_move(&mut self, message: Message, common: &mut Common) -> Done {
        let pid = message.to.pid;
        let (to, asker) = match message.what {
            What::Migrate { to } => (to, None),
            What::Move { to } => (to, Some(Box::new(Asker { count: message.name.count, address: message.sender }))),
            _ => unreachable!(),
        };
        if asker.is_some() {
            common.say("asked", message.name)?;
        }
        if to == self.number {
            if asker.is_none() {
                common.say("here", message.name)?;
            }
            return self.tell_asker(pid, asker.as_deref(), MOVED, common);
        }
        self.freeze(pid, to, asker, common)
    }

    fn freeze(&mut self, pid: Pid, to: u8, asker: Option<Box<Asker>>, common: &mut Common) -> Done {
        if !pid.is_server() {
            self.leaves_ring(pid);
        }
        let Record::Here(resident) = self.records.take(pid) else { unreachable!() };
        let (state, asks) = (resident.state(), asker.clone());
        let (blocks, moves, size) = (resident.blocks() as u16, resident.moves(), state.len() as u32);
        let leaving = Leaving { resident, to, state, asker, held: Vec::new() };
        *self.records.at(pid) = Record::Leaving(Box::new(leaving));
        say_step(&mut common.network.text, 1, pid);
        say_step(&mut common.network.text, 2, pid);
        self.tell_kernel(to, What::Ask { pid, blocks, moves, size, asker: asks }, common)
    }

    /// A move of what is here has ended: who asked for it, if one did, is told.
    fn tell_asker(&mut self, pid: Pid, asker: Option<&Asker>, result: u8, common: &mut Common) -> Done {
        let Some(asker) = asker else { return Ok(()) };
        let Record::Here(resident) = self.records.get(pid) else { unreachable!() };
        let sender = resident.address(self.number);
        common.network.text.begin("answered").name(asker.name()).number(result).end();
        let name = Name { answers: true, ..asker.name() };
        self.put(Message { name, to: asker.address, sender, what: What::Moved { result } }, common)
    }

    /// What was moving is served again; what was held for it comes before all else.
    fn goes_on(&mut self, resident: Resident, held: Vec<Message>, asker: Option<&Asker>, result: u8, common: &mut Common) -> Done {
        let pid = resident.pid();
        self.stands(resident);
        for message in held.into_iter().rev() {
            self.inbox.push_front(message);
        }
        self.tell_asker(pid, asker, result, common)
    }

    /// Does what a message of a migration asks of this kernel.
    pub fn handle_step(&mut self, message: Message, common: &mut Common) -> Done {
        let (name, other) = (message.name, message.sender.at);
        match message.what {
            What::Ask { .. } => self.hear_ask(message.what, other, common),
            What::Refuse { pid, .. } => self.stays(pid, common),
            What::PullState { pid, chunk } => self.give_chunk(pid, chunk, name, other, common),
            What::State { pid, chunk, last, bytes } => {
                if !self.awaits(pid, other) {
                    return common.say("stale", name);
                }
                self.take_chunk(pid, chunk, last, &bytes, name, common)
            }
            What::PullBlock { pid, block } => self.give_block(pid, block, name, other, common),
            What::Memory { pid, block, bytes } => {
                if !self.awaits(pid, other) {
                    return common.say("stale", name);
                }
                self.take_block(pid, block, &bytes, name, common)
            }
            What::AllTaken { pid } => self.let_go(pid, common),
            What::Restart { pid } => self.restart(pid, common),
            What::CallOff { pid } => {
                self.records.add_predecessor(pid, other);
                self.stays(pid, common)
            }
            _ => unreachable!(),
        }
    }

    // Where it comes

    /// What another machine asks for is awaited from it, where there is room.
    fn hear_ask(&mut self, what: What, from: u8, common: &mut Common) -> Done {
        let What::Ask { pid, blocks, moves, asker, .. } = what else { unreachable!() };
        let blocks = usize::from(blocks);
        if !pid.is_server() {
            if !self.has_room(blocks) {
                let text = common.network.text.begin("lacks").pid(pid);
                text.number(self.slots).number(self.blocks).end();
                return self.tell_kernel(from, What::Refuse { pid, slots: self.slots, blocks: self.blocks }, common);
            }
            self.take_room(blocks);
        }
        let (state, held) = (Vec::new(), Vec::new());
        let coming = Coming { from, blocks, moves, asker, state, resident: None, whole: false, held };
        *self.records.at(pid) = Record::Coming(Box::new(coming));
        self.records.add_predecessor(pid, from);
        say_step(&mut common.network.text, 3, pid);
        self.tell_kernel(from, What::PullState { pid, chunk: 0 }, common)
    }

    /// Whether this machine awaits a piece of it from that one.
    fn awaits(&self, pid: Pid, other: u8) -> bool {
        matches!(self.records.get(pid), Record::Coming(coming) if coming.from == other)
    }

    fn coming(&mut self, pid: Pid) -> &mut Coming {
        match self.records.at(pid) {
            Record::Coming(coming) => coming,
            _ => unreachable!("it comes"),
        }
    }

    fn take_chunk(&mut self, pid: Pid, chunk: u32, last: bool, bytes: &[u8], name: Name, common: &mut Common) -> Done {
        let coming = self.coming(pid);
        let from = coming.from;
        coming.state.extend_from_slice(bytes);
        if !last {
            return tell_proto(self, name, from, What::PullState { pid, chunk: chunk + 1 }, common);
        }
        coming.resident = Some(resident_of(pid, &coming.state, common));
        say_step(&mut common.network.text, 4, pid);
        if pid.is_server() {
            return self.has_come(pid, common);
        }
        self.tell_kernel(from, What::PullBlock { pid, block: 0 }, common)
    }

    fn take_block(&mut self, pid: Pid, block: u8, bytes: &[u8], name: Name, common: &mut Common) -> Done {
        let coming = self.coming(pid);
        let from = coming.from;
        let Some(Resident::Process(process)) = &mut coming.resident else { unreachable!() };
        process.core.memory.extend_from_slice(bytes);
        if usize::from(block) + 1 == coming.blocks {
            return self.has_come(pid, common);
        }
        tell_proto(self, name, from, What::PullBlock { pid, block: block + 1 }, common)
    }

    /// The last piece has come: a process's last block, or a server's last chunk.
    fn has_come(&mut self, pid: Pid, common: &mut Common) -> Done {
        let coming = self.coming(pid);
        coming.whole = true;
        let from = coming.from;
        say_step(&mut common.network.text, 5, pid);
        self.tell_kernel(from, What::AllTaken { pid }, common)
    }

    fn restart(&mut self, pid: Pid, common: &mut Common) -> Done {
        let Record::Coming(coming) = self.records.take(pid) else { unreachable!() };
        let mut resident = coming.resident.expect("all of it has come");
        resident.moves_once_more();
        say_step(&mut common.network.text, 8, pid);
        self.goes_on(resident, coming.held, coming.asker.as_deref(), MOVED, common)
    }

    /// A schedule's word that what comes to this machine is to stay where it was.
    pub fn call_off(&mut self, pid: Pid, common: &mut Common) -> Done {
        if !matches!(self.records.get(pid), Record::Coming(coming) if !coming.whole) {
            common.network.text.begin("nocall").pid(pid).end();
            return Ok(());
        }
        let Record::Coming(coming) = self.records.take(pid) else { unreachable!() };
        let (to, moves) = (coming.from, coming.moves);
        *self.records.at(pid) = Record::Gone { to, moves };
        if !pid.is_server() {
            self.give_room_back(coming.blocks);
        }
        common.network.text.begin("called").pid(pid).number(coming.held.len() as u64).end();
        for message in coming.held {
            self.put(message.sent_on(to, moves), common)?;
        }
        self.tell_kernel(to, What::CallOff { pid }, common)
    }

    // Where it leaves

    fn leaving(&self, pid: Pid) -> &Leaving {
        match self.records.get(pid) {
            Record::Leaving(leaving) => leaving,
            _ => unreachable!("it leaves"),
        }
    }

    fn give_chunk(&mut self, pid: Pid, chunk: u32, name: Name, other: u8, common: &mut Common) -> Done {
        let state = &self.leaving(pid).state;
        let from = CHUNK * chunk as usize;
        let to = state.len().min(from + CHUNK);
        let what = What::State { pid, chunk, last: to == state.len(), bytes: state[from..to].to_vec() };
        tell_proto(self, name, other, what, common)
    }

    fn give_block(&mut self, pid: Pid, block: u8, name: Name, other: u8, common: &mut Common) -> Done {
        let Resident::Process(process) = &self.leaving(pid).resident else { unreachable!() };
        let from = BLOCK * block as usize;
        let bytes = process.core.memory[from..from + BLOCK].to_vec();
        tell_proto(self, name, other, What::Memory { pid, block, bytes }, common)
    }

    /// All of it has been taken: what waits for it goes on, and a forwarding address alone stays.
    fn let_go(&mut self, pid: Pid, common: &mut Common) -> Done {
        let Record::Leaving(leaving) = self.records.take(pid) else { unreachable!() };
        let Leaving { mut resident, to, held, .. } = *leaving;
        let moves = resident.moves() + 1;
        *self.records.at(pid) = Record::Gone { to, moves };
        let mut waiting = Vec::new();
        if let Resident::Process(process) = &mut resident {
            self.give_room_back(process.blocks());
            waiting.extend(process.queue.take_all());
        }
        waiting.extend(held);
        let text = &mut common.network.text;
        text.begin("step").number(6u32).pid(pid).number(waiting.len() as u64).end();
        for message in waiting {
            self.put(message.sent_on(to, moves), common)?;
        }
        say_step(&mut common.network.text, 7, pid);
        self.tell_kernel(to, What::Restart { pid }, common)
    }

    /// It goes on where it was.
    fn stays(&mut self, pid: Pid, common: &mut Common) -> Done {
        let Record::Leaving(leaving) = self.records.take(pid) else { unreachable!() };
        common.network.text.begin("stays").pid(pid).end();
        self.goes_on(leaving.resident, leaving.held, leaving.asker.as_deref(), STAYED, common)
    }
}

/// A message of a migration that is no step is answered.
fn tell_proto(machine: &mut Machine, name: Name, other: u8, what: What, common: &mut Common) -> Done {
    common.say("proto", name)?;
    machine.tell_kernel(other, what, common)
}

/// What moved, of its state bytes.
fn resident_of(pid: Pid, bytes: &[u8], common: &Common) -> Resident {
    match pid {
        SWITCHBOARD => Resident::Board(Box::new(state::read_switchboard(bytes))),
        MANAGER => Resident::Manager(Box::new(state::read_manager(bytes, common.machines, common.images.len()))),
        _ => Resident::Process(Box::new(state::read_process(bytes, common.format))),
    }
}
