//! Names of processes, addresses, links and messages (docs/SYSTEM.md, "Names" and "Links").

/// A process, a server or a kernel: the machine that made it, and its number there.
#[derive(Clone, Copy, PartialEq, Eq, PartialOrd, Ord)]
pub struct Pid {
    pub home: u8,
    pub number: u32,
}

pub const SWITCHBOARD: Pid = Pid { home: 0, number: 1 };
pub const MANAGER: Pid = Pid { home: 0, number: 2 };

impl Pid {
    pub fn kernel(machine: u8) -> Pid {
        Pid { home: machine, number: 0 }
    }

    pub fn is_server(self) -> bool {
        self == SWITCHBOARD || self == MANAGER
    }
}

/// Who it is, the machine where that one was last known to be, and how often it had moved when it came there.
#[derive(Clone, Copy)]
pub struct Address {
    pub pid: Pid,
    pub moves: u32,
    pub at: u8,
}

impl Address {
    pub fn kernel(machine: u8) -> Address {
        Address { pid: Pid::kernel(machine), moves: 0, at: machine }
    }

    /// Leads to where a process went, where it knows fewer moves of it: whether it changed.
    pub fn follow(&mut self, about: Address) -> bool {
        let follows = self.pid == about.pid && self.moves < about.moves;
        if follows {
            *self = about;
        }
        follows
    }
}

#[derive(Clone, Copy)]
pub struct Link {
    pub address: Address,
    pub code: u32,
    pub base: u32,
    pub length: u32,
    pub channel: u8,
    pub reply: bool,
    pub read: bool,
    pub write: bool,
}

impl Link {
    /// A general link without an area.
    pub fn plain(address: Address, code: u32) -> Link {
        Link { address, code, base: 0, length: 0, channel: 0, reply: false, read: false, write: false }
    }
}

/// A message's name: its sender, how many that one had sent before, and whether it answers the message of that name.
#[derive(Clone, Copy)]
pub struct Name {
    pub sender: Pid,
    pub count: u32,
    pub answers: bool,
}

/// Who asked for a move and is told how it ended: the number of the request, and the sender's address.
#[derive(Clone, Copy)]
pub struct Asker {
    pub count: u32,
    pub address: Address,
}

impl Asker {
    pub fn name(&self) -> Name {
        Name { sender: self.address.pid, count: self.count, answers: false }
    }
}

pub struct Message {
    pub name: Name,
    pub to: Address,
    pub sender: Address,
    pub what: What,
}

/// The kinds of message with their fields (docs/FORMATS.md, "Packets").
pub enum What {
    User { code: u32, channel: u8, body: Vec<u8>, links: Vec<Link> },
    Stop,
    Resume,
    Kill,
    Read { base: u32, length: u16 },
    Write { base: u32, bytes: Vec<u8> },
    Block { bytes: Vec<u8> },
    Written,
    Gone,
    Create { image: u16, links: Vec<Link> },
    Created { pid: Pid },
    NoRoom,
    Migrate { to: u8 },
    Update { about: Address },
    Ask { pid: Pid, blocks: u16, moves: u32, size: u32, asker: Option<Box<Asker>> },
    Refuse { pid: Pid, slots: u8, blocks: u16 },
    PullState { pid: Pid, chunk: u32 },
    State { pid: Pid, chunk: u32, last: bool, bytes: Vec<u8> },
    PullBlock { pid: Pid, block: u8 },
    Memory { pid: Pid, block: u8, bytes: Vec<u8> },
    AllTaken { pid: Pid },
    Restart { pid: Pid },
    Move { to: u8 },
    Moved { result: u8 },
    CallOff { pid: Pid },
    Bury { pid: Pid },
}

impl What {
    /// The number of the kind, and its word.
    pub fn kind(&self) -> (u8, &'static str) {
        match self {
            What::User { .. } => (1, "user"),
            What::Stop => (2, "stop"),
            What::Resume => (3, "resume"),
            What::Kill => (4, "kill"),
            What::Read { .. } => (5, "read"),
            What::Write { .. } => (6, "write"),
            What::Block { .. } => (7, "block"),
            What::Written => (8, "written"),
            What::Gone => (9, "gone"),
            What::Create { .. } => (10, "create"),
            What::Created { .. } => (11, "created"),
            What::NoRoom => (12, "noroom"),
            What::Migrate { .. } => (13, "migrate"),
            What::Update { .. } => (14, "update"),
            What::Ask { .. } => (15, "ask"),
            What::Refuse { .. } => (16, "refuse"),
            What::PullState { .. } => (17, "pullstate"),
            What::State { .. } => (18, "state"),
            What::PullBlock { .. } => (19, "pullblock"),
            What::Memory { .. } => (20, "memory"),
            What::AllTaken { .. } => (21, "alltaken"),
            What::Restart { .. } => (22, "restart"),
            What::Move { .. } => (23, "move"),
            What::Moved { .. } => (24, "moved"),
            What::CallOff { .. } => (25, "calloff"),
            What::Bury { .. } => (26, "bury"),
        }
    }

    /// Whether the sender is told where such a message was sent on to.
    pub fn tells_sender(&self) -> bool {
        let is_of_process = matches!(self, What::User { .. } | What::Read { .. } | What::Write { .. });
        is_of_process || matches!(self, What::Stop | What::Resume | What::Kill | What::Migrate { .. } | What::Move { .. })
    }
}

impl Message {
    /// A kernel's answer to this request.
    pub fn answer(&self, sender: Address, what: What) -> Message {
        Message { name: Name { answers: true, ..self.name }, to: self.sender, sender, what }
    }

    /// The same message, on its way to where its receiver went.
    pub fn sent_on(mut self, at: u8, moves: u32) -> Message {
        self.to.at = at;
        self.to.moves = moves;
        self
    }
}
