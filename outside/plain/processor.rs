//! One instruction (docs/FORMATS.md, "Instructions").

const OUT_OF_RANGE: u8 = 1;
const UNKNOWN: u8 = 2;
const NOT_ALIGNED: u8 = 3;

/// Why no further plain instruction is executed.
pub enum Reached {
    Call(u8),
    Fault(u8),
}

/// Registers, counter and memory.
pub struct Core {
    pub registers: [u32; 16],
    pub counter: u32,
    pub memory: Vec<u8>,
}

impl Core {
    /// Executes up to so many plain instructions: how many there were, and the call or fault that was reached before.
    pub fn execute(&mut self, quantum: u32) -> (u32, Option<Reached>) {
        for count in 0..quantum {
            if let Err(reached) = self.step() {
                return (count, Some(reached));
            }
        }
        (quantum, None)
    }

    fn step(&mut self) -> Result<(), Reached> {
        let counter = self.counter;
        let [operation, a, b, c] = self.fetch(counter)?;
        let (a, b, c) = (a as usize, b as usize, c as usize);
        let mut after = counter.wrapping_add(4);
        match operation {
            1 => *self.register(a)? = (256 * b + c) as u32,
            2 => {
                let register = self.register(a)?;
                *register = *register & 0xffff | ((256 * b + c) as u32) << 16;
            }
            3 => *self.register(a)? = *self.register(b)?,
            4..=11 => {
                let (x, y) = (*self.register(b)?, *self.register(c)?);
                *self.register(a)? = computed(operation, x, y);
            }
            12..=15 => {
                self.register(a)?;
                let address = *self.register(b)? as u64 + c as u64;
                self.access(operation, a, address)?;
            }
            16 => after = (256 * b + c) as u32,
            17..=19 => {
                let (x, y) = (*self.register(a)?, *self.register(b)?);
                if branches(operation, x, y) {
                    after = after.wrapping_add_signed(4 * c as u8 as i8 as i32);
                }
            }
            20 => {
                self.counter = after;
                return Err(Reached::Call(c as u8));
            }
            _ => return Err(Reached::Fault(UNKNOWN)),
        }
        self.counter = after;
        Ok(())
    }

    fn register(&mut self, number: usize) -> Result<&mut u32, Reached> {
        self.registers.get_mut(number).ok_or(Reached::Fault(UNKNOWN))
    }

    /// The word at an address, which must be within the memory and aligned.
    fn fetch(&self, address: u32) -> Result<[u8; 4], Reached> {
        let bytes = self.memory.get(address as usize..).and_then(|rest| rest.first_chunk());
        let bytes = *bytes.ok_or(Reached::Fault(OUT_OF_RANGE))?;
        if address % 4 != 0 {
            return Err(Reached::Fault(NOT_ALIGNED));
        }
        Ok(bytes)
    }

    fn access(&mut self, operation: u8, a: usize, address: u64) -> Result<(), Reached> {
        let size = if operation < 14 { 4 } else { 1 };
        if address + size > self.memory.len() as u64 {
            return Err(Reached::Fault(OUT_OF_RANGE));
        }
        if address % size != 0 {
            return Err(Reached::Fault(NOT_ALIGNED));
        }
        let at = address as usize;
        match operation {
            12 => self.registers[a] = u32::from_be_bytes(self.fetch(at as u32)?),
            13 => self.memory[at..at + 4].copy_from_slice(&self.registers[a].to_be_bytes()),
            14 => self.registers[a] = self.memory[at].into(),
            _ => self.memory[at] = self.registers[a] as u8,
        }
        Ok(())
    }
}

fn computed(operation: u8, x: u32, y: u32) -> u32 {
    match operation {
        4 => x.wrapping_add(y),
        5 => x.wrapping_sub(y),
        6 => x.wrapping_mul(y),
        7 => x & y,
        8 => x | y,
        9 => x ^ y,
        10 => x.wrapping_shl(y),
        _ => x.wrapping_shr(y),
    }
}

fn branches(operation: u8, x: u32, y: u32) -> bool {
    match operation {
        17 => x == y,
        18 => x != y,
        _ => x < y,
    }
}
