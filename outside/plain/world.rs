//! All machines and the network, and the directives of a schedule (docs/FORMATS.md, "Schedule").

use std::collections::BTreeMap;
use std::fs::File;
use std::io::Write;

use crate::boot::Boot;
use crate::ends::end_lines;
use crate::machine::{Common, Machine};
use crate::manager::Manager;
use crate::network::{Done, Network, Stop};
use crate::records::{Record, Resident};
use crate::schedule::Directive;
use crate::text::Text;
use crate::values::{Address, Pid, MANAGER};

pub struct World {
    pub machines: Vec<Machine>,
    pub common: Common,
    pub groups: u64,
    output: File, // each group goes there by one call
}

impl World {
    pub fn new(boot: Boot, output: File) -> World {
        let count = boot.machines.len();
        let rooms = (0..).zip(&boot.machines);
        let mut machines: Vec<Machine> =
            rooms.map(|(number, room)| Machine::new(number, room.slots, room.blocks, count)).collect();
        let children = boot.processes.iter().map(|born| Address { pid: born.pid, moves: 0, at: born.pid.home }).collect();
        machines[0].stands(Resident::Board(Box::default()));
        machines[0].stands(Resident::Manager(Box::new(Manager::new(count, boot.images.len(), children))));
        for born in &boot.processes {
            let memory = boot.images[born.image].memory();
            machines[born.pid.home as usize].make(memory, &born.links, boot.format);
        }
        let network = Network::new(count, boot.numbers);
        let (format, quantum, images) = (boot.format, boot.quantum, boot.images);
        let common = Common { network, format, quantum, images, machines: count, ended: BTreeMap::new() };
        World { machines, common, groups: 0, output }
    }

    pub fn run(&mut self, directives: &[Directive]) -> Done {
        directives.iter().try_for_each(|directive| self.directive(*directive))
    }

    fn directive(&mut self, directive: Directive) -> Done {
        match directive {
            Directive::Turn(machine) => self.turn(machine),
            Directive::Tick(machine) => self.tick(machine),
            Directive::Deliver(from, to, number) => self.deliver(from, to, number),
            Directive::Migrate(pid, to) => self.migrate(pid, to),
            Directive::CallOff(pid, machine) => self.call_off(pid, machine),
            Directive::Round => self.round(),
            Directive::Spin(rounds) => (0..rounds).try_for_each(|_| self.round()),
            Directive::Settle => self.passes(u32::MAX, World::is_quiet, |machine| !machine.inbox.is_empty()),
            Directive::Rest(most) => self.passes(most, World::is_at_rest, Machine::can_act),
        }
    }

    fn text(&mut self) -> &mut Text {
        &mut self.common.network.text
    }

    /// A group is done: its text goes out.
    fn end_group(&mut self, done: Done) -> Done {
        done?;
        self.groups += 1;
        self.write_text()
    }

    /// Says where everything stands at the end of a run.
    pub fn end(&mut self) -> Done {
        let mut text = std::mem::replace(self.text(), Text::new());
        end_lines(self, &mut text);
        *self.text() = text;
        self.write_text()
    }

    fn write_text(&mut self) -> Done {
        let text = &mut self.common.network.text;
        self.output.write_all(&text.bytes).map_err(|_| Stop::WriteFault)?;
        text.bytes.clear();
        Ok(())
    }

    fn turn(&mut self, machine: u8) -> Done {
        self.text().begin("turn").number(machine).end();
        let done = self.machines[machine as usize].turn(&mut self.common);
        self.end_group(done)
    }

    fn deliver(&mut self, from: u8, to: u8, number: u64) -> Done {
        self.text().begin("deliver").number(from).number(to).number(number).end();
        let inbox = &mut self.machines[to as usize].inbox;
        self.common.network.deliver(from, to, number, inbox);
        self.end_group(Ok(()))
    }

    fn tick(&mut self, machine: u8) -> Done {
        self.text().begin("tick").number(machine).end();
        self.common.network.tick(machine);
        self.end_group(Ok(()))
    }

    fn migrate(&mut self, pid: Pid, to: u8) -> Done {
        self.text().begin("migrate").pid(pid).number(to).end();
        let seat = self.machines.iter().position(|machine| matches!(machine.records.get(MANAGER), Record::Here(_)));
        if let Some(machine) = seat {
            let done = self.machines[machine].migrate(pid, to, &mut self.common);
            return self.end_group(done);
        }
        self.text().begin("away").end();
        self.end_group(Ok(()))
    }

    fn call_off(&mut self, pid: Pid, machine: u8) -> Done {
        self.text().begin("calloff").pid(pid).number(machine).end();
        let done = self.machines[machine as usize].call_off(pid, &mut self.common);
        self.end_group(done)
    }

    /// Each packet that was never delivered arrives, then each machine takes a turn.
    fn round(&mut self) -> Done {
        self.pass(|_| false, |_| true).map(|_| ())
    }

    /// So many passes at most, until all is over.
    fn passes(&mut self, most: u32, is_over: fn(&World) -> bool, acts: fn(&Machine) -> bool) -> Done {
        for _ in 0..most {
            if !self.pass(is_over, acts)? {
                break;
            }
        }
        Ok(())
    }

    /// A round with turns only of machines that act, which ends as soon as all is over: whether it came to its end.
    fn pass(&mut self, is_over: impl Fn(&World) -> bool, acts: impl Fn(&Machine) -> bool) -> Done<bool> {
        let count = self.machines.len() as u8;
        for from in 0..count {
            let mut next = 0;
            while let Some(to) = self.common.network.next_undelivered(from, next) {
                if !self.deliver_all(from, to, &is_over)? {
                    return Ok(false);
                }
                next = to + 1;
            }
        }
        for machine in 0..count {
            if is_over(self) {
                return Ok(false);
            }
            if acts(&self.machines[machine as usize]) {
                self.turn(machine)?;
            }
        }
        Ok(true)
    }

    fn deliver_all(&mut self, from: u8, to: u8, is_over: &impl Fn(&World) -> bool) -> Done<bool> {
        let wire = self.common.network.wire(from, to);
        for number in wire.first_undelivered()..wire.len() {
            if self.common.network.wire(from, to).was_delivered(number) {
                continue;
            }
            if is_over(self) {
                return Ok(false);
            }
            self.deliver(from, to, number as u64)?;
        }
        Ok(true)
    }

    /// Whether nothing is on its way.
    fn is_quiet(&self) -> bool {
        self.common.network.is_quiet() && self.machines.iter().all(|machine| machine.inbox.is_empty())
    }

    /// Whether beside that no process can be served.
    fn is_at_rest(&self) -> bool {
        self.is_quiet() && self.machines.iter().all(|machine| machine.first_served().is_none())
    }
}
