//! The shortest timeslice, command 05: what a stream says of it. It is drawn from a source of its own, so that the other
//! commands are those of the same stream without it, as far as the figure does not change who is blocked, runs and waits.

use crate::{Generator, random::Random};
use second::{Place, SHORTEST, State, UNSET, USER};

/// Which figures the streams have.
#[derive(Clone, Copy, Default, PartialEq, Eq)]
pub enum Figures {
    #[default]
    Any,
    /// 05 is absent, 2 or refused.
    Two,
    /// At the seal another than 2 holds.
    Other,
}

impl Figures {
    pub fn named(name: &str) -> Option<Figures> {
        match name {
            "any" => Some(Figures::Any),
            "2" => Some(Figures::Two),
            "other" => Some(Figures::Other),
            _ => None,
        }
    }

    /// A command that would be obeyed and set a figure that is not wanted.
    pub fn leave_out(self, command: &[u8], state: &State) -> bool {
        match command {
            [0x05, figure] => {
                self == Figures::Two && !state.sealed && *figure != UNSET && SHORTEST.contains(figure)
            }
            _ => false,
        }
    }
}

pub struct Said {
    random: Random,
    /// The operands of 05 before the seal, the first one last.
    operands: Vec<u8>,
    /// Chances in a hundred that one of these comes before a command of the description, that one comes before a command after
    /// the seal, and that one comes before a command which is to be refused.
    early: u64,
    late: u64,
    bad: u64,
}

const OTHERS: [u8; 20] = [3, 3, 3, 4, 5, 6, 7, 8, 9, 10, 11, 15, 16, 17, 24, 31, 31, 32, 32, 32];
const OUTSIDE: [u8; 8] = [0, 1, 1, 33, 33, 34, 128, 255];

impl Said {
    pub fn nothing() -> Said {
        Said { random: Random::new(0, 0), operands: Vec::new(), early: 0, late: 0, bad: 0 }
    }

    pub fn draw(profile: &str, random: Random, figures: Figures) -> Said {
        let mut said = Said { random, ..Said::nothing() };
        let own = profile == "shortest";
        let (absent, two) = match figures {
            Figures::Any if own => (5, 15),
            Figures::Any => (35, 10),
            Figures::Two => (50, 50),
            Figures::Other => (0, 0),
        };
        let r = &mut said.random;
        let roll = r.below(100);
        let outside = profile == "refuse" || r.chance(if own { 60 } else { 30 });
        if roll >= absent {
            let last = match roll < absent + two {
                true => UNSET,
                false if r.chance(70) => r.of(&OTHERS),
                false => r.between(3, 32) as u8,
            };
            // What comes before the figure that holds.
            for _ in 0..r.below(if own { 4 } else { 2 }) {
                said.operands.push(if last == UNSET { UNSET } else { r.between(2, 32) as u8 });
            }
            said.operands.push(last);
        }
        if outside {
            for _ in 0..r.between(1, 4) {
                let at = r.below(said.operands.len() as u64 + 1) as usize;
                said.operands.insert(at, r.of(&OUTSIDE));
            }
        }
        said.operands.reverse();
        said.early = r.of(&[0, 10, 50]);
        if roll >= absent || outside {
            said.late = if own { 2 } else { 1 };
            said.bad = 15;
        }
        said
    }
}

impl Generator {
    fn say(&mut self) {
        if let Some(operand) = self.said.operands.pop() {
            self.write(&[0x05, operand]);
        }
    }

    pub(crate) fn say_some(&mut self) {
        while !self.said.operands.is_empty() && self.said.random.chance(self.said.early) {
            self.say();
        }
    }

    pub(crate) fn say_all(&mut self) {
        while !self.said.operands.is_empty() {
            self.say();
        }
    }

    /// After the seal 05 is refused, whatever its operand.
    pub(crate) fn say_late(&mut self) {
        if self.said.late > 0 && self.said.random.chance(self.said.late) {
            let operand = self.any_operand();
            self.write(&[0x05, operand]);
        }
    }

    /// Beside another command that is refused: 05 out of range, and after the seal any.
    pub(crate) fn say_bad(&mut self) {
        if self.said.bad > 0 && self.said.random.chance(self.said.bad) {
            let operand = if self.state.sealed { self.any_operand() } else { self.said.random.of(&OUTSIDE) };
            self.write(&[0x05, operand]);
        }
    }

    fn any_operand(&mut self) -> u8 {
        match self.said.random.below(3) {
            0 => self.said.random.of(&OUTSIDE),
            1 => self.said.random.of(&OTHERS),
            _ => UNSET,
        }
    }

    /// A hard tick after which the thread that runs has paid its timeslice, a tick less or a tick more.
    pub(crate) fn near_expiry(&mut self) {
        let runs_user = |cpu: &u8| {
            let running = self.state.cpus[*cpu as usize].running;
            running.is_some_and(|thread| self.state.th(thread).effective().class == USER)
        };
        let busy: Vec<u8> = self.cpus.iter().copied().filter(runs_user).collect();
        if busy.is_empty() {
            let Some(thread) = self.with_place(Place::Blocked) else { return self.block() };
            let (cpu, [low, high]) = (self.cpu(), thread.to_le_bytes());
            self.write(&[0x12, cpu, low, high]);
            self.write(&[0x13, cpu, 0]);
            return;
        }
        let cpu = self.random.of(&busy);
        let queue = &self.state.cpus[cpu as usize].queue;
        let thread = self.state.cpus[cpu as usize].running.unwrap();
        let left = queue.timeslice(USER, self.state.shortest as u64).saturating_sub(self.state.th(thread).paid as u64);
        let due = queue.last_tick + left;
        let tick = (due + self.random.below(3)).saturating_sub(1);
        if tick >= self.state.tick && tick <= second::LAST_TICK {
            let mut command = vec![0x11];
            command.extend_from_slice(&tick.to_le_bytes());
            self.write(&command);
        }
        self.write(&[0x14, cpu]);
        if self.random.chance(self.plan.follow) {
            self.write(&[0x17, cpu]);
        }
    }
}
