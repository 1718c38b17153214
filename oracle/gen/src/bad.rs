//! Commands of which each operand is good or bad by itself, so that every order of failing questions comes up.

use crate::Generator;
use second::{LAST_TICK, Place};

impl Generator {
    fn bad_cpu(&mut self) -> u8 {
        match self.random.below(4) {
            0 => 64,
            1 => 0xff,
            _ => self.random.below(70) as u8,
        }
    }

    fn some_cpu(&mut self) -> u8 {
        let declared: Vec<u8> = (0..64).filter(|cpu| self.state.declared(*cpu)).collect();
        if declared.is_empty() || self.random.chance(40) {
            self.bad_cpu()
        } else {
            self.random.of(&declared)
        }
    }

    fn some_thread(&mut self) -> u16 {
        match self.random.below(6) {
            0 => 1024,
            1 => self.random.below(65_536) as u16,
            2 => self.random.below(1030) as u16,
            3 => 1023,
            _ => self.any_thread().unwrap_or(0),
        }
    }

    fn some_node(&mut self) -> u8 {
        let nodes = self.state.topology.nodes() as u64;
        match self.random.below(4) {
            0 => nodes as u8,
            1 => self.random.below(256) as u8,
            _ => self.random.below(nodes) as u8,
        }
    }

    fn some_class(&mut self) -> u8 {
        self.random.of(&[0, 1, 2, 3, 3, 4, 5, 255])
    }

    fn some_value(&mut self) -> u8 {
        self.random.of(&[0, 1, 64, 126, 127, 127, 128, 129, 255])
    }

    /// Any command with any operands, often refused. A command that would be obeyed and spoil the stream before the
    /// seal is passed over.
    pub fn bad_command(&mut self) -> Vec<u8> {
        loop {
            let command = self.some_command();
            if self.state.sealed || command[0] > 0x04 || !self.spoils(&command) {
                return command;
            }
        }
    }

    /// Before the seal: a CPU or node more, or a place taken, changes what the plan means to do.
    fn spoils(&self, command: &[u8]) -> bool {
        match command[0] {
            0x01 => command[1] < 64 && !self.state.declared(command[1]),
            0x02 => self.state.topology.may_have_child(command[1]) && command[2] <= 3,
            0x03 => {
                self.state.declared(command[2])
                    && !self.state.topology.placed(command[2])
                    && self.state.topology.is_leaf(command[1])
            }
            _ => self.state.may_seal(),
        }
    }

    fn some_command(&mut self) -> Vec<u8> {
        let after = [0x10, 0x11, 0x12, 0x12, 0x13, 0x14, 0x15, 0x16, 0x17, 0x18, 0x19, 0x1a];
        let before = [0x01, 0x02, 0x02, 0x03, 0x03, 0x04];
        let late = if self.state.sealed { 80 } else { 60 };
        let byte = if self.random.chance(late) {
            self.random.of(&after)
        } else {
            self.random.of(&before)
        };
        let [low, high] = self.some_thread().to_le_bytes();
        let cpu = self.some_cpu();
        match byte {
            0x01 => vec![byte, cpu],
            0x02 => vec![byte, self.some_node(), self.random.of(&[0, 1, 2, 3, 3, 4, 255])],
            0x03 => vec![byte, self.some_node(), cpu],
            0x04 => vec![byte],
            0x10 => {
                let pin = if self.random.chance(50) { 0xff } else { cpu };
                vec![byte, low, high, self.some_class(), self.some_value(), pin]
            }
            0x11 => {
                let now = self.state.tick;
                let tick = match self.random.below(6) {
                    0 => now.wrapping_sub(1),
                    1 => LAST_TICK + 1,
                    2 => u64::MAX,
                    3 => now / 2,
                    4 => LAST_TICK + self.random.next() / 4,
                    _ => now,
                };
                let mut command = vec![byte];
                command.extend_from_slice(&tick.to_le_bytes());
                command
            }
            0x12 => {
                let place = self.random.of(&[Place::Running, Place::Queued, Place::Blocked]);
                let thread = match self.with_place(place) {
                    Some(thread) if self.random.chance(70) => thread.to_le_bytes(),
                    _ => [low, high],
                };
                vec![byte, cpu, thread[0], thread[1]]
            }
            0x13 => vec![byte, cpu, self.random.of(&[4, 7, 8, 9, 15, 128, 255])],
            0x15 => {
                let mut command = vec![byte, cpu];
                let dt = self.random.below(1 << 20) as u32;
                command.extend_from_slice(&dt.to_le_bytes());
                command
            }
            0x18 => vec![byte, cpu, low, high, self.some_class(), self.some_value()],
            0x19 => vec![byte, low, high],
            0x1a => vec![byte, low, high, self.random.of(&[0, 1, 2, 3, 255])],
            _ => vec![byte, cpu],
        }
    }
}
