//! The choice of a CPU, scheduling, ticks, preemption, donation.

use crate::{Place, Priority, State};

const SECOND: u64 = 1_000_000_000;

impl State {
    /// "`current_load` is queue load plus 1 unless idle."
    pub fn current_load(&self, cpu: u8) -> u64 {
        let cpu = &self.cpus[cpu as usize];
        cpu.queue.load() as u64 + if cpu.idle { 0 } else { 1 }
    }

    fn cpu_priority(&self, cpu: u8) -> Priority {
        let cpu = &self.cpus[cpu as usize];
        cpu.queue.advertised.max(cpu.own_priority)
    }

    /// "One state per CPU, at first 0; a state of 0 is replaced by the CPU number. The state is multiplied by 69069 and 5
    /// is added, both modulo 2^32; the draw is the new state divided by 65,536, rounded down."
    fn draw(&mut self, cpu: u8) -> u64 {
        let seed = &mut self.cpus[cpu as usize].seed;
        let state = if *seed == 0 { cpu as u64 } else { *seed as u64 };
        *seed = ((state * 69069 + 5) % (1 << 32)) as u32;
        *seed as u64 / 65_536
    }

    /// "A score is load × 256 less (draw modulo 128), not below 0"
    fn score(&mut self, us: u8, cpu: u8) -> u64 {
        let load = self.current_load(cpu);
        let draw = self.draw(us);
        (load * 256).saturating_sub(draw % 128)
    }

    /// The least score among the CPUs not skipped, "first of equals wins".
    fn find_cpu(&mut self, us: u8, at_most: Option<Priority>) -> Option<u8> {
        let mut best: Option<(u64, u8)> = None;
        for cpu in self.topology.search_order() {
            if at_most.is_some_and(|priority| self.cpu_priority(cpu) > priority) {
                continue;
            }
            let score = self.score(us, cpu);
            if best.is_none_or(|(least, _)| score < least) {
                best = Some((score, cpu));
            }
        }
        best.map(|(_, cpu)| cpu)
    }

    fn select_cpu(&mut self, us: u8, thread: u16, avoid: Option<u8>) -> u8 {
        let record = self.th(thread);
        let priority = record.effective();
        if let Some(preferred) = record.pin.or(record.last_cpu) {
            if avoid != Some(preferred) {
                let empty = self.cpus[preferred as usize].queue.load() == 0;
                if empty || priority > self.cpu_priority(preferred) {
                    return preferred;
                }
            }
        }
        if let Some(cpu) = self.find_cpu(us, Some(priority)) {
            if avoid != Some(cpu) {
                return cpu;
            }
        }
        self.find_cpu(us, None).unwrap()
    }

    /// Deadline and timeslice of a thread that is about to wait on the CPU, or to run on.
    fn reset_time(&mut self, thread: u16, cpu: u8) {
        let class = self.th(thread).effective().class;
        let queue = &self.cpus[cpu as usize].queue;
        let deadline = self.tick + queue.deadline(class, self.shortest as u64);
        self.notes.deadline(class, queue.timeshare_load(), self.shortest);
        let record = self.th_mut(thread);
        record.deadline = deadline;
        record.paid = 0;
    }

    /// A put, made by CPU `us` into the queue of `cpu`.
    fn put(&mut self, us: u8, thread: u16, cpu: u8) {
        let queue = &self.cpus[cpu as usize].queue;
        let heard = queue.load() == 0 || queue.advertised <= self.th(thread).effective();
        let signal = cpu != us && heard;
        self.reset_time(thread, cpu);
        let record = self.th_mut(thread);
        record.queue_cpu = Some(cpu);
        record.place = Place::Queued;
        let tick = self.tick;
        self.cpus[cpu as usize].queue.put(thread, &mut self.threads, tick, false);
        if signal {
            self.wakeup(us, cpu);
        }
    }

    /// CPU `us` calls CPU `cpu`. "On the boats a wake-up is a line to another core": no other call counts.
    fn wakeup(&mut self, us: u8, cpu: u8) {
        if cpu != us {
            self.wakeups += 1;
        } else {
            self.own_calls += 1;
        }
    }

    fn take(&mut self, cpu: u8, stealing: bool) -> Option<u16> {
        self.cpus[cpu as usize].queue.take(&self.threads, stealing)
    }

    pub fn schedule_thread(&mut self, us: u8, thread: u16) -> u8 {
        let cpu = self.select_cpu(us, thread, None);
        self.put(us, thread, cpu);
        cpu
    }

    fn try_steal(&mut self, us: u8) -> Option<u16> {
        for cpu in self.topology.steal_order(us) {
            if self.current_load(cpu) >= 2
                && self.cpus[cpu as usize].queue.movable(&self.threads) > 0
            {
                let thread = self.take(cpu, true)?;
                self.th_mut(thread).queue_cpu = Some(us);
                return Some(thread);
            }
        }
        None
    }

    /// The CPU of the highest score and that of the lowest, looked for among those that did not raise the highest.
    fn choose_cpu_balance(&mut self, us: u8, allowed: &[u8]) -> Option<(u8, u8)> {
        let (mut highest, mut donor) = (0, 0);
        let mut lowest: Option<(u64, u8)> = None;
        for cpu in self.topology.all() {
            if !allowed.contains(&cpu) {
                continue;
            }
            let score = self.score(us, cpu);
            if score > highest {
                (highest, donor) = (score, cpu);
            } else if lowest.is_none_or(|(least, _)| score < least) {
                lowest = Some((score, cpu));
            }
        }
        match lowest {
            Some((_, recipient)) if recipient != donor => Some((donor, recipient)),
            _ => None,
        }
    }

    /// "`balance` makes at most 20 choices and moves at most two threads."
    fn balance(&mut self, us: u8) {
        let mut allowed = self.topology.all();
        let mut steps = 0;
        while steps < 20 {
            steps += 1;
            let Some((donor, recipient)) = self.choose_cpu_balance(us, &allowed) else {
                continue;
            };
            if self.current_load(donor) == 0 {
                return;
            }
            self.cpus[donor as usize].must_rebalance = true;
            if self.cpus[donor as usize].queue.load() == 0 {
                allowed.retain(|cpu| *cpu != donor);
                continue;
            }
            allowed.retain(|cpu| *cpu != recipient);
            if let Some(thread) = self.take(donor, true) {
                self.put(us, thread, recipient);
                steps += 10;
            }
        }
    }

    /// The CPU lets the thread, or its idle thread, run.
    fn switch_to(&mut self, us: u8, next: Option<u16>) {
        let old = self.cpus[us as usize].running;
        if let Some(old) = old {
            if self.th(old).place == Place::Running {
                self.th_mut(old).place = Place::Blocked;
            }
        }
        let own_priority = match next {
            Some(thread) => {
                let record = self.th_mut(thread);
                record.queue_cpu = None;
                record.last_cpu = Some(us);
                record.place = Place::Running;
                record.effective()
            }
            None => Priority::LEAST,
        };
        let cpu = &mut self.cpus[us as usize];
        cpu.running = next;
        cpu.own_priority = own_priority;
        cpu.idle = next.is_none();
        cpu.must_rebalance = false;
    }

    fn critical(&self, us: u8) -> bool {
        self.cpus[us as usize].running.is_some_and(|thread| self.th(thread).critical)
    }

    fn running_priority(&self, us: u8) -> Priority {
        let running = self.cpus[us as usize].running;
        running.map_or(Priority::LEAST, |thread| self.th(thread).effective())
    }

    pub fn schedule(&mut self, us: u8, yields: bool, preempt: bool, reinsert: bool) {
        if self.critical(us) {
            return;
        }
        let running = self.cpus[us as usize].running;
        if let (Some(thread), true) = (running, reinsert) {
            let must_rebalance = self.cpus[us as usize].must_rebalance;
            let advertised = self.cpus[us as usize].queue.advertised;
            let priority = self.th(thread).effective();
            let higher = advertised > priority || (yields && advertised == priority);
            if preempt || must_rebalance || higher {
                let cpu = if must_rebalance {
                    self.select_cpu(us, thread, Some(us))
                } else {
                    us
                };
                self.put(us, thread, cpu);
            } else if yields {
                self.put(us, thread, us);
            } else {
                self.reset_time(thread, us);
                self.cpus[us as usize].idle = false;
                return;
            }
        }
        if let Some(next) = self.take(us, false) {
            if Some(next) == running {
                self.th_mut(next).place = Place::Running;
            } else {
                self.switch_to(us, Some(next));
            }
        } else if let Some(stolen) = self.try_steal(us) {
            self.switch_to(us, Some(stolen));
        } else if running.is_some() {
            self.switch_to(us, None);
        }
    }

    fn needs_reschedule(&self, us: u8, ticking: bool) -> bool {
        let queue = &self.cpus[us as usize].queue;
        let priority = self.running_priority(us);
        !self.critical(us)
            && queue.load() > 0
            && (queue.advertised > priority || (ticking && queue.advertised == priority))
    }

    pub fn hardtick(&mut self, us: u8) {
        let resched = self.needs_reschedule(us, true);
        let class = self.running_priority(us).class;
        let tick = self.tick;
        let cpu = &mut self.cpus[us as usize];
        let ticks = tick - cpu.queue.last_tick;
        cpu.queue.last_tick = tick;
        let allowed = cpu.queue.timeslice(class, self.shortest as u64);
        let paid = match cpu.running {
            Some(thread) => &mut self.threads[thread as usize].as_mut().unwrap().paid,
            None => &mut cpu.idle_paid,
        };
        self.notes.hard_tick(class, cpu.queue.timeshare_load(), self.shortest, *paid as u64 + ticks);
        let expired = *paid as u64 + ticks >= allowed;
        *paid = if expired { 0 } else { *paid + ticks as u32 };
        if resched || expired {
            cpu.preempt = true;
        }
    }

    pub fn stattick(&mut self, us: u8, nanoseconds: u64) {
        // "CPU 0 is the boot CPU."
        if us == 0 {
            let left = self.cpus[0].balance_time;
            if left >= nanoseconds {
                self.cpus[0].balance_time = left - nanoseconds;
            } else {
                self.cpus[0].balance_time = SECOND / 2 + self.draw(us) % SECOND;
                self.balance(us);
            }
        }
        self.cpus[us as usize].queue.clock();
    }

    pub fn resched(&mut self, us: u8) {
        if self.cpus[us as usize].running.is_none() || self.needs_reschedule(us, false) {
            self.cpus[us as usize].preempt = true;
        }
    }

    pub fn maybe_preempt(&mut self, us: u8) {
        if std::mem::take(&mut self.cpus[us as usize].preempt) {
            self.schedule(us, false, true, true);
        }
    }

    pub fn donate(&mut self, us: u8, thread: u16, priority: Priority) {
        let record = self.th(thread);
        if record.donated.is_some_and(|held| held > priority) {
            return;
        }
        let raises = priority > record.effective();
        self.th_mut(thread).donated = Some(priority);
        if !raises || self.cpus[us as usize].running == Some(thread) {
            return;
        }
        if let Some(cpu) = self.th(thread).queue_cpu {
            let queue = &self.cpus[cpu as usize].queue;
            if queue.load() > 0 && queue.advertised > self.th(thread).effective() {
                self.wakeup(us, cpu);
            }
        }
    }
}
