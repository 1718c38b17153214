//! Lines and dump.

use std::fmt::Write;

use crate::{Answer, CPUS, Place, Priority, State, queue::Buckets};

fn who(running: Option<u16>) -> String {
    running.map_or("idle".to_string(), |thread| thread.to_string())
}

fn or_none(cpu: Option<u8>) -> i32 {
    cpu.map_or(-1, |cpu| cpu as i32)
}

fn buckets(buckets: &Buckets) -> String {
    let list = |bucket: &std::collections::VecDeque<u16>| {
        let numbers: Vec<String> = bucket.iter().map(|thread| thread.to_string()).collect();
        numbers.join(",")
    };
    buckets.iter().map(list).collect::<Vec<_>>().join(";")
}

impl State {
    pub fn line(&self, out: &mut String, number: u64, answer: Answer) {
        match answer {
            Answer::Refused(refusal) => writeln!(out, "{number} {refusal} - - - -"),
            Answer::Obeyed => writeln!(out, "{number} 0 - - - -"),
            Answer::On(cpu) => {
                let cpu_state = &self.cpus[cpu as usize];
                let (running, load) = (who(cpu_state.running), cpu_state.queue.load());
                writeln!(out, "{number} 0 {cpu} {running} {load} {}", self.wakeups)
            }
        }
        .unwrap();
    }

    pub fn dump(&self, out: &mut String) {
        writeln!(out, "s shortest {}", self.shortest).unwrap();
        for cpu in (0..CPUS).filter(|cpu| self.cpus[*cpu].declared) {
            self.dump_cpu(out, cpu);
        }
        for (number, thread) in self.threads.iter().enumerate() {
            let Some(thread) = thread else { continue };
            let place = match thread.place {
                Place::Blocked => "blocked",
                Place::Running => "running",
                Place::Queued => "queued",
            };
            let donated = thread.donated.map_or("-".to_string(), |d| d.raw().to_string());
            writeln!(
                out,
                "t {number} st {place} own {} don {donated} stab {} crit {} pin {} lastcpu {} qcpu {} dl {} slice {}",
                thread.own.raw(),
                thread.stable.raw(),
                thread.critical as u8,
                or_none(thread.pin),
                or_none(thread.last_cpu),
                or_none(thread.queue_cpu),
                thread.deadline,
                thread.paid,
            )
            .unwrap();
        }
    }

    fn dump_cpu(&self, out: &mut String, number: usize) {
        let cpu = &self.cpus[number];
        let queue = &cpu.queue;
        let raw = |priority: Priority| priority.raw();
        write!(
            out,
            "c {number} run {} load {} ts {} mov {} pri {} cpri {} idle {} reb {} pre {} seed {} bal {} last {}",
            who(cpu.running),
            queue.load(),
            queue.timeshare_load(),
            queue.movable(&self.threads),
            raw(queue.advertised),
            raw(cpu.own_priority),
            cpu.idle as u8,
            cpu.must_rebalance as u8,
            cpu.preempt as u8,
            cpu.seed,
            cpu.balance_time,
            queue.last_tick,
        )
        .unwrap();
        let counts: Vec<String> =
            queue.counts(&self.threads).iter().map(|count| count.to_string()).collect();
        writeln!(
            out,
            " ins {} take {} rt [{}] tsq [{}] il [{}] pr [{}] isl {}",
            queue.filling,
            queue.emptying,
            buckets(&queue.realtime),
            buckets(&queue.timeshare),
            buckets(&queue.idle),
            counts.join(","),
            cpu.idle_paid,
        )
        .unwrap();
    }
}
