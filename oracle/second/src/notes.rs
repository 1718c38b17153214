//! What commands did with the shortest timeslice, which no line shows and no rule asks for.

use std::cmp::Ordering;

use crate::{UNSET, USER};

/// User timeslices at a timeshare load above 0.
#[derive(Clone, Copy, Default, PartialEq, Debug)]
pub struct Slices {
    /// 32 / load is below the shortest one, which then counts in its place, equal to it, and above it.
    pub below: u64,
    pub equal: u64,
    pub above: u64,
}

/// Where the shortest one was 2, and where it was another.
#[derive(Clone, Copy, Default, Debug)]
pub struct Notes {
    pub at_two: Noted,
    pub at_others: Noted,
}

#[derive(Clone, Copy, Default, PartialEq, Debug)]
pub struct Noted {
    /// User timeslices at timeshare load 0, of deadlines and hard ticks.
    pub load_0: u64,
    pub deadlines: Slices,
    pub hard_ticks: Slices,
    /// Hard ticks that are allowed the shortest one, after which one tick less, as many and one more are paid.
    pub one_before: u64,
    pub expiring: u64,
    pub one_after: u64,
}

impl Slices {
    fn add(&mut self, load: usize, shortest: u8) {
        match (32 / load).cmp(&(shortest as usize)) {
            Ordering::Less => self.below += 1,
            Ordering::Equal => self.equal += 1,
            Ordering::Greater => self.above += 1,
        }
    }
}

impl Slices {
    fn sum(&mut self, more: &Slices) {
        self.below += more.below;
        self.equal += more.equal;
        self.above += more.above;
    }
}

impl Noted {
    pub fn add(&mut self, more: &Noted) {
        self.load_0 += more.load_0;
        self.deadlines.sum(&more.deadlines);
        self.hard_ticks.sum(&more.hard_ticks);
        self.one_before += more.one_before;
        self.expiring += more.expiring;
        self.one_after += more.one_after;
    }
}

impl Notes {
    fn at(&mut self, shortest: u8) -> &mut Noted {
        if shortest == UNSET { &mut self.at_two } else { &mut self.at_others }
    }

    pub fn deadline(&mut self, class: u8, load: usize, shortest: u8) {
        match load {
            _ if class != USER => {}
            0 => self.at(shortest).load_0 += 1,
            _ => self.at(shortest).deadlines.add(load, shortest),
        }
    }

    pub fn hard_tick(&mut self, class: u8, load: usize, shortest: u8, paid: u64) {
        let noted = self.at(shortest);
        match load {
            _ if class != USER => {}
            0 => noted.load_0 += 1,
            _ => {
                noted.hard_ticks.add(load, shortest);
                if 32 / load <= shortest as usize {
                    noted.one_before += (paid + 1 == shortest as u64) as u64;
                    noted.expiring += (paid == shortest as u64) as u64;
                    noted.one_after += (paid == shortest as u64 + 1) as u64;
                }
            }
        }
    }
}
