//! The run: docs/RUN.md.

use crate::arithmetic::Region;
use crate::narrowing::{System, Verdict};

const LIMIT: u32 = 10000;
const PLACES: usize = 64;

#[derive(Clone, Copy)]
pub enum Cause {
    Small,
    Crowded,
}

/// The refusal that a run stopped with, by its number.
#[derive(Clone, Copy)]
pub enum Stop {
    NothingPending = 22,
    LimitReached = 23,
    FeasibleFull = 25,
    UndecidedFull = 26,
}

pub struct Run<'a> {
    system: &'a System,
    pub settled: u32,
    pub pending: Vec<Region>,
    pub feasible: Vec<Region>,
    pub undecided: Vec<(Region, Cause)>,
}

impl<'a> Run<'a> {
    pub fn open(system: &'a System, start: Region) -> Run<'a> {
        let mut pending = Vec::with_capacity(PLACES);
        pending.push(start);
        let (feasible, undecided) = (Vec::with_capacity(PLACES), Vec::with_capacity(PLACES));
        Run { system, settled: 0, pending, feasible, undecided }
    }

    pub fn finish(&mut self) -> Stop {
        loop {
            let Some(&taken) = self.pending.last() else { return Stop::NothingPending };
            if self.settled == LIMIT {
                return Stop::LimitReached;
            }
            self.pending.pop();
            if let Err(stop) = self.settle(taken) {
                self.pending.push(taken);
                return stop;
            }
            self.settled += 1;
        }
    }

    fn settle(&mut self, mut region: Region) -> Result<(), Stop> {
        match self.system.narrow_and_judge(&mut region) {
            Verdict::Broken => Ok(()),
            Verdict::Met => file(&mut self.feasible, region, Stop::FeasibleFull),
            Verdict::Unsure => match self.system.widest(&region) {
                None => self.file_undecided(region, Cause::Small),
                Some(_) if self.pending.len() + 2 > PLACES => {
                    self.file_undecided(region, Cause::Crowded)
                }
                Some(variable) => {
                    let (lower, upper) = region.split(variable);
                    self.pending.push(upper);
                    self.pending.push(lower);
                    Ok(())
                }
            },
        }
    }

    fn file_undecided(&mut self, region: Region, cause: Cause) -> Result<(), Stop> {
        file(&mut self.undecided, (region, cause), Stop::UndecidedFull)
    }

    pub fn verdict(&self) -> &'static str {
        if !self.feasible.is_empty() {
            "SOME"
        } else if !self.pending.is_empty() {
            "UNFINISHED"
        } else if !self.undecided.is_empty() {
            "UNSURE"
        } else {
            "NONE"
        }
    }
}

fn file<T>(list: &mut Vec<T>, item: T, full: Stop) -> Result<(), Stop> {
    if list.len() == PLACES {
        return Err(full);
    }
    list.push(item);
    Ok(())
}
