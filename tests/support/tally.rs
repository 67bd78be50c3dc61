//! How often each number was answered.
#![forbid(unsafe_code)]

use std::fmt;

pub struct Tally<const NUMBERS: usize> {
    /// What an answer of 0 is called.
    accepted: &'static str,
    by_number: [usize; NUMBERS],
}

impl<const NUMBERS: usize> Tally<NUMBERS> {
    pub fn new(accepted: &'static str) -> Tally<NUMBERS> {
        Tally {
            accepted,
            by_number: [0; NUMBERS],
        }
    }

    pub fn count(&mut self, number: u32) {
        self.by_number[number as usize] += 1;
    }

    pub fn times(&self, number: usize) -> usize {
        self.by_number[number]
    }

    pub fn cases(&self) -> usize {
        self.by_number.iter().sum()
    }
}

impl<const NUMBERS: usize> fmt::Display for Tally<NUMBERS> {
    fn fmt(&self, out: &mut fmt::Formatter) -> fmt::Result {
        write!(out, "{} {}, refused", self.accepted, self.by_number[0])?;
        let mut comma = "";
        for (number, times) in self.by_number.iter().enumerate().skip(1) {
            if *times > 0 {
                write!(out, "{comma} {number}: {times}")?;
                comma = ",";
            }
        }
        Ok(())
    }
}
