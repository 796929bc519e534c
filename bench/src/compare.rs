//! The comparison: both sides follow the same random scripts, and have to print the same.

use crate::cases::{self, Random};
use crate::proved::Proved;
use crate::reference;
use crate::tally::Tally;
use std::fmt;

/// A script on which the two sides differ.
pub struct Difference {
    /// Which of the scripts it is.
    pub number: usize,
    pub script: Vec<u8>,
    pub reference: String,
    pub proved: Vec<u8>,
}

impl fmt::Display for Difference {
    fn fmt(&self, f: &mut fmt::Formatter<'_>) -> fmt::Result {
        writeln!(f, "script {}:", self.number)?;
        writeln!(f, "{}", String::from_utf8_lossy(&self.script))?;
        writeln!(f, "-- the independent implementation prints:")?;
        writeln!(f, "{}", self.reference)?;
        writeln!(f, "-- the proved library prints:")?;
        write!(f, "{}", String::from_utf8_lossy(&self.proved))
    }
}

/// Compares both sides on so many scripts. The seed and the number of a script determine it.
pub fn compare(seed: u64, count: usize) -> Result<Tally, Box<Difference>> {
    let mut proved = Proved::new();
    let mut tally = Tally::default();
    for number in 0..count {
        let mut random = Random::of_script(seed, number);
        let script = cases::script(&mut random);
        let expected = reference::follow(&script);
        let found = proved.follow(&script);
        if found != expected.text.as_bytes() {
            return Err(Box::new(Difference {
                number,
                proved: found.to_vec(),
                reference: expected.text,
                script,
            }));
        }
        tally.count(&expected);
    }
    Ok(tally)
}
