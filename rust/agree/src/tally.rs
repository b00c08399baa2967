//! How often each outcome came up.

use std::collections::BTreeMap;
use std::fmt;

/// The numbers of the refusals, 0 for accepted, with their counts.
#[derive(Default)]
pub struct Tally {
    outcomes: BTreeMap<u32, u64>,
}

impl Tally {
    pub fn add(&mut self, outcome: u32) {
        *self.outcomes.entry(outcome).or_default() += 1;
    }

    /// Says which outcomes did not come up that must.
    pub fn judge(&self, needed: &[u32]) -> Result<(), String> {
        let missing = needed.iter().filter(|&outcome| !self.outcomes.contains_key(outcome));
        let missing: Vec<String> = missing.map(u32::to_string).collect();
        if missing.is_empty() {
            Ok(())
        } else {
            Err(format!("outcomes that did not come up: {}", missing.join(", ")))
        }
    }
}

impl fmt::Display for Tally {
    fn fmt(&self, formatter: &mut fmt::Formatter<'_>) -> fmt::Result {
        write!(formatter, "{} cases are the same", self.outcomes.values().sum::<u64>())?;
        for (outcome, count) in &self.outcomes {
            match outcome {
                0 => write!(formatter, ", {count} accepted")?,
                number => write!(formatter, ", refused {number} x {count}")?,
            }
        }
        Ok(())
    }
}

#[cfg(test)]
mod tests {
    use super::*;

    #[test]
    fn outcomes_are_counted_and_missing_ones_named() {
        let mut tally = Tally::default();
        for outcome in [0, 9, 0] {
            tally.add(outcome);
        }
        assert_eq!(tally.to_string(), "3 cases are the same, 2 accepted, refused 9 x 1");
        assert_eq!(tally.judge(&[0, 9]), Ok(()));
        let missing = "outcomes that did not come up: 1, 8".to_string();
        assert_eq!(tally.judge(&[0, 1, 8, 9]), Err(missing));
    }
}
