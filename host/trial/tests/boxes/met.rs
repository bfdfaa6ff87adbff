//! How often each case ended with each number, so that no comparison holds for want of a case.

use std::collections::BTreeMap;

#[derive(Default)]
pub struct Met {
    times: BTreeMap<(String, u8), u64>,
}

impl Met {
    pub fn count(&mut self, case: &str, number: u8) {
        *self.times.entry((case.to_string(), number)).or_default() += 1;
    }

    pub fn add(&mut self, other: &Met) {
        for (pair, times) in &other.times {
            *self.times.entry(pair.clone()).or_default() += times;
        }
    }

    /// That each of these cases ended with each of its numbers at least so often, and that there was no other case and no
    /// other number.
    pub fn assert_all(&self, cases: &[(&str, &[u8])], least: u64) {
        let pairs = cases
            .iter()
            .flat_map(|(case, numbers)| numbers.iter().map(|number| (case.to_string(), *number)));
        let mut others = self.times.clone();
        for pair in pairs {
            let times = others.remove(&pair).unwrap_or(0);
            assert!(times >= least, "{:?}: {} times", pair, times);
        }
        assert!(others.is_empty(), "not expected: {:?}", others);
    }
}
