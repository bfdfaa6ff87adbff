//! How many samples of each kind were images and how many were none, so that no comparison holds for want of a case.

use std::collections::BTreeMap;

#[derive(Default)]
pub struct Tally {
    met: BTreeMap<String, Met>,
}

#[derive(Clone, Copy, Debug, Default, PartialEq, Eq)]
pub struct Met {
    pub images: u64,
    pub others: u64,
}

impl Tally {
    pub fn count(&mut self, kind: &str, is_image: bool) {
        let met = self.met.entry(kind.to_string()).or_default();
        if is_image {
            met.images += 1;
        } else {
            met.others += 1;
        }
    }

    pub fn met(&self, kind: &str) -> Met {
        self.met.get(kind).copied().unwrap_or_default()
    }

    pub fn kinds(&self) -> usize {
        self.met.len()
    }

    pub fn samples(&self) -> u64 {
        let all = self.met.values();
        all.map(|met| met.images + met.others).sum()
    }

    /// That there were so many kinds, and at least so many samples of each.
    pub fn assert_met(&self, kinds: usize, least: u64) {
        assert_eq!(self.kinds(), kinds, "{:?}", self.met.keys());
        for (kind, met) in &self.met {
            assert!(met.images + met.others >= least, "{}: {:?}", kind, met);
        }
    }

    /// That every kind but those named had at least so many images, and so many that were none.
    pub fn assert_both_verdicts_met(&self, least: u64, but: &[&str]) {
        for (kind, met) in &self.met {
            let both = met.images >= least && met.others >= least;
            assert!(both || but.contains(&kind.as_str()), "{}: {:?}", kind, met);
        }
    }
}
