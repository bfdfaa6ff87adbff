//! "One group has n = 3, 5 or 7 boxes, numbered 0 to n-1, with f = 1, 2 or 3."

/// The f of a group of n boxes, or nothing for a bad n.
pub fn f_of(n: u8) -> Option<usize> {
    match n {
        3 => Some(1),
        5 => Some(2),
        7 => Some(3),
        _ => None,
    }
}

/// The numbers of boxes that decide something, computed from f.
#[derive(Clone, Copy, Debug, PartialEq, Eq)]
pub struct Counts {
    /// "quorum f+1"
    pub quorum: usize,
    /// "Fast count: three f halves, rounded up, plus one."
    pub fast: usize,
    /// "Agreement count: f half, rounded up, plus one."
    pub agreement: usize,
}

impl Counts {
    pub fn from_f(f: usize) -> Counts {
        Counts {
            quorum: f + 1,
            fast: half_rounded_up(3 * f) + 1,
            agreement: half_rounded_up(f) + 1,
        }
    }

    pub fn from_n(n: u8) -> Option<Counts> {
        f_of(n).map(Counts::from_f)
    }
}

fn half_rounded_up(number: usize) -> usize {
    number / 2 + number % 2
}
