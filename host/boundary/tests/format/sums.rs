//! Numbers as the page writes them, `49,176` or `24 + 24 x rows`, and sets of them, `3, 5 or 7` or `1 to 2^48-1`.

use crate::Checked;

/// What the names in a sum stand for.
pub type Known<'a> = &'a [(&'a str, u128)];

/// A sum of products.
pub fn sum(text: &str, known: Known) -> Checked<u128> {
    let products = text.split(" + ").map(|part| product(part, known));
    products.sum()
}

fn product(text: &str, known: Known) -> Checked<u128> {
    let factors = text.split(" x ").map(|part| factor(part.trim(), known));
    factors.product()
}

/// A number, a power of two or a name; or one less than that.
fn factor(text: &str, known: Known) -> Checked<u128> {
    let unknown = || format!("`{}` is no number that the page may use here", text);
    if let Some(more) = text.strip_suffix("-1") {
        return factor(more, known)?.checked_sub(1).ok_or_else(unknown);
    }
    if let Some(power) = text.strip_prefix("2^") {
        let power: u32 = power.parse().map_err(|_| unknown())?;
        return 1_u128.checked_shl(power).ok_or_else(unknown);
    }
    match known.iter().find(|(name, _)| *name == text) {
        Some((_, value)) => Ok(*value),
        None => text.replace(',', "").parse().map_err(|_| unknown()),
    }
}

/// The greatest number of so many bytes.
fn greatest(width: usize) -> u128 {
    u128::from(u64::MAX >> (64 - 8 * width))
}

/// Values that are allowed: ranges, each with its first value and its last.
#[derive(Debug)]
pub struct Set {
    ranges: Vec<(u128, u128)>,
}

impl Set {
    /// What a cell says before its semicolon.
    pub fn of(cell: &str, known: Known) -> Checked<Set> {
        let allowed = cell.split(';').next().unwrap_or(cell).trim();
        let parts = allowed.replace(" or ", ", ");
        let range = |part: &str| match part.split_once(" to ") {
            Some((first, last)) => Ok((sum(first, known)?, sum(last, known)?)),
            None => sum(part, known).map(|value| (value, value)),
        };
        let ranges: Checked<Vec<(u128, u128)>> = parts.split(", ").map(range).collect();
        ranges.map(|ranges| Set { ranges })
    }

    pub fn has(&self, value: u64) -> bool {
        let value = u128::from(value);
        let mut ranges = self.ranges.iter();
        ranges.any(|(first, last)| (*first..=*last).contains(&value))
    }

    /// Whether all of it can be written in so many bytes.
    pub fn fits(&self, width: usize) -> bool {
        let mut ranges = self.ranges.iter();
        ranges.all(|(_, last)| *last <= greatest(width))
    }

    /// Values of so many bytes that are worth trying: all of one byte; else those about the ends of each range and of all.
    pub fn tries(&self, width: usize) -> Vec<u64> {
        if width == 1 {
            return (0..=255).collect();
        }
        let greatest = greatest(width);
        let ends = self.ranges.iter().flat_map(|(first, last)| [*first, *last]);
        let mut tries: Vec<u64> = ends
            .chain([0, greatest])
            .flat_map(|end| [end.saturating_sub(1), end, end + 1])
            .filter(|value| *value <= greatest)
            .map(|value| value as u64)
            .collect();
        tries.sort_unstable();
        tries.dedup();
        tries
    }
}

#[test]
fn sums_and_sets_are_read_as_they_are_written() {
    let known = [("rows", 2), ("n", 7)];
    assert_eq!(sum("24 + 24 x rows", &known), Ok(72));
    assert_eq!(sum("49,176", &known), Ok(49_176));
    assert_eq!(sum("2^48-1", &known), Ok((1 << 48) - 1));
    assert!(sum("9 x accesses", &known).is_err());
    assert!(sum("0-1", &known).is_err());
    let set = Set::of("3, 5 or n; how many boxes", &known).expect("a set");
    let has: Vec<u64> = (0..10).filter(|value| set.has(*value)).collect();
    assert_eq!(has, [3, 5, 7]);
    let set = Set::of("1 to n-1", &known).expect("a set");
    assert_eq!((set.has(0), set.has(6), set.has(7)), (false, true, false));
    assert_eq!(
        set.tries(4),
        [0, 1, 2, 5, 6, 7, u32::MAX as u64 - 1, u32::MAX as u64]
    );
}
