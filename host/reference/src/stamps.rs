//! "A stamp is 1 to 2^48-1 in 8 bytes: time times 65,536 plus client."

pub const GREATEST_STAMP: u64 = (1 << 48) - 1;

pub fn is_stamp(number: u64) -> bool {
    (1..=GREATEST_STAMP).contains(&number)
}
