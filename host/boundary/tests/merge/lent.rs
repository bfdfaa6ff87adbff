//! The output of a call, twice: one for the library and one for the second program. What they leave is compared.

use crate::shares::Shares;
use samples::{Dice, TABLE_BYTES};

/// Bytes that are not lent, before and behind the output.
const BEFORE: usize = 64;
const BEHIND: usize = 64;
/// The longest of the outputs that are lent.
const LONGEST: usize = TABLE_BYTES + 10_007;

/// An output buffer below 49,176 is too small.
pub const LONG_ENOUGH: [usize; 3] = [TABLE_BYTES, TABLE_BYTES + 1, LONGEST];
pub const TOO_SHORT: [usize; 4] = [0, 1, 24, TABLE_BYTES - 1];

pub struct Lent {
    pub dice: Dice,
    pub shares: Shares,
    library: Vec<u8>,
    second: Vec<u8>,
    /// What stands in an output until somebody writes there.
    dirt: Vec<u8>,
    /// Where the output begins: it may begin at any address.
    begin: usize,
    /// How far the dirt may have been written over.
    used: usize,
}

impl Lent {
    pub fn seeded(seed: u64) -> Lent {
        let mut dice = Dice::seeded(seed);
        let begin = BEFORE + dice.index(64);
        // No zero among the dirt, so that clearing is seen.
        let length = begin + LONGEST + BEHIND;
        let dirt: Vec<u8> = (0..length).map(|_| 1 + dice.below(255) as u8).collect();
        Lent {
            library: dirt.clone(),
            second: dirt.clone(),
            dirt,
            begin,
            used: 0,
            dice,
            shares: Shares::default(),
        }
    }

    /// The image that the last done merge wrote.
    pub fn image(&self) -> &[u8] {
        let out = &self.second[self.begin..];
        let length = u32::from_be_bytes(out[20..24].try_into().expect("four bytes"));
        &out[..length as usize]
    }

    /// The number that both programs give for a run, with an output that is long enough.
    pub fn ask(&mut self, run: &[u8], view: u32) -> u8 {
        let length = self.dice.one_of(&LONG_ENOUGH);
        self.ask_with(run, view, length)
    }

    /// The number that both programs give for a run, with an output of this length. They have to agree on it and on every
    /// byte, lent or not, and to leave the run as it was.
    pub fn ask_with(&mut self, run: &[u8], view: u32, length: usize) -> u8 {
        self.make_dirty();
        // The run may begin at any address too.
        let lead = self.dice.index(8);
        let around = [&self.dirt[..lead], run, &self.dirt[..8]].concat();
        let lent = around.clone();
        let out = self.begin..self.begin + length;
        let number = reference::merge(run, view, &mut self.second[out.clone()]);
        let run_lent = &lent[lead..lead + run.len()];
        let found = boundary::merge(run_lent, view, &mut self.library[out]);
        if found != number || self.library != self.second || lent != around {
            self.say_what_differs((found, number), length, view, run);
        }
        let length = if number == 0 { self.image().len() } else { 0 };
        let image = &self.second[self.begin..self.begin + length];
        self.shares.count(run, number, image);
        self.used = self.used.max(length);
        number
    }

    /// Half of the time, dirt where the last merge wrote, and nothing but dirt then.
    fn make_dirty(&mut self) {
        if self.dice.in_a_hundred(50) {
            let written = self.begin..self.begin + self.used;
            for out in [&mut self.library, &mut self.second] {
                out[written.clone()].copy_from_slice(&self.dirt[written.clone()]);
            }
            self.used = 0;
        }
    }

    fn say_what_differs(
        &self,
        (found, number): (u8, u8),
        length: usize,
        view: u32,
        run: &[u8],
    ) -> ! {
        let mut pairs = self.library.iter().zip(&self.second);
        let place = pairs.position(|(one, other)| one != other);
        let place = place.map(|place| place as isize - self.begin as isize);
        let shown = |out: &[u8]| out[self.begin..][..240].to_vec();
        panic!(
            "number {} and not {}, view {}, an output of {}, which differs at {:?}\n\
             run of {} bytes {:02x?}\noutput {:02x?}\nand not {:02x?}",
            found,
            number,
            view,
            length,
            place,
            run.len(),
            &run[..run.len().min(600)],
            shown(&self.library),
            shown(&self.second),
        );
    }
}
