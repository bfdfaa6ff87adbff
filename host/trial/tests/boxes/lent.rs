//! A lent buffer, twice: one for the library and one for the second program. What the two leave in it is compared.

use samples::Dice;
use std::ops::Range;

/// Bytes that are not lent, before and behind what is.
const AROUND: usize = 64;

pub struct Lent {
    library: Vec<u8>,
    second: Vec<u8>,
    /// What stands there until somebody writes.
    dirt: Vec<u8>,
    /// Where the lent part begins: it may begin at any address.
    begin: usize,
}

impl Lent {
    /// Dirty bytes, of which so many at most are lent.
    pub fn dirty(dice: &mut Dice, longest: usize) -> Lent {
        let begin = AROUND + dice.index(AROUND);
        let length = begin + longest + AROUND;
        // No zero among the dirt, so that clearing is seen.
        let dirt: Vec<u8> = (0..length).map(|_| 1 + dice.below(255) as u8).collect();
        Lent {
            library: dirt.clone(),
            second: dirt.clone(),
            dirt,
            begin,
        }
    }

    /// Nothing but dirt again.
    pub fn make_dirty(&mut self) {
        self.library.copy_from_slice(&self.dirt);
        self.second.copy_from_slice(&self.dirt);
    }

    /// The longest part that can be lent.
    pub fn longest(&self) -> usize {
        self.dirt.len() - self.begin - AROUND
    }

    fn part(&self, length: usize) -> Range<usize> {
        assert!(length <= self.longest(), "{} bytes", length);
        self.begin..self.begin + length
    }

    pub fn of_library(&mut self, length: usize) -> &mut [u8] {
        let part = self.part(length);
        &mut self.library[part]
    }

    pub fn of_second(&mut self, length: usize) -> &mut [u8] {
        let part = self.part(length);
        &mut self.second[part]
    }

    /// What both hold, as far as it can be lent.
    pub fn held(&self) -> &[u8] {
        &self.second[self.part(self.longest())]
    }

    /// Puts bytes into both.
    pub fn put(&mut self, place: usize, bytes: &[u8]) {
        let end = place + bytes.len();
        self.of_library(end)[place..].copy_from_slice(bytes);
        self.of_second(end)[place..].copy_from_slice(bytes);
    }

    /// The first byte on which the two programs differ, lent or not, counted from where the lent part begins.
    pub fn differs_at(&self) -> Option<isize> {
        if self.library == self.second {
            return None;
        }
        let mut pairs = self.library.iter().zip(&self.second);
        let place = pairs.position(|(one, other)| one != other);
        place.map(|place| place as isize - self.begin as isize)
    }
}
