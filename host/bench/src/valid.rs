//! Validity of an image: what all sides judge.

use crate::{Side, Work, EXPERT, LIBRARY, SECOND, TWIN};
use samples::{random, Dice};

/// The image of a table by the rules whose rows all have the longest bodies.
pub struct Judging {
    image: Vec<u8>,
    /// How often the image was judged.
    turns: u64,
}

impl Work for Judging {
    const NAME: &'static str = "valid";
    const CALL: Option<&'static str> = Some("sprondilu_valid");
    const SIDES: &'static [Side] = &[LIBRARY, TWIN, SECOND, EXPERT];
    const ABOUT: &'static str = "\
`sprondilu_valid` of the library judges an image, against the same walk in safe Rust. The input is a table by the
rules whose rows have 4 reads and 4 writes each, lent whole. All sides judge the same bytes, in turns. No buffer was
cleared, since the call writes nothing. The second program parses the image into a table of its own, and gives that up
again.";

    fn of(rows: usize) -> Judging {
        let image = random::full_table(&mut Dice::seeded(1), rows).image();
        Judging { image, turns: 0 }
    }

    fn bytes(&self) -> usize {
        self.image.len()
    }

    /// A judgement changes nothing, so there is nothing to get ready.
    fn get_ready(&mut self, _times: usize) {}

    /// The last write gets another value each time, as it may have any: so the compiler cannot take one answer for all,
    /// and all sides find the same bytes as warm as each other.
    fn done_by(&mut self, side: Side, times: usize) {
        let expected = (self.image.len() as u64) << 16;
        let last_value = self.image.len() - 8;
        for _ in 0..times {
            self.turns += 1;
            self.image[last_value..].copy_from_slice(&self.turns.to_be_bytes());
            let answer = (side.valid_answer)(&self.image);
            assert_eq!(answer, expected, "{} refused the image", side.name);
        }
    }

    /// Each answer was looked at when it came.
    fn assert_done(&self, _side: Side) {}
}
