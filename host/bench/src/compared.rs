//! A box's answer with the rows that its search compared, beside the answer without them.

use crate::answer::Answering;
use crate::{Side, Work, ANSWER, LIBRARY};
use samples::table::{HEADER_LENGTH, ROW_LENGTH};

/// What is answered is the message of that kind, in the same tables. Message 1 has a new stamp, and message 2 one that is held.
pub struct Comparing<const KIND: u8> {
    asked: Answering<KIND>,
    /// The answer as the call codes it: the number 0, and the rows compared.
    word: u64,
}

impl<const KIND: u8> Work for Comparing<KIND> {
    const NAME: &'static str = if KIND == 1 { "compared1" } else { "compared2" };
    const SIZES: [usize; 3] = Answering::<KIND>::SIZES;
    const CALL: Option<&'static str> = Some("sprondilu_answer_compared");
    const SIDES: &'static [Side] = &[LIBRARY, ANSWER];
    const ABOUT: &'static str = if KIND == 1 {
        "\
`sprondilu_answer_compared` of the library answers message 1 with a new stamp, and also says how many rows the search
for the stamp compared. The input is that of answer1. Beside it stands, as answer, `sprondilu_answer` of the library,
which leaves the same bytes and does not say it."
    } else {
        "\
The same two calls answer message 2 with the stamp of the last row. The input is that of answer2."
    };

    fn of(rows: usize) -> Comparing<KIND> {
        let asked: Answering<KIND> = Answering::of(rows);
        let compared = steps(&stamps(&asked.before), number_in(&asked.message[1..9]));
        Comparing {
            asked,
            word: compared << 16,
        }
    }

    fn bytes(&self) -> usize {
        self.asked.bytes()
    }

    fn get_ready(&mut self, times: usize) {
        self.asked.get_ready(times);
    }

    fn done_by(&mut self, side: Side, times: usize) {
        let answer_word = match side.answer_word {
            Some(answer_word) => answer_word,
            None => return self.asked.done_by(side, times),
        };
        for (table, reply) in &mut self.asked.lent[..times] {
            let word = answer_word(table, &self.asked.message, reply);
            assert_eq!(word, self.word, "{} answered otherwise", side.name);
        }
    }

    fn assert_done(&self, side: Side) {
        self.asked.assert_done(side);
    }
}

fn number_in(bytes: &[u8]) -> u64 {
    bytes
        .iter()
        .fold(0, |number, byte| number << 8 | u64::from(*byte))
}

/// The stamps of the rows of an image.
fn stamps(image: &[u8]) -> Vec<u64> {
    let rows = number_in(&image[4..8]) as usize;
    let rows = image[HEADER_LENGTH..].chunks(ROW_LENGTH).take(rows);
    rows.map(|row| number_in(&row[..8])).collect()
}

/// How many rows halving compares: of those left the one with half as many before it, rounded down, and then those behind
/// it, or before it, unless it has the stamp.
fn steps(stamps: &[u64], stamp: u64) -> u64 {
    let (before, rest) = stamps.split_at(stamps.len() / 2);
    match rest.split_first() {
        None => 0,
        Some((middle, _)) if *middle == stamp => 1,
        Some((middle, behind)) if *middle < stamp => 1 + steps(behind, stamp),
        Some(_) => 1 + steps(before, stamp),
    }
}

#[cfg(test)]
mod tests {
    use super::{steps, Comparing};
    use crate::Work;

    #[test]
    fn the_rows_compared_are_those_that_are_counted_by_hand() {
        for (stamp, compared) in [(1, 3), (2, 2), (3, 1), (4, 3), (5, 2), (6, 2)] {
            assert_eq!(steps(&[1, 2, 3, 4, 5], stamp), compared, "{}", stamp);
        }
        assert_eq!(steps(&[], 1), 0);
    }

    /// The new stamp lies in the middle of 63 and 255 rows, behind the row that is compared first, and before that row in the
    /// middle of 510. The stamp of the last of 64, 256 and 512 rows lies behind that row. So 31, 127 and 255 rows are left, and
    /// half of those each time: 15, 7, 3, 1.
    #[test]
    fn as_many_rows_are_compared_as_halves_are_left() {
        let compared = [6, 8, 9].map(|rows| rows << 16);
        let words_1 = Comparing::<1>::SIZES.map(|rows| Comparing::<1>::of(rows).word);
        let words_2 = Comparing::<2>::SIZES.map(|rows| Comparing::<2>::of(rows).word);
        assert_eq!([words_1, words_2], [compared, compared]);
    }
}
