//! The coordinator's count: what all sides make of the replies of a whole group.

use crate::{Side, Work, BYTES, EXPERT, LIBRARY, SECOND, TWIN};
use samples::replies::{laid, Record};

/// Replies of all boxes of a group. Either all agree, or each is RETRY with a stamp of its own.
/// They are bytes; or they are records for a side that can count those, and bytes for the others.
pub struct Counting<const SAME: bool, const RECORDS: bool> {
    n: u8,
    replies: Vec<u8>,
    records: Vec<boundary::Record>,
    /// As the second program has it.
    answer: u64,
}

/// A reply as C lays it out.
fn in_c(record: &Record) -> boundary::Record {
    boundary::Record {
        box_number: record.box_number,
        view: record.view,
        result: record.result.0,
        retry: record.result.1,
        is_final: record.is_final,
    }
}

impl<const SAME: bool, const RECORDS: bool> Work for Counting<SAME, RECORDS> {
    const NAME: &'static str = match (SAME, RECORDS) {
        (true, false) => "count-same",
        (false, false) => "count-apart",
        (true, true) => "records-same",
        (false, true) => "records-apart",
    };
    const SIZES: [usize; 3] = [3, 5, 7];
    const UNIT: &'static str = "boxes";
    const CALL: Option<&'static str> = Some(if RECORDS {
        "sprondilu_count_records"
    } else {
        "sprondilu_count"
    });
    const SIDES: &'static [Side] = if RECORDS {
        &[LIBRARY, TWIN, SECOND, EXPERT, BYTES]
    } else {
        &[LIBRARY, TWIN, SECOND, EXPERT]
    };
    const ABOUT: &'static str = match (SAME, RECORDS) {
        (true, false) => {
            "\
`sprondilu_count` of the library counts replies that all agree, against the same walks in safe Rust. The input is a
tentative OK of each box of the group in one view, so that the answer is fast OK. No buffer was cleared, since the
call writes nothing."
        }
        (false, false) => {
            "\
The same sides count replies of which no two agree. The input is RETRY of each box with a stamp of its own, so that
the answer is slow RETRY."
        }
        (true, true) => {
            "\
`sprondilu_count_records` of the library counts the replies that all agree, lent as records. The twin is that of
`sprondilu_count`, which reads the same replies from their bytes. The second program makes each record into a reply of
its own. The bytes printed are those of the records. Beside it stands, as bytes, `sprondilu_count` of the library."
        }
        (false, true) => {
            "The same sides count the replies of which no two agree, lent as records."
        }
    };

    fn of(boxes: usize) -> Counting<SAME, RECORDS> {
        let record = |box_number: u8| Record {
            box_number,
            view: 9,
            result: if SAME {
                (1, 0)
            } else {
                (4, 65_536 * (1 + u64::from(box_number)))
            },
            is_final: 0,
        };
        let n = boxes as u8;
        let records: Vec<Record> = (0..n).map(record).collect();
        let replies = laid(&records);
        let answer = reference::count(n, &replies);
        let records = records.iter().map(in_c).collect();
        Counting {
            n,
            replies,
            records,
            answer,
        }
    }

    fn bytes(&self) -> usize {
        if RECORDS {
            std::mem::size_of_val(&self.records[..])
        } else {
            self.replies.len()
        }
    }

    /// A count changes nothing, so there is nothing to get ready.
    fn get_ready(&mut self, _times: usize) {}

    /// A side is called by a pointer that the compiler does not see through, so it cannot take one answer for all.
    fn done_by(&mut self, side: Side, times: usize) {
        let right = |answer| assert_eq!(answer, self.answer, "{} counted otherwise", side.name);
        match side.count_records {
            Some(count) if RECORDS => {
                (0..times).for_each(|_| right(count(self.n, &self.records)));
            }
            _ => (0..times).for_each(|_| right((side.count)(self.n, &self.replies))),
        }
    }

    /// Each answer was looked at when it came.
    fn assert_done(&self, _side: Side) {}
}

#[cfg(test)]
mod tests {
    use super::Counting;
    use crate::Work;

    #[test]
    fn what_is_measured_is_fast_ok_and_slow_retry() {
        for boxes in [3, 5, 7] {
            assert_eq!(Counting::<true, true>::of(boxes).answer, 0x500);
            let greatest = 65_536 * boxes as u64;
            let apart = Counting::<false, true>::of(boxes).answer;
            assert_eq!(apart, 0x1200 | greatest << 16);
        }
    }
}
