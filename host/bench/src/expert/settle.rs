//! The checks of a merge. Each turn goes up all rows once and keeps for each register what decides: the newest write below,
//! and the greatest later reader of something older. So a check looks at its own accesses, and at no other row.

use super::gather::{Row, AGREED, OPEN};
use super::image::{Accesses, ACCESS, MOST_ROWS};
use super::result::{ABORT, ABSTAIN, FINAL, OK, RETRY};
use super::u64_at;

/// What decides about one register, for the row that the turn has come to. Stamps, and 0 for none.
#[derive(Clone, Copy, Default)]
struct Marks {
    /// The newest write below, committed and prepared.
    committed_write: u64,
    prepared_write: u64,
    /// The greatest of the committed readers, and of all, that read something older than this row. Those below this row are
    /// among them, and do not matter, since only what is greater than its stamp is asked for.
    committed_reader: u64,
    reader: u64,
}

type Registers = [Marks; 64];

/// Settles what is still to be checked: the agreed rows, then the open ones.
pub fn settle(run: &[u8], rows: &mut [Row]) {
    for turn in [AGREED, OPEN] {
        if rows.iter().any(|row| row.prepare == turn) {
            take_turn(run, rows, turn);
        }
    }
}

fn take_turn(run: &[u8], rows: &mut [Row], turn: u8) {
    let mut registers = [Marks::default(); 64];
    let is_accepted = |row: &Row| row.is_committed() || row.is_prepared();
    if rows.iter().any(is_accepted) {
        let readers = Readers::among(run, rows);
        for place in 0..rows.len() {
            readers.wake(run, rows, place, &mut registers);
            step::<true>(run, &mut rows[place], turn, &mut registers);
        }
    } else {
        // Nothing was settled before, so that no row has a later reader.
        for row in rows {
            step::<false>(run, row, turn, &mut registers);
        }
    }
}

/// Checks the row if it is its turn, and notes what it writes if it is accepted.
#[inline(always)]
fn step<const READERS: bool>(run: &[u8], row: &mut Row, turn: u8, registers: &mut Registers) {
    let is_due = row.prepare == turn;
    if !is_due && !row.is_committed() && !row.is_prepared() {
        return;
    }
    let (reads, writes) = row.accesses(run);
    if is_due {
        let (result, retry) = checked::<READERS>(row.stamp, reads, writes, registers);
        (row.prepare, row.retry) = (result + FINAL, retry);
        if result != OK {
            return;
        }
    }
    let is_committed = row.is_committed();
    for write in Accesses(writes) {
        let marks = &mut registers[usize::from(write[0] & 63)];
        if is_committed {
            marks.committed_write = row.stamp;
        } else {
            marks.prepared_write = row.stamp;
        }
    }
}

/// The older check, of document 01 with the retry stamp of document 02.
#[inline(always)]
fn checked<const READERS: bool>(
    stamp: u64,
    reads: &[u8],
    writes: &[u8],
    registers: &Registers,
) -> (u8, u64) {
    let mut newer_write = false;
    for read in Accesses(reads) {
        let marks = &registers[usize::from(read[0] & 63)];
        let version = u64_at(read, 1);
        if marks.committed_write > version {
            return (ABORT, 0);
        }
        newer_write |= marks.prepared_write > version;
    }
    let (mut committed_reader, mut reader) = (0, 0);
    for write in Accesses(if READERS { writes } else { &[] }) {
        let marks = &registers[usize::from(write[0] & 63)];
        committed_reader = marks.committed_reader.max(committed_reader);
        reader = marks.reader.max(reader);
    }
    if committed_reader > stamp {
        (RETRY, reader)
    } else if newer_write || reader > stamp {
        (ABSTAIN, 0)
    } else {
        (OK, 0)
    }
}

/// The end of a chain.
const NONE: u16 = u16::MAX;

/// The reads of accepted rows, each kept for the first row above the version that it saw: from there on it is older than
/// what a row writes. A read is named by the place of its row, times 4, and by its own place there.
struct Readers {
    first: [u16; MOST_ROWS],
    next: [u16; 4 * MOST_ROWS],
}

impl Readers {
    fn among(run: &[u8], rows: &[Row]) -> Readers {
        let mut readers = Readers {
            first: [NONE; MOST_ROWS],
            next: [NONE; 4 * MOST_ROWS],
        };
        for (place, row) in rows.iter().enumerate() {
            if !row.is_committed() && !row.is_prepared() {
                continue;
            }
            let (reads, _) = row.accesses(run);
            for (read, access) in Accesses(reads).enumerate() {
                let version = u64_at(access, 1);
                let wakes = rows.partition_point(|other| other.stamp <= version);
                // What wakes at its own row is later than none.
                if wakes < place {
                    let name = 4 * place + read;
                    readers.next[name] = readers.first[wakes];
                    readers.first[wakes] = name as u16;
                }
            }
        }
        readers
    }

    /// Notes the readers that have read something older than the row at this place, and not than the one before.
    fn wake(&self, run: &[u8], rows: &[Row], place: usize, registers: &mut Registers) {
        let mut name = self.first[place];
        while name != NONE {
            let row = &rows[usize::from(name / 4)];
            let access = row.body as usize + ACCESS * usize::from(name % 4);
            let marks = &mut registers[usize::from(run[access] & 63)];
            marks.reader = marks.reader.max(row.stamp);
            if row.is_committed() {
                marks.committed_reader = marks.committed_reader.max(row.stamp);
            }
            name = self.next[usize::from(name)];
        }
    }
}
