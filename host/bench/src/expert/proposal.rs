//! The check of message 1. It goes from the newest row down: the first row in the way has the greatest stamp, and no row at
//! or below the least version read can matter.

use super::image::{Accesses, ACCESS, HEADER, ROW};
use super::message::Body;
use super::result::{ABORT, ABSTAIN, OK, RETRY};
use super::{u32_at, u64_at};

/// What is asked of every row.
struct Wanted<'a> {
    reads: &'a [u8],
    /// A bit for each register.
    read: u64,
    written: u64,
    least_version: u64,
}

/// What was found so far, short of a committed write that ends the check.
#[derive(Default)]
struct Found {
    prepared_in_the_way: bool,
    committed_in_the_way: bool,
    greatest: u64,
}

/// The result and its retry stamp, for a stamp that is not held and would stand at a place.
pub fn proposal(table: &[u8], rows: usize, place: usize, body: Body) -> (u8, u64) {
    let wanted = Wanted::of(body);
    let (earlier, later) = table[HEADER..HEADER + ROW * rows].split_at(ROW * place);
    let mut found = Found::default();
    for head in later.chunks_exact(ROW).rev() {
        if wanted.overwritten_or_in_the_way(table, head, &mut found) {
            return (ABORT, 0);
        }
    }
    for head in earlier.chunks_exact(ROW).rev() {
        if u64_at(head, 0) <= wanted.least_version {
            break;
        }
        if wanted.overwritten(table, head, &mut found) {
            return (ABORT, 0);
        }
    }
    match found {
        Found {
            committed_in_the_way: true,
            greatest,
            ..
        } => (RETRY, greatest),
        Found {
            prepared_in_the_way: true,
            ..
        } => (ABSTAIN, 0),
        _ => (OK, 0),
    }
}

/// How a row stands to the check.
#[derive(Clone, Copy, PartialEq, Eq)]
enum Standing {
    Committed,
    Prepared,
    Neither,
}

fn standing(head: &[u8]) -> Standing {
    match (head[22], head[23]) {
        (_, 3) => Standing::Committed,
        (1 | 5, 0..=2) => Standing::Prepared,
        _ => Standing::Neither,
    }
}

/// The reads and the writes of a row.
fn accesses<'a>(table: &'a [u8], head: &[u8]) -> (&'a [u8], &'a [u8]) {
    let offset = u32_at(head, 16) as usize;
    let (reads, writes) = (usize::from(head[20]), usize::from(head[21]));
    let body = &table[offset..offset + ACCESS * (reads + writes)];
    body.split_at(ACCESS * reads)
}

fn registers(accesses: &[u8]) -> u64 {
    Accesses(accesses).fold(0, |bits, access| bits | 1 << (access[0] & 63))
}

impl<'a> Wanted<'a> {
    fn of(body: Body<'a>) -> Wanted<'a> {
        let reads = body.reads();
        let versions = Accesses(reads).map(|read| u64_at(read, 1));
        Wanted {
            reads,
            read: registers(reads),
            written: registers(body.writes()),
            least_version: versions.min().unwrap_or(u64::MAX),
        }
    }

    /// Whether a committed row with an earlier stamp wrote over what was read.
    fn overwritten(&self, table: &[u8], head: &[u8], found: &mut Found) -> bool {
        let standing = standing(head);
        if standing == Standing::Neither {
            return false;
        }
        let (_, writes) = accesses(table, head);
        self.is_stale(writes, head) && found.stale(standing)
    }

    /// The same of a row with a later stamp, which is also in the way if it has a register that is written.
    fn overwritten_or_in_the_way(&self, table: &[u8], head: &[u8], found: &mut Found) -> bool {
        let standing = standing(head);
        if standing == Standing::Neither {
            return false;
        }
        let (reads, writes) = accesses(table, head);
        // Once a committed row is in the way, the greatest stamp is known, and only an ABORT can still change the result.
        let is_open = !found.committed_in_the_way;
        if is_open && self.written & (registers(reads) | registers(writes)) != 0 {
            found.in_the_way(standing, u64_at(head, 0));
        }
        self.is_stale(writes, head) && found.stale(standing)
    }

    /// Whether one of the writes is of a register that was read, and later than the version read.
    fn is_stale(&self, writes: &[u8], head: &[u8]) -> bool {
        if self.read & registers(writes) == 0 {
            return false;
        }
        let stamp = u64_at(head, 0);
        let is_read = |write: &[u8; ACCESS]| {
            let mut reads = Accesses(self.reads);
            reads.any(|read| read[0] == write[0] && u64_at(read, 1) < stamp)
        };
        Accesses(writes).any(is_read)
    }
}

impl Found {
    /// A stale read: that is the end if the write is committed.
    fn stale(&mut self, standing: Standing) -> bool {
        self.prepared_in_the_way |= standing == Standing::Prepared;
        standing == Standing::Committed
    }

    /// The first that is found has the greatest stamp.
    fn in_the_way(&mut self, standing: Standing, stamp: u64) {
        self.greatest = self.greatest.max(stamp);
        match standing {
            Standing::Committed => self.committed_in_the_way = true,
            _ => self.prepared_in_the_way = true,
        }
    }
}
