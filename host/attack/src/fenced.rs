//! Memory that is lent to a call so that a step too far is seen at once. Either a fence stands right before the lent bytes or
//! right behind them, memory that can be neither read nor written; or the bytes are an allocation of their own, of just this
//! length, for a tool that watches allocations.

/// A page or more, and a whole number of pages, on every machine that is common.
const FENCE: usize = 65_536;

// As Linux numbers them, on x86-64 and Arm alike.
const NO_ACCESS: i32 = 0;
const READ: i32 = 1;
const READ_AND_WRITE: i32 = 3;
/// Private, and of no file.
const PRIVATE: i32 = 0x22;

extern "C" {
    fn mmap(at: *mut u8, length: usize, access: i32, kind: i32, file: i32, from: i64) -> *mut u8;
    fn mprotect(at: *mut u8, length: usize, access: i32) -> i32;
    fn munmap(at: *mut u8, length: usize) -> i32;
}

/// Which fence the lent bytes touch.
#[derive(Clone, Copy, Debug, PartialEq, Eq)]
pub enum Touching {
    Before,
    Behind,
}

/// Of what kind the memory is.
#[derive(Clone, Copy, Debug, PartialEq, Eq)]
pub enum Memory {
    Fenced,
    Allocated,
}

/// Room for one lent buffer at a time.
pub struct Room {
    memory: Memory,
    /// Where the fence before the room begins, and how long the room is.
    mapped: *mut u8,
    length: usize,
    /// The part of the room that may only be read now: where it begins, and its length.
    only_read: Option<(usize, usize)>,
    allocated: Vec<u8>,
}

impl Room {
    /// Room for so many bytes at most.
    pub fn for_bytes(memory: Memory, most: usize) -> Room {
        let length = (most / FENCE + 1) * FENCE;
        let whole = length + 2 * FENCE;
        // Fresh memory that nobody else has; all of it is a fence at first.
        let mapped = unsafe { mmap(std::ptr::null_mut(), whole, NO_ACCESS, PRIVATE, -1, 0) };
        assert!(mapped as isize != -1, "no memory for {} bytes", whole);
        let room = Room {
            memory,
            mapped,
            length,
            only_read: None,
            allocated: Vec::new(),
        };
        room.allow((0, length), READ_AND_WRITE);
        room
    }

    fn begin(&self) -> *mut u8 {
        // Inside what was mapped.
        unsafe { self.mapped.add(FENCE) }
    }

    /// What may be done with a part of the room, of whole pages.
    fn allow(&self, (lead, length): (usize, usize), access: i32) {
        // The part is mapped, and no slice of it is in anybody's hands: each borrows the room.
        let failed = unsafe { mprotect(self.begin().add(lead), length, access) };
        assert_eq!(failed, 0, "the room cannot be protected");
    }

    /// How far from the room's begin so many bytes stand that touch a fence.
    fn lead(&self, length: usize, touching: Touching) -> usize {
        assert!(length <= self.length, "no room for {} bytes", length);
        match touching {
            Touching::Before => 0,
            Touching::Behind => self.length - length,
        }
    }

    /// A copy of the bytes that may be written over.
    pub fn lend(&mut self, bytes: &[u8], touching: Touching) -> &mut [u8] {
        if self.memory == Memory::Allocated {
            self.allocated = bytes.to_vec();
            return &mut self.allocated;
        }
        if let Some(part) = self.only_read.take() {
            self.allow(part, READ_AND_WRITE);
        }
        let lead = self.lead(bytes.len(), touching);
        // The room may be written, is long enough, and is borrowed for as long as the slice lives.
        let lent = unsafe { std::slice::from_raw_parts_mut(self.begin().add(lead), bytes.len()) };
        lent.copy_from_slice(bytes);
        lent
    }

    /// A copy of the bytes that may be read alone: whoever writes there is stopped by the machine.
    pub fn lend_for_reading(&mut self, bytes: &[u8], touching: Touching) -> &[u8] {
        self.lend(bytes, touching);
        if self.memory == Memory::Allocated {
            return &self.allocated;
        }
        let lead = self.lead(bytes.len(), touching);
        if !bytes.is_empty() {
            // Whole pages, which a fence is long enough for.
            let first = lead / FENCE * FENCE;
            let pages = (lead + bytes.len() - first + FENCE - 1) / FENCE;
            self.allow((first, pages * FENCE), READ);
            self.only_read = Some((first, pages * FENCE));
        }
        // The room may be read, and is borrowed for as long as the slice lives.
        unsafe { std::slice::from_raw_parts(self.begin().add(lead), bytes.len()) }
    }
}

impl Drop for Room {
    fn drop(&mut self) {
        // All that was mapped, which no slice can outlive. If it fails, the memory stays.
        unsafe { munmap(self.mapped, self.length + 2 * FENCE) };
    }
}

/// What no call may do, to see that the machine stops it.
#[derive(Clone, Copy, Debug, PartialEq, Eq)]
pub enum Trespass {
    ReadBefore,
    ReadBehind,
    WriteBefore,
    WriteBehind,
    WriteWhatIsRead,
}

/// Goes a step too far. In fenced memory the machine ends the program; if it does not, this returns what was found there.
pub fn trespass(memory: Memory, how: Trespass) -> u8 {
    let mut room = Room::for_bytes(memory, 24);
    let touching = match how {
        Trespass::ReadBefore | Trespass::WriteBefore => Touching::Before,
        _ => Touching::Behind,
    };
    let lent = match how {
        Trespass::WriteWhatIsRead => room.lend_for_reading(&[7; 24], touching).as_ptr(),
        _ => room.lend(&[7; 24], touching).as_ptr(),
    };
    // Not sound, and meant so: one byte beside what was lent, or a write to what is for reading.
    unsafe {
        match how {
            Trespass::ReadBefore => return lent.sub(1).read_volatile(),
            Trespass::ReadBehind => return lent.add(24).read_volatile(),
            Trespass::WriteBefore => (lent as *mut u8).sub(1).write_volatile(9),
            Trespass::WriteBehind => (lent as *mut u8).add(24).write_volatile(9),
            Trespass::WriteWhatIsRead => (lent as *mut u8).write_volatile(9),
        }
    }
    9
}
