//! How deep the library's calls go on the stack: each runs on a region of its own, which is painted before the call. What is
//! found is the deepest byte that is not as it was painted.

use crate::{Side, Work, LIBRARY};
use boundary::{library, Record};
use std::arch::asm;
use std::cell::Cell;

/// Far more than any call is known to use.
const REGION_BYTES: usize = 64 * 1024;

/// If so much of the region is left as it was painted, then no call can have gone past its end.
const SPARE_BYTES: usize = 16 * 1024;

/// A stack begins at a multiple of 16.
#[repr(C, align(16))]
struct Region([u8; REGION_BYTES]);

/// A byte may be written and be as it was painted. So every work is done with one paint and with another.
const PAINTS: [u8; 2] = [0xa5, 0x5a];

thread_local! {
    static PAINT: Cell<u8> = const { Cell::new(0) };
    static DEEPEST: Cell<usize> = const { Cell::new(0) };
}

/// The library, called on a painted region.
const PAINTED: Side = Side {
    name: "library on a painted stack",
    valid_answer,
    answer,
    answer_word: Some(answer_word),
    merge,
    count,
    count_records: Some(count_records),
    ..LIBRARY
};

/// How many bytes of stack the library writes at most for this work, of its greatest size.
pub fn deepest<W: Work>() -> usize {
    let mut work = W::of(W::SIZES[W::SIZES.len() - 1]);
    let mut done = || {
        work.get_ready(1);
        work.done_by(PAINTED, 1);
        work.assert_done(PAINTED);
    };
    deepest_of(&mut done)
}

/// How many bytes of stack it takes to make a fresh table.
pub fn deepest_of_fresh() -> usize {
    let mut table = vec![0; samples::TABLE_BYTES];
    let at = table.as_mut_ptr() as usize;
    let words = [at, table.len(), 7, 6, 0, 0];
    deepest_of(&mut || {
        // The buffer is as long as is said, and nobody else has it.
        let number = unsafe { called(library::sprondilu_fresh as *const (), words) };
        assert_eq!(number as u8, 0, "there is no fresh table");
    })
}

/// The deepest of all calls on a painted region that are made here, with either paint.
fn deepest_of(done: &mut dyn FnMut()) -> usize {
    DEEPEST.with(|deepest| deepest.set(0));
    for paint in PAINTS {
        PAINT.with(|kept| kept.set(paint));
        done();
    }
    DEEPEST.with(Cell::get)
}

fn valid_answer(bytes: &[u8]) -> u64 {
    let words = [bytes.as_ptr() as usize, bytes.len(), 0, 0, 0, 0];
    // Here and below: slices are valid for their lengths, and nobody else has those that are written.
    unsafe { called(library::sprondilu_valid as *const (), words) as u64 }
}

/// What both calls that answer a message are given.
fn lent(table: &mut [u8], message: &[u8], reply: &mut [u8]) -> [usize; 6] {
    [
        table.as_mut_ptr() as usize,
        table.len(),
        message.as_ptr() as usize,
        message.len(),
        reply.as_mut_ptr() as usize,
        reply.len(),
    ]
}

fn answer(table: &mut [u8], message: &[u8], reply: &mut [u8]) -> u8 {
    let words = lent(table, message, reply);
    unsafe { called(library::sprondilu_answer as *const (), words) as u8 }
}

fn answer_word(table: &mut [u8], message: &[u8], reply: &mut [u8]) -> u64 {
    let words = lent(table, message, reply);
    unsafe { called(library::sprondilu_answer_compared as *const (), words) as u64 }
}

fn merge(run: &[u8], view: u32, out: &mut [u8]) -> u8 {
    let (from, to) = (run.as_ptr() as usize, out.as_mut_ptr() as usize);
    let words = [from, run.len(), view as usize, to, out.len(), 0];
    unsafe { called(library::sprondilu_merge as *const (), words) as u8 }
}

fn count(n: u8, replies: &[u8]) -> u64 {
    let from = replies.as_ptr() as usize;
    let words = [usize::from(n), from, replies.len(), 0, 0, 0];
    unsafe { called(library::sprondilu_count as *const (), words) as u64 }
}

fn count_records(n: u8, records: &[Record]) -> u64 {
    let from = records.as_ptr() as usize;
    let words = [usize::from(n), from, records.len(), 0, 0, 0];
    unsafe { called(library::sprondilu_count_records as *const (), words) as u64 }
}

/// Calls a function of C on a painted region and keeps how deep it went. Its words are numbers and pointers, at most six, so
/// that all of them are in registers.
unsafe fn called(function: *const (), words: [usize; 6]) -> usize {
    let paint = PAINT.with(Cell::get);
    let mut region = Box::new(Region([paint; REGION_BYTES]));
    let top = region.0.as_mut_ptr_range().end;
    let returned = called_on(top, function, words);
    let left = region.0.iter().take_while(|byte| **byte == paint).count();
    assert!(left >= SPARE_BYTES, "the region is too small");
    DEEPEST.with(|deepest| deepest.set(deepest.get().max(REGION_BYTES - left)));
    returned
}

/// Calls a function with its stack below this place. What it returns stands in one register.
#[cfg(target_arch = "x86_64")]
#[inline(never)]
unsafe fn called_on(top: *mut u8, function: *const (), words: [usize; 6]) -> usize {
    let returned;
    asm!(
        "mov r12, rsp",
        "mov rsp, {top}",
        "call {function}",
        "mov rsp, r12",
        top = in(reg) top,
        function = in(reg) function,
        in("rdi") words[0],
        in("rsi") words[1],
        in("rdx") words[2],
        in("rcx") words[3],
        in("r8") words[4],
        in("r9") words[5],
        lateout("rax") returned,
        out("r12") _,
        clobber_abi("C"),
    );
    returned
}

#[cfg(target_arch = "aarch64")]
#[inline(never)]
unsafe fn called_on(top: *mut u8, function: *const (), words: [usize; 6]) -> usize {
    let returned;
    asm!(
        "mov x20, sp",
        "mov sp, {top}",
        "blr {function}",
        "mov sp, x20",
        top = in(reg) top,
        function = in(reg) function,
        inlateout("x0") words[0] => returned,
        in("x1") words[1],
        in("x2") words[2],
        in("x3") words[3],
        in("x4") words[4],
        in("x5") words[5],
        out("x20") _,
        clobber_abi("C"),
    );
    returned
}

#[cfg(test)]
mod tests {
    use super::{called, deepest_of, deepest_of_fresh, PAINTS};
    use crate::works;
    use std::arch::global_asm;

    // Writes a byte so many bytes below the place where its caller's stack ends, and returns how many.
    #[cfg(target_arch = "x86_64")]
    global_asm!(
        ".globl bench_writes_below",
        "bench_writes_below:",
        "lea r10, [rsp + 8]",
        "sub r10, rdi",
        "mov byte ptr [r10], sil",
        "mov rax, rdi",
        "ret",
    );

    #[cfg(target_arch = "aarch64")]
    global_asm!(
        ".globl bench_writes_below",
        "bench_writes_below:",
        "sub x9, sp, x0",
        "strb w1, [x9]",
        "ret",
    );

    extern "C" {
        fn bench_writes_below(depth: usize, byte: u8) -> usize;
    }

    /// A byte may have the value of either paint: then it is found with the other.
    #[test]
    fn a_known_depth_is_found() {
        for depth in [16, 100, 1_000, 10_000] {
            for byte in [0, PAINTS[0], PAINTS[1]] {
                let words = [depth, usize::from(byte), 0, 0, 0, 0];
                let function = bench_writes_below as *const ();
                let found = deepest_of(&mut || {
                    assert_eq!(unsafe { called(function, words) }, depth);
                });
                assert_eq!(found, depth);
            }
        }
    }

    #[test]
    fn every_public_call_is_looked_at() {
        let mut calls: Vec<&str> = works().filter_map(|work| work.call).collect();
        calls.dedup();
        let others = [
            "sprondilu_valid",
            "sprondilu_answer",
            "sprondilu_answer_compared",
            "sprondilu_merge",
            "sprondilu_count",
            "sprondilu_count_records",
        ];
        assert_eq!(calls, others);
        assert!(deepest_of_fresh() < 1_000);
        for work in works().filter(|work| work.call.is_some()) {
            let deepest = (work.deepest)();
            assert!((1..4_000).contains(&deepest), "{}: {}", work.name, deepest);
        }
    }
}
