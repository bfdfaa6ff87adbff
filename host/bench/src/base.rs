//! The library of an earlier commit as one more side. Its calls have the names of today's, so that it cannot be linked
//! beside them: it is loaded from a shared object while the program runs.

use crate::{refuse, Side};
use boundary::Record;
use std::ffi::{c_void, CString};
use std::mem::transmute;
use std::os::raw::{c_char, c_int};
use std::sync::atomic::{AtomicPtr, Ordering};

/// That library. It has no other calls than these. Whoever takes its turn has loaded it before.
pub const BASE: Side = Side {
    name: "base",
    valid_answer,
    answer,
    answer_word: None,
    merge,
    count,
    count_records: Some(count_records),
    add_row: None,
    held_body: None,
};

/// A call of the library by its name, and where it is once it was loaded.
struct Call {
    name: &'static str,
    at: AtomicPtr<c_void>,
}

const fn call(name: &'static str) -> Call {
    let at = AtomicPtr::new(std::ptr::null_mut());
    Call { name, at }
}

static VALID: Call = call("sprondilu_valid");
static ANSWER: Call = call("sprondilu_answer");
static MERGE: Call = call("sprondilu_merge");
static COUNT: Call = call("sprondilu_count");
static COUNT_RECORDS: Call = call("sprondilu_count_records");

extern "C" {
    fn dlopen(path: *const c_char, flags: c_int) -> *mut c_void;
    fn dlsym(library: *mut c_void, name: *const c_char) -> *mut c_void;
}

/// All addresses are looked up at once.
const RTLD_NOW: c_int = 2;

/// Loads the library from a shared object, for as long as the program runs.
pub fn load(path: &str) {
    let file = CString::new(path).expect("a path without a zero byte");
    // The text ends in a zero byte, and what is loaded has nothing to run but these calls.
    let library = unsafe { dlopen(file.as_ptr(), RTLD_NOW) };
    if library.is_null() {
        refuse(&format!("{} cannot be loaded; give its whole path", path));
    }
    for call in [&VALID, &ANSWER, &MERGE, &COUNT, &COUNT_RECORDS] {
        let name = CString::new(call.name).expect("a name without a zero byte");
        let at = unsafe { dlsym(library, name.as_ptr()) };
        if at.is_null() {
            refuse(&format!("{} has no {}", path, call.name));
        }
        call.at.store(at, Ordering::Relaxed);
    }
}

impl Call {
    fn address(&self) -> *mut c_void {
        let at = self.at.load(Ordering::Relaxed);
        assert!(!at.is_null(), "{} was not loaded", self.name);
        at
    }
}

type Valid = unsafe extern "C" fn(*const u8, usize) -> u64;
type Answer = unsafe extern "C" fn(*mut u8, usize, *const u8, usize, *mut u8, usize) -> u8;
type Merge = unsafe extern "C" fn(*const u8, usize, u32, *mut u8, usize) -> u8;
type Count = unsafe extern "C" fn(u8, *const u8, usize) -> u64;
type CountRecords = unsafe extern "C" fn(u8, *const Record, usize) -> u64;

fn valid_answer(bytes: &[u8]) -> u64 {
    // Here and below: the call was declared so in the header of that commit too, slices are valid for their lengths, and
    // nobody else has those that are written.
    unsafe {
        let call: Valid = transmute(VALID.address());
        call(bytes.as_ptr(), bytes.len())
    }
}

fn answer(table: &mut [u8], message: &[u8], reply: &mut [u8]) -> u8 {
    let (table, table_len) = (table.as_mut_ptr(), table.len());
    let (reply, reply_len) = (reply.as_mut_ptr(), reply.len());
    unsafe {
        let call: Answer = transmute(ANSWER.address());
        let (message, message_len) = (message.as_ptr(), message.len());
        call(table, table_len, message, message_len, reply, reply_len)
    }
}

fn merge(run: &[u8], view: u32, out: &mut [u8]) -> u8 {
    unsafe {
        let call: Merge = transmute(MERGE.address());
        call(run.as_ptr(), run.len(), view, out.as_mut_ptr(), out.len())
    }
}

fn count(n: u8, replies: &[u8]) -> u64 {
    unsafe {
        let call: Count = transmute(COUNT.address());
        call(n, replies.as_ptr(), replies.len())
    }
}

fn count_records(n: u8, records: &[Record]) -> u64 {
    unsafe {
        let call: CountRecords = transmute(COUNT_RECORDS.address());
        call(n, records.as_ptr(), records.len())
    }
}
