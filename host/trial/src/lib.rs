//! The proved changes of a table in its lent buffer, one by one, the body that a lookup hands out, and the stepping of a
//! group in one lent buffer, as Rust links them from the library that `tools/library trial` writes. Box firmware links
//! another, so this is for tests and measurements alone. Nothing checks these declarations against the library's source, so
//! there is one for each function of `crates/trial` and nothing else.
//!
//! Each change leaves the image of the changed table at the buffer's start, zeros where the image before was longer, and every
//! other byte as it was. None tests what it asks of its caller, and with less than that it may write anywhere: that is
//! why each is unsafe. All of them ask for a buffer that begins with an image. It need not be that of a table by the
//! rules, but its offsets and lengths have to be as the paper lays them.
//!
//! The stepping of a group asks nothing of its caller, whatever the lent bytes are, and so it is safe. The table buffers of
//! the boxes stand side by side in one lent buffer, 49,176 bytes each, that of box 0 first.

mod library {
    extern "C" {
        pub fn trial_set_views(
            table: *mut u8,
            table_len: usize,
            mode: u8,
            view: u32,
            promised: u32,
        );
        pub fn trial_promise(table: *mut u8, table_len: usize, view: u32);
        pub fn trial_set_prepare(
            table: *mut u8,
            table_len: usize,
            index: usize,
            prepare: u8,
            retry: u64,
        );
        pub fn trial_set_outcome(table: *mut u8, table_len: usize, index: usize, outcome: u8);
        pub fn trial_add_row(
            table: *mut u8,
            table_len: usize,
            index: usize,
            row: *const u8,
            row_len: usize,
        );
        pub fn trial_take_image(
            table: *mut u8,
            table_len: usize,
            image: *const u8,
            image_len: usize,
        );
        pub fn trial_held_body(
            image: *const u8,
            image_len: usize,
            begin: usize,
            rows: usize,
            stamp: u64,
            out: *mut u8,
            out_len: usize,
        ) -> usize;
        pub fn trial_start_fresh(tables: *mut u8, tables_len: usize, n: u8) -> u8;
        pub fn trial_arrive(
            tables: *mut u8,
            tables_len: usize,
            box_number: u8,
            message: *const u8,
            message_len: usize,
            reply: *mut u8,
            reply_len: usize,
        ) -> u8;
        pub fn trial_merge_boxes(
            tables: *const u8,
            tables_len: usize,
            boxes: *const u8,
            boxes_len: usize,
            view: u32,
            run: *mut u8,
            run_len: usize,
            out: *mut u8,
            out_len: usize,
        ) -> u8;
    }
}

/// Gives the table another mode and other views, whether they fit each other or not.
///
/// # Safety
///
/// The buffer begins with an image.
pub unsafe fn set_views(table: &mut [u8], mode: u8, view: u32, promised: u32) {
    library::trial_set_views(table.as_mut_ptr(), table.len(), mode, view, promised)
}

/// "Promised = v, mode 1."
///
/// # Safety
///
/// The buffer begins with an image.
pub unsafe fn promise(table: &mut [u8], view: u32) {
    library::trial_promise(table.as_mut_ptr(), table.len(), view)
}

/// Stores a prepare byte and its retry stamp in the row at an index.
///
/// # Safety
///
/// The buffer begins with an image that has a row at the index; the byte is 8 at most, and the retry stamp "is a stamp
/// for RETRY and 0 otherwise".
pub unsafe fn set_prepare(table: &mut [u8], index: usize, prepare: u8, retry: u64) {
    library::trial_set_prepare(table.as_mut_ptr(), table.len(), index, prepare, retry)
}

/// Stores an outcome byte in the row at an index.
///
/// # Safety
///
/// The buffer begins with an image that has a row at the index; the byte is 4 at most.
pub unsafe fn set_outcome(table: &mut [u8], index: usize, outcome: u8) {
    library::trial_set_outcome(table.as_mut_ptr(), table.len(), index, outcome)
}

/// Adds the row that lent bytes begin with, 24 bytes as they would stand in an image; its offset says where in the lent
/// bytes its body lies.
///
/// # Safety
///
/// The buffer begins with an image whose stamps rise strictly and which has fewer than 65,536 rows, and it has room for
/// the longer image, whose length fits in 4 bytes. The table does not hold the row's stamp, and as many of its stamps as
/// the index says are lower. The row's counts are by the rules, its prepare byte is 8 at most and its outcome byte 4, its
/// retry stamp goes with its prepare byte, and its body lies inside the lent bytes.
pub unsafe fn add_row(table: &mut [u8], index: usize, row: &[u8]) {
    library::trial_add_row(
        table.as_mut_ptr(),
        table.len(),
        index,
        row.as_ptr(),
        row.len(),
    )
}

/// "The box takes it whole, keeping its own box number": the image that lent bytes begin with.
///
/// # Safety
///
/// The buffer begins with an image, the lent bytes begin with one, and the buffer has room for that one.
pub unsafe fn take_image(table: &mut [u8], image: &[u8]) {
    library::trial_take_image(table.as_mut_ptr(), table.len(), image.as_ptr(), image.len())
}

/// The body of a stamp's row, which a lookup hands out as the part of the lent image where it lies: here it is copied to
/// the start of a buffer. Returns its length, 0 if no row has the stamp.
///
/// # Safety
///
/// The image has so many rows from `begin` on, their stamps rise strictly and their bodies lie inside it, and the buffer
/// has room for the body.
pub unsafe fn held_body(
    image: &[u8],
    begin: usize,
    rows: usize,
    stamp: u64,
    out: &mut [u8],
) -> usize {
    library::trial_held_body(
        image.as_ptr(),
        image.len(),
        begin,
        rows,
        stamp,
        out.as_mut_ptr(),
        out.len(),
    )
}

/// Every box of a group of n fresh, in its table buffer; returns the number.
pub fn start_fresh(tables: &mut [u8], n: u8) -> u8 {
    // A slice is valid for its length, and nobody else has this one.
    unsafe { library::trial_start_fresh(tables.as_mut_ptr(), tables.len(), n) }
}

/// A message arrives at one box: its table changed, the reply written; returns the number.
pub fn arrive(tables: &mut [u8], box_number: u8, message: &[u8], reply: &mut [u8]) -> u8 {
    // Slices are valid for their lengths; nobody else has those that are written, so none overlap.
    unsafe {
        library::trial_arrive(
            tables.as_mut_ptr(),
            tables.len(),
            box_number,
            message.as_ptr(),
            message.len(),
            reply.as_mut_ptr(),
            reply.len(),
        )
    }
}

/// The merge for a view of what the named boxes hold now: their images are laid end to end in a run, and the merged image
/// is written at the output's start; returns the number.
pub fn merge_boxes(tables: &[u8], boxes: &[u8], view: u32, run: &mut [u8], out: &mut [u8]) -> u8 {
    // Slices are valid for their lengths; nobody else has those that are written, so none overlap.
    unsafe {
        library::trial_merge_boxes(
            tables.as_ptr(),
            tables.len(),
            boxes.as_ptr(),
            boxes.len(),
            view,
            run.as_mut_ptr(),
            run.len(),
            out.as_mut_ptr(),
            out.len(),
        )
    }
}
