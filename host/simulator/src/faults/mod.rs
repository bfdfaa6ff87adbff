//! The second program with one fault put in: what demand 3 must not let pass, or, of some of them, the day's order or the rule
//! of room. Most are the "Shortcuts that look right" of document 01.

mod answers;
mod counts;
mod merges;

use crate::machine::{Machine, SECOND};

/// "Keeping every agreed OK unchecked lets it clash with a slow final OK."
pub const AGREED_UNCHECKED: Machine = Machine {
    name: "every agreed OK kept unchecked",
    merge: |model, run, view, out| merges::merge(merges::agreed_made_final, model, run, view, out),
    ..SECOND
};

/// "Dropping a prepared row when abort is only noted: the abort may be lost and both clash."
pub const NOTED_ABORT_FREES: Machine = Machine {
    name: "a prepared row dropped when abort is only noted",
    answer: |model, table, message, reply| {
        answers::answer(answers::noted_abort_frees, model, table, message, reply)
    },
    ..SECOND
};

/// "Finishing an abort in a box whose view is older than the one that noted it: the freed row lets a late fast count
/// contradict a merge."
pub const OUTCOME_OF_ANY_VIEW: Machine = Machine {
    name: "number 9 left out for message 4",
    answer: |model, table, message, reply| {
        answers::answer(answers::outcome_of_any_view, model, table, message, reply)
    },
    ..SECOND
};

/// Message 2 taken by a box of another view.
pub const RESULT_OF_ANY_VIEW: Machine = Machine {
    name: "number 9 left out for message 2",
    answer: |model, table, message, reply| {
        answers::answer(answers::result_of_any_view, model, table, message, reply)
    },
    ..SECOND
};

/// "Taking tables of older views into the merge brings back results a later view replaced." Where they contradict each
/// other the first one is believed, so that the merge is not refused.
pub const OLDER_VIEWS_MERGED: Machine = Machine {
    name: "tables of older views taken into the merge",
    merge: |model, run, view, out| merges::merge(merges::older_views_used, model, run, view, out),
    ..SECOND
};

/// "Counting one box twice among the f+1."
pub const BOX_COUNTED_TWICE: Machine = Machine {
    name: "one box counted twice among the f+1",
    merge: |model, run, view, out| merges::merge(merges::boxes_renumbered, model, run, view, out),
    ..SECOND
};

/// "In a dry week two boxes took different entries, and the view change was refused as full." Here boxes still refuse a new
/// stamp as full with all rows held only.
pub const NO_ROOM_KEPT: Machine = Machine {
    name: "boxes that keep no room for the merge",
    answer: |model, table, message, reply| {
        answers::answer(answers::no_room_kept, model, table, message, reply)
    },
    ..SECOND
};

/// "Cutting a merge at 512 rows." As long as boxes keep room there is nothing to cut.
pub const CUT_AT_512: Machine = Machine {
    name: "a merge cut at 512 rows",
    merge: |model, run, view, out| merges::merge(merges::cut_at_512, model, run, view, out),
    ..SECOND
};

/// The same where boxes keep no room.
pub const CUT_AT_512_WITH_NO_ROOM_KEPT: Machine = Machine {
    name: "a merge cut at 512 rows, of boxes that keep no room for it",
    merge: CUT_AT_512.merge,
    ..NO_ROOM_KEPT
};

/// "512 less the start rows, divided by f+1 and rounded down", but for the rounding.
pub const SHARE_ROUNDED_UP: Machine = Machine {
    name: "a box's share rounded up",
    answer: |model, table, message, reply| {
        answers::answer(answers::share_rounded_up, model, table, message, reply)
    },
    ..SECOND
};

/// The same, but divided by f.
pub const SHARED_BY_F: Machine = Machine {
    name: "the rows left shared by f boxes",
    answer: |model, table, message, reply| {
        answers::answer(answers::shared_by_f, model, table, message, reply)
    },
    ..SECOND
};

/// The same, but without "less the start rows".
pub const SHARE_OF_ALL_ROWS: Machine = Machine {
    name: "a share of all rows in every view",
    answer: |model, table, message, reply| {
        answers::answer(answers::share_of_all_rows, model, table, message, reply)
    },
    ..SECOND
};

/// All rows held count, not "the rows added since its view began" alone.
pub const START_ROWS_COUNT: Machine = Machine {
    name: "start rows that count as added",
    answer: |model, table, message, reply| {
        answers::answer(answers::start_rows_count, model, table, message, reply)
    },
    ..SECOND
};

/// "A group with no room left still reads, finalises and changes view." Here it does nothing more.
pub const FULL_TO_ALL: Machine = Machine {
    name: "a box with no room left that refuses every message",
    answer: |model, table, message, reply| {
        answers::answer(answers::full_to_all, model, table, message, reply)
    },
    ..SECOND
};

/// A fast count of one box less.
pub const FAST_WITH_ONE_LESS: Machine = Machine {
    name: "a fast count of one less",
    count: counts::fast_with_one_less,
    ..SECOND
};

/// An agreement count of one table more.
pub const AGREED_BY_ONE_MORE: Machine = Machine {
    name: "an agreement count of one more",
    merge: |model, run, view, out| {
        merges::merge(merges::barely_agreed_opened, model, run, view, out)
    },
    ..SECOND
};

/// "The merge keeps the older A and B, because a result already declared final must not be lost when a later stamp came
/// after it." Here the merge checks as boxes do.
pub const DAYS_ORDER_IN_MERGES: Machine = Machine {
    name: "a merge that checks by the day's order",
    merge: |model, run, view, out| {
        merges::merge(merges::checked_by_days_order, model, run, view, out)
    },
    ..SECOND
};

/// "no entry may be slipped under one already accepted." Here boxes check messages 1 as the merge checks.
pub const OLDER_CHECK_IN_BOXES: Machine = Machine {
    name: "boxes that check by the older rules",
    answer: |model, table, message, reply| {
        answers::answer(answers::checked_as_in_a_merge, model, table, message, reply)
    },
    ..SECOND
};

/// "Our pump clients take the next stamp above it and at once meet a prepared reader that lies higher." Here the stamp of a
/// RETRY is that of a committed row still.
pub const ADVISED_BY_COMMITTED_ALONE: Machine = Machine {
    name: "RETRY with the stamp of committed rows alone",
    answer: |model, table, message, reply| {
        answers::answer(
            answers::advised_by_committed_alone,
            model,
            table,
            message,
            reply,
        )
    },
    ..SECOND
};

/// "Outcome: any commit or abort held becomes done", but for those that are only noted.
pub const NOTED_OUTCOME_FORGOTTEN: Machine = Machine {
    name: "a noted outcome forgotten by the merge",
    merge: |model, run, view, out| merges::merge(merges::noted_forgotten, model, run, view, out),
    ..SECOND
};

/// "The box takes it whole", but for the rows that it has itself.
pub const OWN_ROWS_KEPT: Machine = Machine {
    name: "a start view that keeps the box's own rows",
    answer: |model, table, message, reply| {
        answers::answer(answers::own_rows_kept, model, table, message, reply)
    },
    ..SECOND
};

/// "Demand 3 excludes an empty merge."
pub const EMPTY_MERGE: Machine = Machine {
    name: "an empty merge",
    merge: |model, run, view, out| merges::merge(merges::emptied, model, run, view, out),
    ..SECOND
};

/// "a box that answers OK to all"
pub const OK_TO_ALL: Machine = Machine {
    name: "a box that answers OK to all",
    answer: |model, table, message, reply| {
        answers::answer(answers::ok_to_all, model, table, message, reply)
    },
    ..SECOND
};

/// "one that replies but never stores"
pub const NEVER_STORES: Machine = Machine {
    name: "a box that replies but never stores",
    answer: |model, table, message, reply| {
        (SECOND.answer)(model, &mut table.to_vec(), message, reply)
    },
    ..SECOND
};

/// Never stores a message of kinds 1 to 4; views it changes and starts.
pub const STORES_NO_ROW: Machine = Machine {
    name: "a box that stores no row",
    answer: |model, table, message, reply| {
        answers::answer(answers::no_row_stored, model, table, message, reply)
    },
    ..SECOND
};

/// A merge that writes a value of its own into a body.
pub const BODY_CHANGED: Machine = Machine {
    name: "a merge that changes a value written",
    merge: |model, run, view, out| merges::merge(merges::values_changed, model, run, view, out),
    ..SECOND
};

/// A merge that takes a final ABORT for an abort.
pub const OUTCOME_INVENTED: Machine = Machine {
    name: "a merge that makes an abort of a final ABORT",
    merge: |model, run, view, out| merges::merge(merges::aborts_invented, model, run, view, out),
    ..SECOND
};

/// Message 6 refused by a box that has not promised its view.
pub const START_ONLY_IF_PROMISED: Machine = Machine {
    name: "a view started only by a box that has promised it",
    answer: |model, table, message, reply| {
        answers::answer(
            answers::start_only_if_promised,
            model,
            table,
            message,
            reply,
        )
    },
    ..SECOND
};
