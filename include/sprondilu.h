/*
 * Sprondilu's calls, as C11 and C++11 link them from libsprondilu.a. "01" is the paper that fixes every number and
 * every byte: docs/CLAIMS has it sentence by sentence, and docs/FORMAT.md byte by byte. "02" is the paper of what was
 * asked for later.
 *
 * A call works on buffers that its caller lends, keeps nothing between two calls, and ends with a number of 01's list.
 * What a call promises stands above it. It holds if all of the following does:
 *
 * - The machine is an x86-64, calls go by the System V convention, and size_t has 64 bits.
 * - A pointer is valid for as many bytes as the length behind it says. One to records is valid for as many records, and
 *   aligned as C aligns them. Valid means for reading, and where the pointer is not const for writing too. A null pointer
 *   has length 0.
 * - Two buffers lent to one call do not overlap.
 * - Nobody else touches a lent buffer during a call: one call at a time for each buffer. Calls on other buffers may run
 *   at the same time.
 * - Whoever links supplies memset, memcpy and memmove, with C's meaning. Nothing else is needed.
 * - The caller's stack has room for a call. No proof says how much that is. Less than 1 KiB was measured for each call
 *   (docs/BENCHMARKS.md).
 *
 * Where one of these does not hold, nothing is promised.
 */
#ifndef SPRONDILU_H
#define SPRONDILU_H

#include <stddef.h>
#include <stdint.h>

/* For this file alone: C and C++ have other words for the same. */
#ifdef __cplusplus
#define SPRONDILU_ASSERT(holds, why) static_assert(holds, why)
#define SPRONDILU_ALIGN_OF(type) alignof(type)
#else
#define SPRONDILU_ASSERT(holds, why) _Static_assert(holds, why)
#define SPRONDILU_ALIGN_OF(type) _Alignof(type)
#endif

/* For this file alone: a compiler that is able to warns of a call whose answer is not used. A refusal that nobody looks at
 * would be an entry that is dropped without a word. */
#if defined(__cplusplus) && __cplusplus >= 201703L
#define SPRONDILU_MUST_USE [[nodiscard]]
#elif defined(__STDC_VERSION__) && __STDC_VERSION__ >= 202311L
#define SPRONDILU_MUST_USE [[nodiscard]]
#elif defined(__GNUC__)
#define SPRONDILU_MUST_USE __attribute__((warn_unused_result))
#else
#define SPRONDILU_MUST_USE
#endif

#ifdef __cplusplus
extern "C" {
#endif

SPRONDILU_ASSERT(sizeof(size_t) == 8, "libsprondilu.a takes lengths of 64 bits");

/*
 * The numbers. Each is given exactly in the circumstances that the comment above it has, in 01's words. The first that
 * applies wins, in this order: 1, 2, 3, 4, 9, 10, 11, 8, 5, 6, 7.
 * What 01 says of SPRONDILU_FULL and a new stamp, 02 amends: "a box refuses a new stamp as full once the rows added since
 * its view began reach 512 less the start rows, divided by f+1 and rounded down". What 01 says of a merge stays.
 */

/* done: none below applies */
#define SPRONDILU_DONE 0
/* small buffer: table or output buffer (not a merge's run) below 49,176, or reply buffer below 24 */
#define SPRONDILU_SMALL_BUFFER 1
/* bad table: the lent table (never fresh's buffer or an output) doesn't begin with an image by the rules; for a merge,
 * the run isn't one or more whole images */
#define SPRONDILU_BAD_TABLE 2
/* bad message: kind, length, stamp, body, register or code breaks a rule; fresh: bad n or box; count: see there */
#define SPRONDILU_BAD_MESSAGE 3
/* changing: messages 1 to 4 and 7 while mode is 1 */
#define SPRONDILU_CHANGING 4
/* other body: the stamp is held with another body */
#define SPRONDILU_OTHER_BODY 5
/* contradiction: an unequal final result or an opposite outcome is held */
#define SPRONDILU_CONTRADICTION 6
/* full: a new stamp with 512 rows held, or a merge of more than 512 stamps */
#define SPRONDILU_FULL 7
/* unknown: finalising a part that the table doesn't hold */
#define SPRONDILU_UNKNOWN 8
/* other view: message 2 or 4 for a view that isn't the box's */
#define SPRONDILU_OTHER_VIEW 9
/* old view: message 5 with v at or below promised; 6 with v below promised or at or below view */
#define SPRONDILU_OLD_VIEW 10
/* wrong tables: merge: not exactly f+1 images, unequal n, a box twice, mode 0, or promised not v */
#define SPRONDILU_WRONG_TABLES 11

/* The least length of a table buffer and of a merge's output, in bytes: that of the image of 512 rows with the longest
 * bodies. */
#define SPRONDILU_TABLE_BYTES 49176

/* The places in an image of its box, of its group's n and of the promised view, which is a number of 4 bytes. */
#define SPRONDILU_TABLE_BOX 1
#define SPRONDILU_TABLE_N 2
#define SPRONDILU_TABLE_PROMISED 12

/*
 * Messages. In messages, images and replies the first byte of a number counts most. Each message begins with its kind, in
 * 1 byte. Behind it stand these parts, each with its length in bytes:
 *   SPRONDILU_PROPOSE_PREPARE    stamp 8, counts of reads and of writes 1 each, body
 *   SPRONDILU_FINALISE_PREPARE   stamp 8, view 4, result 1, retry stamp 8
 *   SPRONDILU_PROPOSE_OUTCOME    stamp 8, outcome 1, counts of reads and of writes 1 each, body
 *   SPRONDILU_FINALISE_OUTCOME   stamp 8, view 4, outcome 1
 *   SPRONDILU_CHANGE_VIEW        view 4
 *   SPRONDILU_START_VIEW         view 4, image
 *   SPRONDILU_READ               stamp 8, register 1
 * A body is its reads, each a register in 1 byte and the version seen in 8, then its writes, each a register and a value.
 */
#define SPRONDILU_PROPOSE_PREPARE 1
#define SPRONDILU_FINALISE_PREPARE 2
#define SPRONDILU_PROPOSE_OUTCOME 3
#define SPRONDILU_FINALISE_OUTCOME 4
#define SPRONDILU_CHANGE_VIEW 5
#define SPRONDILU_START_VIEW 6
#define SPRONDILU_READ 7

/* The codes of the two outcomes, in messages 3 and 4. */
#define SPRONDILU_OUTCOME_COMMIT 1
#define SPRONDILU_OUTCOME_ABORT 2

/* First, the place where the image begins in message 6, which is also the length of message 5. Second, the length of the
 * longest message, which is message 6 with the longest image. Third, that of the longest message of any other kind, which
 * is message 3 with eight accesses. */
#define SPRONDILU_START_VIEW_IMAGE 5
#define SPRONDILU_MESSAGE_BYTES 49181
#define SPRONDILU_SMALL_MESSAGE_BYTES 84

/* The length of a reply, in bytes, and the least length of a reply buffer. */
#define SPRONDILU_REPLY_BYTES 24

/* The places of the parts of a reply. Number, kind, box and state byte have 1 byte each, the box's view has 4, and a stamp
 * and a value have 8 each. */
#define SPRONDILU_REPLY_NUMBER 0
#define SPRONDILU_REPLY_KIND 1
#define SPRONDILU_REPLY_BOX 2
#define SPRONDILU_REPLY_STATE 3
#define SPRONDILU_REPLY_VIEW 4
#define SPRONDILU_REPLY_STAMP 8
#define SPRONDILU_REPLY_VALUE 16

/*
 * The codes of 01's four results, in message 2, in a reply that is counted and in an answer of either count. A box that
 * answers message 1 with a stamp s that is new to it gives the first of these that applies, by the rows of its table. A
 * row is committed if its commit is done. It is prepared if its result is OK and no outcome of it is done.
 *   SPRONDILU_ABORT          a register was read, and a committed row above the version read writes it, also above s
 *   SPRONDILU_RETRY          a register is written, and a committed row above s reads or writes it. The retry stamp is
 *                            the greatest above s of a row, committed or prepared, that reads or writes any register
 *                            that is written
 *   SPRONDILU_ABSTAIN        one of these two, with prepared in place of committed
 *   SPRONDILU_OK             none of these
 * So "no entry may be slipped under one already accepted" (02). In the table in which RETRY was found, the same body
 * gets SPRONDILU_OK at every stamp above the retry stamp, or SPRONDILU_ABSTAIN because of a prepared row that writes
 * above a version that was read; but the row of the RETRY is added, and a box without room for another refuses it.
 * A result that is held is answered and not checked again. Where only an outcome is held, commit gets SPRONDILU_OK and
 * abort SPRONDILU_ABORT. A merge checks by 01's older rules, and may accept what message 1 would refuse, since "a
 * result already declared final must not be lost when a later stamp came after it" (02).
 */
#define SPRONDILU_OK 1
#define SPRONDILU_ABORT 2
#define SPRONDILU_ABSTAIN 3
#define SPRONDILU_RETRY 4

/* The state byte of a reply to message 1 or 2, which is the prepare byte of the row: a result, tentative or final. */
#define SPRONDILU_TENTATIVE_OK 1
#define SPRONDILU_TENTATIVE_ABORT 2
#define SPRONDILU_TENTATIVE_ABSTAIN 3
#define SPRONDILU_TENTATIVE_RETRY 4
#define SPRONDILU_FINAL_OK 5
#define SPRONDILU_FINAL_ABORT 6
#define SPRONDILU_FINAL_ABSTAIN 7
#define SPRONDILU_FINAL_RETRY 8

/* The state byte of a reply to message 3 or 4, which is the outcome byte of the row. Of every other reply it is 0. */
#define SPRONDILU_COMMIT_NOTED 1
#define SPRONDILU_ABORT_NOTED 2
#define SPRONDILU_COMMIT_DONE 3
#define SPRONDILU_ABORT_DONE 4

/*
 * Writes the fresh table of box `box` of a group of `n` boxes at the start of a table buffer.
 *
 * Returns SPRONDILU_SMALL_BUFFER if table_len is below SPRONDILU_TABLE_BYTES; else SPRONDILU_BAD_MESSAGE if n is not 3, 5
 * or 7, or box not below n; else SPRONDILU_DONE.
 * If done, the first 24 bytes are the fresh image, and no other byte has changed: what the buffer held is neither looked
 * at nor cleared. If refused, no byte has changed.
 */
SPRONDILU_MUST_USE
uint8_t sprondilu_fresh(uint8_t *table, size_t table_len, uint8_t n, uint8_t box);

/*
 * Says whether lent bytes begin with an image by 01's rules, and how long it is. What follows the image is not looked at.
 *
 * The answer has the number in bits 0 to 7, SPRONDILU_DONE or SPRONDILU_BAD_TABLE. For SPRONDILU_DONE it has the image's
 * length in bytes in bits 16 to 63. All other bits are 0. The two macros below take it apart.
 * The bytes may have any length: SPRONDILU_SMALL_BUFFER does not apply, as it does not to a merge's run. No byte changes.
 */
SPRONDILU_MUST_USE
uint64_t sprondilu_valid(const uint8_t *bytes, size_t bytes_len);

/* The number in an answer of 64 bits, that of sprondilu_valid, sprondilu_answer_compared, sprondilu_count or
 * sprondilu_count_records. */
#define SPRONDILU_NUMBER_OF(answer) ((answer) & 0xffu)

/* The image's length in an answer of sprondilu_valid whose number is SPRONDILU_DONE. */
#define SPRONDILU_LENGTH_OF(answer) ((answer) >> 16)

/*
 * Answers one message for a box: the table in its buffer becomes what 01 makes of it, and the reply is written at the
 * start of the reply buffer. A message may be any bytes that arrived, of any length, also none.
 *
 * Returns the first of these that applies, and SPRONDILU_DONE if none does:
 *   SPRONDILU_SMALL_BUFFER   table_len is below SPRONDILU_TABLE_BYTES, or reply_len below SPRONDILU_REPLY_BYTES
 *   SPRONDILU_BAD_TABLE      the table buffer does not begin with an image by 01's rules
 *   SPRONDILU_BAD_MESSAGE    the bytes are not one of 01's seven messages, of exactly its length and by all its rules
 *   SPRONDILU_CHANGING       messages 1 to 4 and 7, while the box is between two views
 *   SPRONDILU_OTHER_VIEW     messages 2 and 4, for a view that is not the box's
 *   SPRONDILU_OLD_VIEW       message 5, for a view at or below the promised one; message 6, for one below the promised one,
 *                            or at or below the box's
 *   SPRONDILU_UNKNOWN        messages 2 and 4: what they finalise is not in the table
 *   SPRONDILU_OTHER_BODY     messages 1 and 3: the stamp is held with another body
 *   SPRONDILU_CONTRADICTION  message 2: another final result is held; messages 3 and 4: the opposite outcome is held
 *   SPRONDILU_FULL           messages 1 and 3: the stamp is new, and the rows added since the box's view began reach its
 *                            share, which is 512 less the rows that the view began with, divided by f+1 and rounded down
 *
 * The rows added are all rows less those that the view began with, whichever message added them and whatever became of
 * them. Here f+1 is 2 of 3 boxes, 3 of 5 or 4 of 7. In view 0 of a group of three the share is 256, of five 170, of seven
 * 128. So the tables of a merge fit into one. A stamp that is held, and messages 2 and 4 to 7, never get SPRONDILU_FULL. A
 * table with more rows than its share is no bad table, and takes no new stamp. A view that begins with S rows has room
 * exactly if 512 - S is at least f+1. So a view change makes room again, until at most f rows are left.
 *
 * If it returns SPRONDILU_SMALL_BUFFER, no byte of either buffer has changed, so there is no reply to send.
 * Otherwise the first 24 bytes of the reply buffer are the reply, to be sent back as they are, and no other byte of that
 * buffer has changed. If refused, the reply is the number and 23 zero bytes, and no byte of the table buffer has changed.
 * If done, the reply is 0, the message's kind, the box, the state byte, then the view in 4 bytes, a stamp in 8 and a value
 * in 8, each where SPRONDILU_REPLY_NUMBER to SPRONDILU_REPLY_VALUE say. The table buffer then begins with the image of the
 * changed table, which is to be stored before the reply is sent. If it is shorter than the image before, the bytes given up
 * are zero. Bytes past the longer of the two have not changed. The message never changes.
 */
SPRONDILU_MUST_USE
uint8_t sprondilu_answer(uint8_t *table, size_t table_len, const uint8_t *message, size_t message_len, uint8_t *reply,
                         size_t reply_len);

/*
 * Answers one message for a box exactly as sprondilu_answer does, and also says how many rows the search for the
 * message's stamp compared. The number is the one that sprondilu_answer returns, and every byte of both buffers is as
 * that call leaves it. Whoever wants the count calls this one in place of the other.
 *
 * The answer has the number in bits 0 to 7 and the rows compared in bits 16 to 63. All other bits are 0.
 * SPRONDILU_NUMBER_OF and SPRONDILU_COMPARED_OF take it apart.
 *
 * The search goes by halving. Of the rows left, the one with half as many before it, rounded down, is compared. It has
 * the stamp, or the search goes on behind it, or before it. Of no rows none is compared. The table that is searched is
 * the one that the box held when the message came, also where a row is added then.
 *
 * "The answer to messages 1 to 4 passes this number on beside the reply, with 0 for refusals numbered 1 to 4 and 9"
 * (02). So the rows compared are, by the number:
 *   SPRONDILU_DONE for messages 1 to 4, SPRONDILU_OTHER_BODY, SPRONDILU_CONTRADICTION, SPRONDILU_FULL and
 *   SPRONDILU_UNKNOWN
 *       those that the search compared, "at most 10 for 512 rows; an empty table gives 0" (02)
 *   SPRONDILU_DONE for messages 5 to 7, and every other number
 *       0, since no stamp was searched
 *
 * Nothing but that search is counted, so the number is no measure of a call's fetches. Every answer goes over all rows
 * once to judge whether the table keeps 01's rules, before it looks at the message. Message 1 that adds a row goes once
 * more over those from the floor of its check on. The floor is its stamp or the least version that it read, whichever is
 * lower, and its place is found by halving. Message 7 goes from the last row on and ends at the first committed write
 * of its register at or below its stamp. Where there is none, it goes over all rows. None of these rows is counted,
 * nor is a body that is compared, nor are rows that move.
 */
SPRONDILU_MUST_USE
uint64_t sprondilu_answer_compared(uint8_t *table, size_t table_len, const uint8_t *message, size_t message_len,
                                   uint8_t *reply, size_t reply_len);

/* The rows compared, in an answer of sprondilu_answer_compared whatever its number is. */
#define SPRONDILU_COMPARED_OF(answer) ((answer) >> 16)

/*
 * Makes the merge for view `view`. From the tables of f+1 boxes that promised it, laid end to end in one run, it makes the
 * table with which that view begins, and writes its image at the start of an output buffer. Here f+1 is 2 of 3 boxes, 3 of
 * 5 or 4 of 7. A run may be any bytes that arrived, of any length, also none. Its images need not be aligned.
 *
 * Returns the first of these that applies, and SPRONDILU_DONE if none does:
 *   SPRONDILU_SMALL_BUFFER   out_len is below SPRONDILU_TABLE_BYTES, whatever the run is
 *   SPRONDILU_BAD_TABLE      the run is not one or more whole images by 01's rules, with no byte before, between or behind
 *   SPRONDILU_WRONG_TABLES   the images are not exactly f+1, or their n are not equal, or a box is there twice, or one is
 *                            not between two views, or one promised another view
 *   SPRONDILU_OTHER_BODY     a stamp is held with two bodies
 *   SPRONDILU_CONTRADICTION  of a stamp two unequal final results are held, or opposite outcomes
 *   SPRONDILU_FULL           there are more than 512 stamps
 * The last three look only at the tables of the greatest last normal view, as the merge itself does. Each looks at all
 * stamps of them before the next one is asked: SPRONDILU_OTHER_BODY at any stamp wins over SPRONDILU_CONTRADICTION at any
 * other.
 *
 * A run may be of anything, so each of these may come. But SPRONDILU_FULL does not come, nor do the two before it, if the
 * run is of tables that boxes of one group had, which was fresh and in which everybody keeps 01's rules (docs/FIRMWARE.md).
 *
 * If done, the output buffer begins with the merged image, which does not depend on the order of the tables, and no other
 * byte has changed: what the buffer held is neither looked at nor cleared. The image is to be sent in message 6 for that
 * view. Every box of the group takes it that is in an earlier view and has promised no later one.
 * If refused, no byte has changed. The run never changes.
 */
SPRONDILU_MUST_USE
uint8_t sprondilu_merge(const uint8_t *run, size_t run_len, uint32_t view, uint8_t *out, size_t out_len);

/* The length of a reply as it is counted, in bytes. */
#define SPRONDILU_COUNTED_BYTES 15

/*
 * Counts for a coordinator the replies that it heard for one stamp, in a group of `n` boxes. The answer says that they
 * agree fast, or what they come to slowly, or that more of them have to be waited for. The replies are laid end to end,
 * SPRONDILU_COUNTED_BYTES each: the box in 1 byte, its view in 4, the result in 1, its retry stamp in 8, then 1 if the
 * result is final and 0 if it is tentative. The first byte of each number counts most. replies_len is how many bytes there
 * are in all. The list may be any bytes that arrived, of any length, also none. The order of the replies does not matter.
 *
 * Each is made of a reply of sprondilu_answer or sprondilu_answer_compared to message 1 or 2 whose number is
 * SPRONDILU_DONE. Of its 24 bytes, the box is at SPRONDILU_REPLY_BOX, the view from SPRONDILU_REPLY_VIEW on, and the
 * retry stamp from SPRONDILU_REPLY_VALUE on. The result is in the state byte at SPRONDILU_REPLY_STATE. If that is 1 to
 * 4, it is the result, which is tentative. If it is 5 to 8, so from SPRONDILU_FINAL_OK on, the result is 4 less, and is
 * final.
 *
 * The answer has the number in bits 0 to 7, the first of these that applies, and SPRONDILU_DONE if none does:
 *   SPRONDILU_BAD_MESSAGE    n is not 3, 5 or 7; or replies_len is no multiple of SPRONDILU_COUNTED_BYTES; or in a reply
 *                            the box is not below n, the result not 1 to 4, the retry stamp not a stamp (1 to 2^48-1) for
 *                            SPRONDILU_RETRY or not 0 for another result, or the last byte above 1; or a box is there
 *                            twice; or two views are not equal
 *   SPRONDILU_CONTRADICTION  two final results are not equal, or the fast count of boxes agree on another result than a
 *                            final one
 * Results are equal if their retry stamps are too, and boxes agree on one whether it is final or tentative. Of 3, 5 and 7
 * boxes the fast count is 3, 4 and 6, and f+1 is 2, 3 and 4.
 *
 * If done, the answer has the kind in bits 8 to 9, the first of these that applies:
 *   SPRONDILU_FAST           the fast count of boxes agree on a result
 *   SPRONDILU_WAIT           there are fewer than f+1 replies
 *   SPRONDILU_SLOW           otherwise
 * Unless the kind is SPRONDILU_WAIT, the answer also has the result in bits 10 to 12 and its retry stamp in bits 16 to 63.
 * The retry stamp is 0 unless the result is SPRONDILU_RETRY. If fast, the result is the one agreed on. If slow, it is the
 * first of these: the final result, if there is one; SPRONDILU_ABORT, if any is that; SPRONDILU_OK, if f+1 are that;
 * SPRONDILU_RETRY with the greatest stamp, if any is that; SPRONDILU_ABSTAIN. All other bits are 0.
 * The macros below take an answer apart. Its number is to be looked at first, then its kind, and only then its result. No
 * byte changes.
 *
 * What may be done with an answer, by rules 2, 3, 4 and 7 of 01:
 *   SPRONDILU_FAST           the result may be declared final at once; it may also be sent in message 2, for the view of
 *                            the replies, so that boxes hold it as final
 *   SPRONDILU_SLOW           the result may be sent in message 2, for the view of the replies; it may be declared final
 *                            once f+1 different boxes have confirmed it in that view, with SPRONDILU_DONE
 *   SPRONDILU_WAIT           nothing yet: there are fewer than f+1 replies, and nothing is decided
 * A result that was sent or declared stays the only one for its stamp in that view, whatever more replies would come to.
 * Once an outcome was proposed for the stamp, nothing more is sent in message 2 or declared.
 * An OK that was declared is not recorded yet: it will be, if the coordinator lives. An entry is recorded when f+1 different
 * boxes have accepted its commit in one view, each by a reply to message 3 with SPRONDILU_DONE, and not before.
 */
SPRONDILU_MUST_USE
uint64_t sprondilu_count(uint8_t n, const uint8_t *replies, size_t replies_len);

/*
 * One reply as sprondilu_count_records takes it. It is made of the 24 bytes of a reply of sprondilu_answer or
 * sprondilu_answer_compared to message 1 or 2 whose number is SPRONDILU_DONE. `box` is the byte at SPRONDILU_REPLY_BOX.
 * `view` is the 4 bytes from SPRONDILU_REPLY_VIEW on, and `retry` the 8 from SPRONDILU_REPLY_VALUE on, as numbers whose
 * first byte counts most. The byte at SPRONDILU_REPLY_STATE is the state byte. If it is 1 to 4, it is `result`, and
 * `is_final` is 0. If it is 5 to 8, `result` is 4 less, and `is_final` is 1.
 */
typedef struct sprondilu_record {
    uint8_t box;
    uint8_t result;   /* SPRONDILU_OK to SPRONDILU_RETRY */
    uint8_t is_final; /* 1 if the result is final, 0 if it is tentative */
    uint32_t view;
    uint64_t retry; /* the retry stamp of SPRONDILU_RETRY, 0 for another result */
} sprondilu_record;

/* C's own layout on the machine of the library, which reads the fields there. */
SPRONDILU_ASSERT(offsetof(sprondilu_record, box) == 0, "the box of a record is its first byte");
SPRONDILU_ASSERT(offsetof(sprondilu_record, result) == 1, "the result of a record is at byte 1");
SPRONDILU_ASSERT(offsetof(sprondilu_record, is_final) == 2, "whether a record is final is at byte 2");
SPRONDILU_ASSERT(offsetof(sprondilu_record, view) == 4, "the view of a record is at byte 4");
SPRONDILU_ASSERT(offsetof(sprondilu_record, retry) == 8, "the retry stamp of a record is at byte 8");
SPRONDILU_ASSERT(sizeof(sprondilu_record) == 16, "a record has 16 bytes");
SPRONDILU_ASSERT(SPRONDILU_ALIGN_OF(sprondilu_record) == 8, "a record is aligned to 8 bytes");

/*
 * Counts as sprondilu_count does, but takes the replies as an array of records instead of bytes. records_len is how many
 * records there are, not how many bytes. It may be any number, also 0.
 *
 * Every bit of the answer, refusals too, is as sprondilu_count gives it for the same replies in the same order, laid out as
 * bytes with the numbers of these fields. The same may be done with it. A field may have any number that fits it: one that
 * breaks a rule is refused. No reply can be cut short here, so no length is refused for that. More than seven records are
 * SPRONDILU_BAD_MESSAGE, whatever they are, since no group has so many boxes.
 * The padding of a record, its byte that is part of no field, is not looked at. No byte changes.
 */
SPRONDILU_MUST_USE
uint64_t sprondilu_count_records(uint8_t n, const sprondilu_record *records, size_t records_len);

/* The kind of an answer of either count whose number is SPRONDILU_DONE, and the kinds. */
#define SPRONDILU_KIND_OF(answer) ((answer) >> 8 & 0x3u)
#define SPRONDILU_WAIT 0
#define SPRONDILU_FAST 1
#define SPRONDILU_SLOW 2

/* The result in such an answer whose kind is SPRONDILU_FAST or SPRONDILU_SLOW, and its retry stamp. */
#define SPRONDILU_RESULT_OF(answer) ((answer) >> 10 & 0x7u)
#define SPRONDILU_RETRY_OF(answer) ((answer) >> 16)

#undef SPRONDILU_ASSERT
#undef SPRONDILU_ALIGN_OF
#undef SPRONDILU_MUST_USE

#ifdef __cplusplus
}
#endif

#endif
