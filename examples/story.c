/*
 * A group of three boxes plays a story with the code of box.c: arrays stand in for flash and radio, power is cut in the
 * middle of storing, and what is sent gets lost. At the top of the repository:
 *
 *   cc -std=c11 -O2 -I include examples/box.c examples/story.c target/staticlib/libsprondilu.a -o target/box
 *
 * It prints a line for each step, and each box's image before the tables are filled. It ends with 0 only if all came
 * out as it should.
 */
#include "box.h"

#include <inttypes.h>
#include <stdio.h>
#include <string.h>

/* "time times 65,536 plus client" */
#define STAMP(time, client) ((uint64_t)(time) << 16 | (client))
#define SECTOR 4096

static struct box boxes[BOXES];
static bool all_as_expected = true;

static void step(bool as_expected, const char *what)
{
    printf("%s\n", what);
    if (!as_expected) {
        printf("  but it did not come out so\n");
        all_as_expected = false;
    }
}

/* ---- In place of the flash: erased by the sector and written by the byte, for as long as power lasts. */

static uint8_t flash[BOXES][2][SLOT_BYTES];
static bool flash_fails[BOXES]; /* takes no byte any more */
static int power_left[BOXES] = {-1, -1, -1}; /* sectors and bytes until the power of a box is cut; -1: it is not */

static bool power_lasts(uint8_t box)
{
    if (power_left[box] > 0) {
        power_left[box]--;
        return true;
    }
    return power_left[box] < 0;
}

const uint8_t *flash_slot(uint8_t box, uint64_t slot)
{
    return flash[box][slot];
}

bool flash_erase(uint8_t box, uint64_t slot)
{
    size_t at = 0;
    while (at < SLOT_BYTES && power_lasts(box)) {
        memset(flash[box][slot] + at, 0xff, SECTOR);
        at += SECTOR;
    }
    return at == SLOT_BYTES;
}

bool flash_write(uint8_t box, uint64_t slot, size_t at, const uint8_t *bytes, size_t length)
{
    size_t done = 0;
    while (done < length && !flash_fails[box] && power_lasts(box)) {
        flash[box][slot][at + done] &= bytes[done]; /* bits are cleared by writing and set by erasing */
        done++;
    }
    return done == length;
}

/* Power is back, and nothing of what stood in memory is left. */
static bool restart(uint8_t box)
{
    power_left[box] = -1;
    memset(&boxes[box], 0xee, sizeof boxes[box]);
    return box_start(&boxes[box], box);
}

/* ---- In place of the radio: whom it reaches, and the reply that a box has sent last. */

enum reach {
    IN_REACH,
    OUT_OF_REACH,
    REPLY_LOST, /* the box hears, and is not heard */
    OLD_REPLY,  /* what is sent to the box is lost, and its last reply comes once more */
    IMAGE_LOST  /* the box hears and is heard, but its image does not arrive */
};

static enum reach reach[BOXES];
static bool replied[BOXES];
static uint8_t replies[BOXES][SPRONDILU_REPLY_BYTES];

void radio_reply(uint8_t box, const uint8_t *reply)
{
    memcpy(replies[box], reply, SPRONDILU_REPLY_BYTES);
    replied[box] = true;
}

const uint8_t *radio_ask(uint8_t box, const uint8_t *message, size_t length)
{
    replied[box] = false;
    if (reach[box] != OUT_OF_REACH && reach[box] != OLD_REPLY) {
        box_receive(&boxes[box], message, length);
    }
    bool heard = replied[box] && reach[box] != REPLY_LOST;
    return heard || reach[box] == OLD_REPLY ? replies[box] : NULL;
}

size_t radio_fetch_image(uint8_t box, uint8_t *to)
{
    bool lost = reach[box] == OUT_OF_REACH || reach[box] == IMAGE_LOST;
    size_t length = lost ? 0 : image_length(boxes[box].table);
    memcpy(to, boxes[box].table, length);
    return length;
}

/* ---- In place of a light or a bell: what a box has to report, and whether it has. */

static const char *to_report[BOXES];
static bool reported[BOXES];

void box_report(uint8_t box, const char *what)
{
    char line[120];
    if (power_left[box] == 0) {
        return; /* its power is cut */
    }
    snprintf(line, sizeof line, "box %u reports: %s", box, what);
    step(to_report[box] != NULL && strcmp(what, to_report[box]) == 0, line);
    reported[box] = true;
}

/* Whether a box has reported what it had to. From here on it has nothing to report. */
static bool has_reported(uint8_t box)
{
    bool has = reported[box];
    reported[box] = false;
    to_report[box] = NULL;
    return has;
}

static bool to_ask[BOXES]; /* whether a box has reason to ask for a view change */
static unsigned asked[BOXES];

void box_ask_for_view(uint8_t box)
{
    char line[120];
    snprintf(line, sizeof line, "box %u has no room in this view, and asks for a view change", box);
    step(to_ask[box], line);
    asked[box]++;
}

/* Whether a box has asked so often. From here on it has no reason to. */
static bool has_asked(uint8_t box, unsigned times)
{
    bool has = asked[box] == times;
    asked[box] = 0;
    to_ask[box] = false;
    return has;
}

/* ---- In place of a handset: what it has stored, and what its grower was told of each entry. */

#define ENTRIES 14 /* A to N, at the times 1 to 14 */
#define LAST_VIEW 9
#define WILL ": will be recorded, if the handset lives"
#define BROKEN ": recorded, but a rule was broken, somebody has to see to it"
#define NOT ": not recorded, to be entered again"
static const char *const words[] = {"", WILL, ": recorded", BROKEN, NOT, ": in doubt, somebody has to see to it"};

static struct transaction stored[ENTRIES];
static bool handset_fails; /* stores nothing any more */
static enum told told[ENTRIES];

static size_t entry_of(const struct transaction *t)
{
    return (size_t)(t->stamp >> 16) - 1;
}

bool handset_store(const struct transaction *t)
{
    if (!handset_fails) {
        stored[entry_of(t)] = *t;
    }
    return !handset_fails;
}

/* Power of the handset is back. Nothing of what stood in its memory is left, but it has what it had stored. */
static void restart_handset(struct transaction *t)
{
    *t = stored[entry_of(t)];
    resume(t);
}

/* Whether a box's table holds the commit of a stamp, noted or done, by the image: rows of 24 bytes behind as many. */
static bool holds_commit(const uint8_t *table, uint64_t stamp)
{
    const uint8_t *row = table + 24;
    const uint8_t *end = row + 24 * number_at(table + 4, 4);
    while (row < end && number_at(row, 8) != stamp) {
        row += 24;
    }
    return row < end && (row[23] == SPRONDILU_COMMIT_NOTED || row[23] == SPRONDILU_COMMIT_DONE);
}

/* Whether f+1 boxes that are in this view hold the commit of a stamp. */
static bool enough_hold(uint32_t view, uint64_t stamp)
{
    bool holds[BOXES];
    for (uint8_t box = 0; box < BOXES; box++) {
        const uint8_t *table = boxes[box].table;
        holds[box] = number_at(table + 8, 4) == view && holds_commit(table, stamp);
    }
    return how_many(holds) >= QUORUM;
}

/* Whether that is so in one view, by the tables of the boxes and whatever the handset believes. */
static bool is_recorded(uint64_t stamp)
{
    uint32_t view = 0;
    while (view < LAST_VIEW && !enough_hold(view, stamp)) {
        view++;
    }
    return enough_hold(view, stamp);
}

static bool says_recorded(enum told step_told)
{
    return step_told == RECORDED || step_told == RECORDED_RULE_BROKEN;
}

/* "Recorded" comes behind "will be recorded", and only where it is true; and what was recorded stays so. */
void handset_show(const struct transaction *t)
{
    char line[120];
    size_t entry = entry_of(t);
    bool in_order = told[entry] < t->told;
    if (says_recorded(t->told)) {
        in_order = in_order && told[entry] != NOTHING_YET && is_recorded(t->stamp);
    } else {
        in_order = in_order && !says_recorded(told[entry]);
    }
    told[entry] = t->told;
    snprintf(line, sizeof line, "%c's grower is told%s", 'A' + (int)entry, words[t->told]);
    step(in_order, line);
}

/* ---- The story. */

/*
 * The transactions: counts of reads and writes, then register and version of each read, register and value of each
 * write. A version that is yet to be read stands as 0.
 */
static struct transaction a = {.stamp = STAMP(1, 1), .body = {0, 1, {{5, 7}}}};
static struct transaction b = {.stamp = STAMP(2, 1), .body = {1, 1, {{5, 0}, {6, 9}}}};
static struct transaction c = {.stamp = STAMP(3, 1), .body = {1, 1, {{5, 0}, {5, 8}}}};
static struct transaction d = {.stamp = STAMP(4, 2), .body = {1, 1, {{5, 0}, {6, 10}}}};
static struct transaction e = {.stamp = STAMP(5, 1), .body = {1, 2, {{5, 0}, {5, 12}, {7, 1}}}};
static struct transaction f = {.stamp = STAMP(6, 1), .body = {0, 1, {{8, 3}}}};
static struct transaction g = {.stamp = STAMP(7, 2), .body = {1, 1, {{8, 0}, {9, 4}}}};
static struct transaction h = {.stamp = STAMP(8, 1), .body = {0, 1, {{10, 6}}}};
static struct transaction i = {.stamp = STAMP(9, 1), .body = {0, 1, {{11, 5}}}};
static struct transaction j = {.stamp = STAMP(10, 1), .body = {0, 1, {{12, 2}}}};
static struct transaction k = {.stamp = STAMP(11, 3), .body = {0, 1, {{13, 4}}}};
static struct transaction k_again = {.stamp = STAMP(11, 3), .body = {0, 1, {{13, 9}}}};
static struct transaction l = {.stamp = STAMP(12, 4), .body = {0, 1, {{14, 8}}}};
static struct transaction l_elsewhere = {.stamp = STAMP(12, 4), .body = {0, 1, {{14, 3}}}};
static struct transaction m = {.stamp = STAMP(13, 1), .body = {0, 1, {{15, 9}}}};
static struct transaction n = {.stamp = STAMP(14, 1), .body = {0, 1, {{16, 2}}}};

/* What has become of a transaction, in a line, which has to be the expected one. Who is stopped has told so. */
static void show(const char *name, const struct transaction *t, const char *expected)
{
    static const char *const results[] = {"no result", "OK", "ABORT", "ABSTAIN", "RETRY"};
    static const char *const outcomes[] = {"nothing", "commit", "abort"};
    char line[160];
    snprintf(line, sizeof line,
             "%s: %zu %s in view %" PRIu32 ", %u confirmations, %s%s; %s accepted by %u, done by %u%s", name, t->heard,
             t->heard == 1 ? "reply" : "replies", t->view, how_many(t->confirmed), results[t->result],
             t->declared ? " declared" : t->result != 0 ? " not declared" : "", outcomes[t->outcome],
             how_many(t->accepted), how_many(t->done), words[t->told]);
    bool told_so = t->told == RECORDED_RULE_BROKEN || t->told == IN_DOUBT;
    step(t->stopped == told_so && strcmp(line, expected) == 0, line);
}

/* The version that a transaction reads is the one that a box names. */
static void read_for(struct transaction *t, uint8_t box)
{
    uint64_t value;
    if (!read_register(box, t->stamp, t->body.accesses[0].reg, &t->body.accesses[0].number, &value)) {
        step(false, "a read");
    }
}

/* Whether the searches of a box have compared so many rows more than before. */
static bool has_compared(uint8_t box, uint64_t before, uint64_t rows)
{
    return boxes[box].rows_compared - before == rows;
}

static void begin(void)
{
    bool installed = true;
    bool again = false;
    memset(flash, 0xff, sizeof flash);
    for (uint8_t box = 0; box < BOXES; box++) {
        installed = box_install(&boxes[box], box) && installed;
    }
    step(installed, "three boxes are installed, each with a fresh table");
    again = box_install(&boxes[0], 0);
    step(!again && restart(0), "box 0 is not made fresh a second time: it starts from its storage");
}

static void fast_and_slow(void)
{
    prepare(&a);
    show("A", &a, "A: 3 replies in view 0, 0 confirmations, OK declared; nothing accepted by 0, done by 0" WILL);
    advance(&a);
    show("A", &a, "A: 3 replies in view 0, 0 confirmations, OK declared; commit accepted by 3, done by 3: recorded");
    /* Message 1 came to an empty table, and nothing was compared. Messages 1, 3 and 4 found one row: 0 + 1 + 1 + 1. */
    step(has_compared(0, 0, 3) && has_compared(1, 0, 3) && has_compared(2, 0, 3),
         "each box was sent four messages about A, and has compared 3 rows for them");
    reach[2] = OUT_OF_REACH;
    read_for(&b, 0);
    step(b.body.accesses[0].number == a.stamp, "box 2 is out of reach; B reads what A wrote, and so does D");
    read_for(&d, 1);
    prepare(&b);
    confirm(&b);
    reach[1] = OUT_OF_REACH;
    conclude(&b);
    show("B", &b, "B: 2 replies in view 0, 2 confirmations, OK declared; commit accepted by 1, done by 0" WILL);
    give_up(&b);
    step(b.outcome == SPRONDILU_OUTCOME_COMMIT && !b.stopped,
         "box 1 missed that: B is not recorded yet; but a commit was proposed, and B cannot be given up");
    reach[1] = IN_REACH;
    advance(&b);
    show("B", &b, "B: 2 replies in view 0, 2 confirmations, OK declared; commit accepted by 2, done by 2: recorded");
}

/* Box 1 loses power at every step of storing its confirmation, one after the other, until power lasts to the end. */
static void power_cuts(void)
{
    static uint8_t before[SPRONDILU_TABLE_BYTES];
    char line[120];
    bool nothing_lost = true;
    int cuts = 0;
    read_for(&c, 0);
    prepare(&c);
    conclude(&c); /* too early: nothing comes of it */
    show("C", &c, "C: 2 replies in view 0, 0 confirmations, OK not declared; nothing accepted by 0, done by 0");
    size_t length = image_length(boxes[1].table);
    memcpy(before, boxes[1].table, length);
    while (!c.declared && cuts < 1000) {
        power_left[1] = cuts;
        confirm(&c);
        if (!c.declared) {
            bool silent = !replied[1] && how_many(c.confirmed) == 1;
            bool started = restart(1) && image_length(boxes[1].table) == length;
            nothing_lost = nothing_lost && silent && started && memcmp(boxes[1].table, before, length) == 0;
            cuts++;
        }
    }
    power_left[1] = -1;
    snprintf(line, sizeof line, "power of box 1 is cut at each of %d steps of storing: no reply, nothing lost", cuts);
    step(nothing_lost && cuts == SLOT_BYTES / SECTOR + (int)length + SLOT_HEAD, line);
    advance(&c);
    show("C", &c, "C: 2 replies in view 0, 2 confirmations, OK declared; commit accepted by 2, done by 2: recorded");
}

/* D read register 5 before C wrote it. Box 2, back in reach, has not heard of C and says OK; one ABORT is enough. */
static void clash(void)
{
    reach[2] = IN_REACH;
    step(d.body.accesses[0].number == a.stamp, "box 2 is back; what D has read, C has written over in the meantime");
    advance(&d);
    show("D", &d, "D: 3 replies in view 0, 3 confirmations, ABORT declared; abort accepted by 3, done by 3" NOT);
}

static uint32_t promised_by(uint8_t box)
{
    return (uint32_t)number_at(boxes[box].table + SPRONDILU_TABLE_PROMISED, 4);
}

/* E is prepared in view 0, and the view changes before its result was sent: what was heard in view 0 counts no more. */
static void change_view(void)
{
    reach[0] = OUT_OF_REACH;
    read_for(&e, 1);
    step(e.body.accesses[0].number == c.stamp, "box 0 is out of reach; E reads what C wrote");
    prepare(&e);
    show("E", &e, "E: 2 replies in view 0, 0 confirmations, OK not declared; nothing accepted by 0, done by 0");
    bool merged = merge_next_view(1, promised_by(1));
    step(merged && start_view(1) && start_view(2) && !start_view(0),
         "boxes 1 and 2 begin view 1 with the merge of their tables");
}

/* Box 0 comes back in view 0, and answers there: no commit of view 1 is told to it before it has begun view 1. */
static void late_box(void)
{
    reach[0] = IN_REACH;
    advance(&e);
    show("E", &e, "E: 2 replies in view 1, 2 confirmations, OK declared; commit accepted by 2, done by 2: recorded");
    step(!e.accepted[0], "box 0 is back, in view 0 still: the commit is kept from it");
    step(start_view(0), "box 0 begins view 1");
    advance(&e);
    show("E", &e, "E: 2 replies in view 1, 2 confirmations, OK declared; commit accepted by 3, done by 3: recorded");
}

/* F comes to box 0 alone. */
static void failing_flash(void)
{
    reach[2] = OUT_OF_REACH;
    flash_fails[1] = true;
    to_report[1] = "the table could not be stored";
    advance(&f);
    show("F", &f, "F: 1 reply in view 1, 0 confirmations, no result; nothing accepted by 0, done by 0");
    flash_fails[1] = false;
    step(has_reported(1) && !replied[1] && restart(1), "box 2 is out of reach, box 1 is silent; a restart helps box 1");
}

/* G clashes with F, which box 0 alone knows of. One of two boxes says OK, then two of three: but ABSTAIN was sent. */
static void one_result(void)
{
    read_for(&g, 1);
    prepare(&g);
    show("G", &g, "G: 2 replies in view 1, 0 confirmations, ABSTAIN not declared; nothing accepted by 0, done by 0");
    reach[0] = OUT_OF_REACH;
    reach[1] = REPLY_LOST;
    confirm(&g);
    step(replied[1] && how_many(g.confirmed) == 0, "G's message 2 comes to box 1 alone, and the reply is lost");
    reach[0] = IN_REACH;
    reach[1] = OUT_OF_REACH;
    reach[2] = IN_REACH;
    prepare(&g);
    step(g.records[2].box == 2 && g.records[2].result == SPRONDILU_OK, "box 2 is back, and says OK, as box 1 did");
    advance(&g);
    show("G", &g, "G: 3 replies in view 1, 2 confirmations, ABSTAIN declared; abort accepted by 2, done by 2" NOT);
    reach[1] = IN_REACH;
    advance(&g);
    show("G", &g, "G: 3 replies in view 1, 2 confirmations, ABSTAIN declared; abort accepted by 3, done by 3" NOT);
}

/* F again: before message 2 went out its coordinator has waited too long. */
static void giving_up(void)
{
    reach[2] = OUT_OF_REACH;
    prepare(&f);
    show("F", &f, "F: 2 replies in view 1, 0 confirmations, OK not declared; nothing accepted by 0, done by 0");
    give_up(&f);
    show("F", &f, "F: 2 replies in view 1, 0 confirmations, OK not declared; abort accepted by 2, done by 2" NOT);
    reach[2] = IN_REACH;
    advance(&f);
    step(f.accepted[2], "box 2 is back, and hears of the abort; nothing more is counted, sent or declared");
    show("F", &f, "F: 2 replies in view 1, 0 confirmations, OK not declared; abort accepted by 3, done by 3" NOT);
}

static unsigned rows_of(uint8_t box)
{
    return (unsigned)number_at(boxes[box].table + TABLE_ROWS, 4);
}

/*
 * As many transactions of a client as a box has room for, each a write of a register of the client's own; how many that
 * were. They are in the box's memory alone until it stores its table: a restart before that knows nothing of them.
 */
static unsigned fill(uint8_t box, uint8_t client)
{
    uint8_t message[20] = {SPRONDILU_PROPOSE_PREPARE, [10] = 1, [11] = (uint8_t)(50 + client)};
    uint8_t reply[SPRONDILU_REPLY_BYTES];
    unsigned before = rows_of(box);
    uint64_t time = 100;
    do {
        put_number(message + 1, STAMP(time, client), 8);
        time++;
    } while (sprondilu_answer(boxes[box].table, SPRONDILU_TABLE_BYTES, message, sizeof message, reply,
                              sizeof reply) == SPRONDILU_DONE);
    to_ask[box] = true;
    return rows_of(box) - before;
}

/*
 * View 1 began with A to E. So a box may add (512 - 5) / 2 rows in it, rounded down: 253, of which F and G are two.
 * Behind A to G, at the places 0 to 6, lie 251 rows of later stamps, and H belongs between them. By halving its stamp
 * is compared with the rows at 129, 64, 32, 16, 8 and 4, which is E's, then at 6, which is G's, and at 7: eight.
 */
static void no_room_in_this_view(void)
{
    uint64_t before[BOXES] = {0, boxes[1].rows_compared, boxes[2].rows_compared};
    step(fill(1, 3) == 251 && fill(2, 3) == 251, "boxes 1 and 2 take 251 entries, and have no room for H in this view");
    advance(&h);
    show("H", &h, "H: 1 reply in view 1, 0 confirmations, no result; nothing accepted by 0, done by 0");
    step(h.full[1] && h.full[2], "too few boxes have room for H: it waits for a view change");
    advance(&h);
    show("H", &h, "H: 1 reply in view 1, 0 confirmations, no result; abort accepted by 1, done by 0" NOT);
    step(has_asked(1, 3) && has_asked(2, 3), "no view began: H is given up");
    step(has_compared(1, before[1], 24) && has_compared(2, before[2], 24),
         "messages 1, 1 and 3 were refused; for each of them boxes 1 and 2 have compared 8 of their 258 rows");
    step(restart(1) && restart(2), "boxes 1 and 2 are restarted without these entries, and have room again");
    advance(&h);
    show("H", &h, "H: 1 reply in view 1, 0 confirmations, no result; abort accepted by 3, done by 3" NOT);
}

/* For one box's image another's stands in; and an old reply of a box is not taken for one to message 5 or 6. */
static void more_views(void)
{
    reach[0] = IMAGE_LOST;
    bool merged = merge_next_view(2, promised_by(2));
    step(merged && start_view(2) && start_view(0) && start_view(1),
         "the image of box 0 is lost on the way: all begin view 2 with the merge of the other two");
    reach[0] = IN_REACH;
    reach[1] = OLD_REPLY;
    merged = merge_next_view(0, promised_by(0));
    step(merged && start_view(0) && start_view(2) && !start_view(1),
         "boxes 0 and 2 begin view 3; box 1 hears nothing, and an old reply of it proves nothing");
    reach[1] = IN_REACH;
    step(start_view(1), "box 1 begins view 3");
}

/* I is declared by all three boxes, and its handset has stored the commit; but one box alone hears of that. */
static void stored_is_not_recorded(void)
{
    handset_fails = true;
    advance(&i);
    show("I", &i, "I: 0 replies in view 0, 0 confirmations, no result; nothing accepted by 0, done by 0");
    handset_fails = false;
    step(!i.begun, "I's handset could not store it, and nothing went out; now it can");
    prepare(&i);
    reach[1] = OUT_OF_REACH;
    reach[2] = OUT_OF_REACH;
    conclude(&i);
    restart_handset(&i);
    show("I", &i, "I: 3 replies in view 3, 0 confirmations, OK declared; commit accepted by 1, done by 0" WILL);
    step(!is_recorded(i.stamp), "I's handset lost power, and goes on with the commit that it had stored: not yet");
}

/* A view begins without that box. One of the two others accepts the commit there: f+1 acceptances, but in two views. */
static void two_views_are_not_one(void)
{
    reach[0] = OUT_OF_REACH;
    reach[1] = IN_REACH;
    reach[2] = IN_REACH;
    bool merged = merge_next_view(1, promised_by(1));
    step(merged && start_view(1) && start_view(2), "boxes 1 and 2 begin view 4 without box 0, which has the commit");
    reach[0] = IN_REACH;
    reach[2] = OUT_OF_REACH;
    advance(&i);
    show("I", &i, "I: 3 replies in view 3, 0 confirmations, OK declared; commit accepted by 2, done by 0" WILL);
    step(i.accepted_in[0] == 3 && i.accepted_in[1] == 4, "box 0 has accepted it in view 3, box 1 in view 4: not yet");
    reach[2] = IN_REACH;
    advance(&i);
    show("I", &i, "I: 3 replies in view 3, 0 confirmations, OK declared; commit accepted by 3, done by 2: recorded");
    step(start_view(0), "box 0 begins view 4");
    advance(&i);
    show("I", &i, "I: 3 replies in view 3, 0 confirmations, OK declared; commit accepted by 3, done by 3: recorded");
    restart_handset(&i);
    step(i.told == RECORDED, "I's handset lost power once more: it knows that I is recorded, and tells nobody again");
}

/* J is given up after OK was declared. K's handset is lost, and the one in its place counts its stamps anew. */
static void declared_is_not_recorded(void)
{
    prepare(&j);
    give_up(&j);
    show("J", &j, "J: 3 replies in view 4, 0 confirmations, OK declared; abort accepted by 3, done by 3" NOT);
    prepare(&k);
    show("K", &k, "K: 3 replies in view 4, 0 confirmations, OK declared; nothing accepted by 0, done by 0" WILL);
    step(!is_recorded(k.stamp), "K's handset is lost: K will not be recorded, and nobody was told that it is");
    to_report[0] = "a message against the rules was refused";
    advance(&k_again);
    step(has_reported(0) && k_again.told == IN_DOUBT, "K's stamp came once more, with another body");
    restart_handset(&k_again);
    step(k_again.told == IN_DOUBT, "that handset lost power: it sends nothing more, and tells nobody again");
}

/* Another handset has used L's stamp, and reached box 2 alone. The two others accept L's commit: so L is recorded. */
static void recorded_though_a_rule_was_broken(void)
{
    reach[0] = OUT_OF_REACH;
    reach[1] = OUT_OF_REACH;
    prepare(&l_elsewhere);
    reach[0] = IN_REACH;
    reach[1] = IN_REACH;
    reach[2] = OUT_OF_REACH;
    prepare(&l);
    confirm(&l);
    reach[2] = IN_REACH;
    to_report[2] = "a message against the rules was refused";
    conclude(&l);
    show("L", &l, "L: 2 replies in view 4, 2 confirmations, OK declared; commit accepted by 2, done by 0" BROKEN);
    step(has_reported(2), "box 2 holds L's stamp with another body; but f+1 boxes have accepted L's commit");
    restart_handset(&l);
    step(l.told == RECORDED_RULE_BROKEN, "L's handset lost power: it sends nothing more, and tells nobody again");
}

/* What somebody sees to: no view begins with two bodies of one stamp; one that f+1 others begin mends box 2's table. */
static void a_view_without_it(void)
{
    to_report[2] = "the tables could not be merged";
    bool merged = merge_next_view(2, promised_by(2));
    step(!merged && has_reported(2), "box 2 cannot begin view 5: there are two bodies of one stamp");
    merged = merge_next_view(0, promised_by(0));
    step(merged && start_view(0) && start_view(1) && start_view(2),
         "all begin view 6 with the merge of the tables of boxes 0 and 1");
}

/* Whether a register, read in every box after a restart, has this version and this value. */
static bool all_read(uint8_t reg, uint64_t version, uint64_t value)
{
    bool all = true;
    for (uint8_t box = 0; box < BOXES; box++) {
        uint64_t version_there = 1;
        uint64_t value_there = 1;
        all = restart(box) && read_register(box, STAMP(13, 1), reg, &version_there, &value_there) && all;
        all = all && version_there == version && value_there == value;
    }
    return all;
}

static void end(void)
{
    uint64_t version;
    uint64_t value;
    boxes[2].table[0] ^= 1;
    to_report[2] = "the table in memory is damaged";
    bool silent = !read_register(2, STAMP(13, 1), 5, &version, &value) && !replied[2];
    step(has_reported(2) && silent && restart(2),
         "a bit of box 2's memory has turned: it falls silent, and a restart loads its table");
    step(all_read(5, e.stamp, 12), "every box is restarted; register 5 is read in each: 12, as E wrote it");
    step(all_read(11, i.stamp, 5), "register 11 is read in each: 5, as I wrote it");
    step(all_read(13, 0, 0), "register 13, of K, is read in each: it was never written");
    step(all_read(14, l.stamp, 8), "register 14 is read in each: 8, as L wrote it");
}

/*
 * Since its restart each box was asked for a register, and a read searches no stamp. A to L lie at the places 0 to 11.
 * I's stamp is compared with G's at 6, with J's at 9 and with its own at 8: three, for message 3 and for message 4.
 */
static void once_more(void)
{
    conclude(&i);
    step(has_compared(0, 0, 6) && has_compared(1, 0, 6) && has_compared(2, 0, 6),
         "I's commit is sent once more; each box has compared 3 of its 12 rows for message 3, and 3 for message 4");
}

/*
 * View 6 began with 12 rows, so a box may add (512 - 12) / 2 = 250 in it. Boxes 1 and 2 take the same entries. View 7
 * begins with 262 rows, so a box may add (512 - 262) / 2 = 125 in it. M is one of them.
 */
static void a_view_makes_room(void)
{
    step(fill(1, 5) == 250 && fill(2, 5) == 250, "boxes 1 and 2 take 250 entries, the same ones");
    advance(&m);
    show("M", &m, "M: 1 reply in view 6, 0 confirmations, no result; nothing accepted by 0, done by 0");
    step(has_asked(1, 1) && has_asked(2, 1), "M's grower is told nothing yet: a view change makes room");
    bool merged = merge_next_view(1, promised_by(1));
    step(merged && start_view(0) && start_view(1) && start_view(2) && rows_of(0) == 262,
         "all begin view 7 with the merge of the tables of boxes 1 and 2, which has 262 rows");
    advance(&m);
    show("M", &m, "M: 3 replies in view 7, 0 confirmations, OK declared; commit accepted by 3, done by 3: recorded");
}

/* A dry week: boxes 1 and 2 take different entries. Each has kept room for those of the other, so they are merged. */
static void a_dry_week(void)
{
    step(fill(1, 6) == 124 && fill(2, 7) == 124, "boxes 1 and 2 take 124 entries more, but not the same ones");
    advance(&n);
    show("N", &n, "N: 1 reply in view 7, 0 confirmations, no result; nothing accepted by 0, done by 0");
    step(has_asked(1, 1) && has_asked(2, 1), "N waits for a view change");
    reach[0] = OUT_OF_REACH;
    bool merged = merge_next_view(2, promised_by(2));
    reach[0] = IN_REACH;
    step(merged && start_view(0) && start_view(1) && start_view(2) && rows_of(0) == 511,
         "all begin view 8 with the merge of the tables of boxes 1 and 2, which has 511 rows");
}

/* One row is left, and a view has room only if at least f+1 are: now the grower hears of it. All else goes on. */
static void no_room_left(void)
{
    bool reported_all = true;
    for (uint8_t box = 0; box < BOXES; box++) {
        to_report[box] = "the table is full: a new transaction was refused";
    }
    advance(&n);
    for (uint8_t box = 0; box < BOXES; box++) {
        reported_all = has_reported(box) && reported_all;
    }
    show("N", &n, "N: 1 reply in view 7, 0 confirmations, no result; abort accepted by 0, done by 0" NOT);
    step(reported_all, "no box has room for N, and no view change makes room: N is given up");
    conclude(&m);
    step(all_read(15, m.stamp, 9), "M's commit is sent once more; register 15 is read in each: 9, as M wrote it");
    bool merged = merge_next_view(0, promised_by(0));
    step(merged && start_view(0) && start_view(1) && start_view(2) && rows_of(0) == 511,
         "all begin view 9 with the merge of the tables of boxes 0 and 1: a view change goes on too");
}

/* A line for the header, one for each row, and the bodies. */
static void print_image(uint8_t box)
{
    size_t length = image_length(boxes[box].table);
    printf("box %u:\n", box);
    for (size_t place = 0; place < length; place++) {
        printf("%02x%s", boxes[box].table[place], place % 24 == 23 || place + 1 == length ? "\n" : " ");
    }
}

/* What is too long to print. */
static void print_sum(uint8_t box)
{
    size_t length = image_length(boxes[box].table);
    printf("the table of box %u has %u rows, and its image the check sum %08" PRIx32 "\n", box, rows_of(box),
           check_sum(0, boxes[box].table, length));
}

int main(void)
{
    static const uint8_t digits[] = "123456789";
    step(check_sum(0, digits, 9) == 0xcbf43926u, "the check sum of 123456789 is cbf43926, as CRC-32 has it");
    begin();
    fast_and_slow();
    power_cuts();
    clash();
    change_view();
    late_box();
    failing_flash();
    one_result();
    giving_up();
    no_room_in_this_view();
    more_views();
    stored_is_not_recorded();
    two_views_are_not_one();
    declared_is_not_recorded();
    recorded_though_a_rule_was_broken();
    a_view_without_it();
    end();
    once_more();
    for (uint8_t box = 0; box < BOXES; box++) {
        print_image(box);
    }
    a_view_makes_room();
    a_dry_week();
    no_room_left();
    for (uint8_t box = 0; box < BOXES; box++) {
        print_sum(box);
    }
    printf("%s\n", all_as_expected ? "all as expected" : "not all as expected");
    return all_as_expected ? 0 : 1;
}
