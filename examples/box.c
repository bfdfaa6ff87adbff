/*
 * A box with its storage, a coordinator and a view change, for firmware to start from. Flash and radio are supplied by
 * somebody else: box.h has what is asked of them, and story.c, which plays a group of three boxes, has stand-ins.
 * docs/FIRMWARE.md goes through it.
 */
#include "box.h"

#include <string.h>

/* Numbers in messages, replies and slots: the first byte counts most. */
void put_number(uint8_t *bytes, uint64_t number, size_t width)
{
    for (size_t place = width; place > 0; place--) {
        bytes[place - 1] = (uint8_t)(number & 0xff);
        number >>= 8;
    }
}

uint64_t number_at(const uint8_t *bytes, size_t width)
{
    uint64_t number = 0;
    for (size_t place = 0; place < width; place++) {
        number = number << 8 | bytes[place];
    }
    return number;
}

/* ---- Storage: a table goes to the slot that does not hold the newest one, so a power cut leaves that one whole. */

/* A slot: sequence number 8, length of the image 4, check sum 4; then the image. */
_Static_assert(SLOT_BYTES >= SLOT_HEAD + SPRONDILU_TABLE_BYTES, "the longest image has room in a slot");

/* CRC-32, to be gone on with from what it was of the bytes before; 0 to begin. */
uint32_t check_sum(uint32_t sum, const uint8_t *bytes, size_t length)
{
    sum = ~sum;
    for (size_t place = 0; place < length; place++) {
        sum ^= bytes[place];
        for (int bit = 0; bit < 8; bit++) {
            sum = (sum >> 1) ^ ((sum & 1) != 0 ? 0xedb88320u : 0);
        }
    }
    return ~sum;
}

/* The sequence number of a slot that was written to its end; 0 of any other. */
static uint64_t sequence_in(const uint8_t *slot)
{
    uint64_t length = number_at(slot + 8, 4);
    if (length > SPRONDILU_TABLE_BYTES) {
        return 0;
    }
    uint32_t sum = check_sum(check_sum(0, slot, 12), slot + SLOT_HEAD, length);
    return number_at(slot + 12, 4) == sum ? number_at(slot, 8) : 0;
}

/* The length of the image that a buffer of a table's length begins with; 0 if it begins with none. */
size_t image_length(const uint8_t *table)
{
    uint64_t answer = sprondilu_valid(table, SPRONDILU_TABLE_BYTES);
    return SPRONDILU_NUMBER_OF(answer) == SPRONDILU_DONE ? SPRONDILU_LENGTH_OF(answer) : 0;
}

static bool is_stored(const struct box *box, size_t length)
{
    const uint8_t *slot = flash_slot(box->number, box->sequence % 2);
    bool as_long = box->sequence > 0 && number_at(slot + 8, 4) == length;
    return as_long && memcmp(slot + SLOT_HEAD, box->table, length) == 0;
}

/* The head is written last: without it a slot counts for nothing. */
static bool store_table(struct box *box)
{
    uint8_t head[SLOT_HEAD];
    size_t length = image_length(box->table);
    uint64_t sequence = box->sequence + 1;
    uint64_t slot = sequence % 2;
    if (length == 0 || is_stored(box, length)) {
        return length > 0; /* a read, or a message that came twice, changes nothing and wears nothing */
    }
    put_number(head, sequence, 8);
    put_number(head + 8, length, 4);
    put_number(head + 12, check_sum(check_sum(0, head, 12), box->table, length), 4);
    bool written = flash_erase(box->number, slot) &&
                   flash_write(box->number, slot, SLOT_HEAD, box->table, length) &&
                   flash_write(box->number, slot, 0, head, SLOT_HEAD);
    if (!written || sequence_in(flash_slot(box->number, slot)) != sequence) {
        return false; /* also where it does not read back as it was written */
    }
    box->sequence = sequence;
    return true;
}

static bool is_blank(const uint8_t *slot)
{
    size_t place = 0;
    while (place < SLOT_BYTES && slot[place] == 0xff) {
        place++;
    }
    return place == SLOT_BYTES;
}

/* Once in the life of a box in its group, by whoever installs it: a box that has answered anybody stays as it is. */
bool box_install(struct box *box, uint8_t number)
{
    if (!is_blank(flash_slot(number, 0)) || !is_blank(flash_slot(number, 1))) {
        return false;
    }
    box->number = number;
    box->sequence = 0;
    box->rows_compared = 0;
    box->answers = sprondilu_fresh(box->table, sizeof box->table, BOXES, number) == SPRONDILU_DONE && store_table(box);
    return box->answers;
}

/* When power comes back: the newest slot that was written to its end, if this box's table is in it; else silence. */
bool box_start(struct box *box, uint8_t number)
{
    uint64_t even = sequence_in(flash_slot(number, 0));
    uint64_t odd = sequence_in(flash_slot(number, 1));
    const uint8_t *newest = flash_slot(number, even > odd ? 0 : 1);
    box->number = number;
    box->sequence = even > odd ? even : odd;
    box->rows_compared = 0;
    box->answers = false;
    if (box->sequence > 0) {
        size_t length = number_at(newest + 8, 4);
        memcpy(box->table, newest + SLOT_HEAD, length);
        box->answers = image_length(box->table) == length && box->table[SPRONDILU_TABLE_BOX] == number &&
                       box->table[SPRONDILU_TABLE_N] == BOXES;
    }
    return box->answers;
}

/* ---- The box: one message in, at most one reply out. */

/* A box that cannot stand by an answer gives none, until a restart has loaded its table; somebody has to see to it. */
static void fall_silent(struct box *box, const char *why)
{
    box->answers = false;
    box_report(box->number, why);
}

/* The number of the library's answer. What its search has compared is added up, also where the message is refused. */
static uint8_t answer_message(struct box *box, const uint8_t *message, size_t length, uint8_t *reply)
{
    uint64_t answer = sprondilu_answer_compared(box->table, sizeof box->table, message, length, reply,
                                                SPRONDILU_REPLY_BYTES);
    box->rows_compared += SPRONDILU_COMPARED_OF(answer);
    return (uint8_t)SPRONDILU_NUMBER_OF(answer);
}

/*
 * Whether a view that begins with the rows of this box has room: at least one row for each of the f+1 tables of a
 * merge. More is not known here: others may bring more rows into the merge. Then the box refuses again, and says so.
 */
static bool view_makes_room(const struct box *box)
{
    return MOST_ROWS - number_at(box->table + TABLE_ROWS, 4) >= QUORUM;
}

/* Nothing is dropped silently: the sender hears of it, and so does whoever can make room; if nobody can, the grower. */
static void tell_of_no_room(const struct box *box)
{
    if (view_makes_room(box)) {
        box_ask_for_view(box->number);
    } else {
        box_report(box->number, "the table is full: a new transaction was refused");
    }
}

void box_receive(struct box *box, const uint8_t *message, size_t length)
{
    uint8_t reply[SPRONDILU_REPLY_BYTES];
    if (!box->answers) {
        return;
    }
    switch (answer_message(box, message, length, reply)) {
    case SPRONDILU_DONE: /* what was answered outlives every power cut: it is stored before the reply goes out */
        if (!store_table(box)) {
            fall_silent(box, "the table could not be stored");
        }
        break;
    case SPRONDILU_SMALL_BUFFER: /* no byte was written, so there is no reply: a mistake of this program */
        box_report(box->number, "a buffer is too small");
        return;
    case SPRONDILU_BAD_TABLE: /* memory went bad; what is stored is from before that */
        fall_silent(box, "the table in memory is damaged");
        break;
    case SPRONDILU_OTHER_BODY:
    case SPRONDILU_CONTRADICTION: /* the table has not changed; whoever sent it has to stop */
        box_report(box->number, "a message against the rules was refused");
        break;
    case SPRONDILU_FULL: /* no room for a new stamp in this view; what is held is served as before */
        tell_of_no_room(box);
        break;
    case SPRONDILU_BAD_MESSAGE:
    case SPRONDILU_CHANGING:
    case SPRONDILU_UNKNOWN:
    case SPRONDILU_OTHER_VIEW:
    case SPRONDILU_OLD_VIEW: /* the table has not changed, so nothing is stored: what to do is the sender's affair */
        break;
    default: /* SPRONDILU_WRONG_TABLES is a merge's, and there is no other number */
        fall_silent(box, "a number came that no answer has");
    }
    if (box->answers) {
        radio_reply(box->number, reply);
    }
}

/* ---- Messages 1 to 4 and 7, which begin with kind and stamp. */

struct letter {
    size_t length;
    uint8_t bytes[SPRONDILU_SMALL_MESSAGE_BYTES];
};

static void add(struct letter *letter, uint64_t number, size_t width)
{
    put_number(letter->bytes + letter->length, number, width);
    letter->length += width;
}

static void add_body(struct letter *letter, const struct body *body)
{
    add(letter, body->reads, 1);
    add(letter, body->writes, 1);
    for (int place = 0; place < body->reads + body->writes; place++) {
        add(letter, body->accesses[place].reg, 1);
        add(letter, body->accesses[place].number, 8);
    }
}

static struct letter letter_about(uint8_t kind, uint64_t stamp)
{
    struct letter letter = {0};
    add(&letter, kind, 1);
    add(&letter, stamp, 8);
    return letter;
}

/* ---- Replies, by the places of their parts. */

static uint32_t view_of(const uint8_t *reply)
{
    return (uint32_t)number_at(reply + SPRONDILU_REPLY_VIEW, 4);
}

static uint64_t stamp_of(const uint8_t *reply)
{
    return number_at(reply + SPRONDILU_REPLY_STAMP, 8);
}

static uint64_t value_of(const uint8_t *reply)
{
    return number_at(reply + SPRONDILU_REPLY_VALUE, 8);
}

/* Whether a reply is numbered 0, and to a message of this kind from this box: an old one may come in late. */
static bool is_done(const uint8_t *reply, uint8_t kind, uint8_t box)
{
    return reply != NULL && reply[SPRONDILU_REPLY_NUMBER] == SPRONDILU_DONE && reply[SPRONDILU_REPLY_KIND] == kind &&
           reply[SPRONDILU_REPLY_BOX] == box;
}

/* ---- The coordinator. */

/* Rule 5: whether a box has given this coordinator an answer numbered 0, of whatever kind, and the latest view so. */
static bool has_answered[BOXES];
static uint32_t answered_in[BOXES];

unsigned how_many(const bool *marks)
{
    unsigned marked = 0;
    for (uint8_t box = 0; box < BOXES; box++) {
        marked += marks[box];
    }
    return marked;
}

/* The reply to a message if its number is 0, else NULL. A refusal says nothing but its number. */
static const uint8_t *ask(uint8_t box, const struct letter *letter, uint8_t *refusal)
{
    const uint8_t *reply = radio_ask(box, letter->bytes, letter->length);
    *refusal = reply == NULL ? SPRONDILU_DONE : reply[SPRONDILU_REPLY_NUMBER];
    if (!is_done(reply, letter->bytes[0], box)) {
        return NULL;
    }
    if (!has_answered[box] || answered_in[box] < view_of(reply)) {
        answered_in[box] = view_of(reply);
    }
    has_answered[box] = true;
    return reply;
}

/* The state byte of a final result lies so far above the result's code. */
#define FINAL (SPRONDILU_FINAL_OK - SPRONDILU_OK)

/* A reply to message 1 or 2, for the count. Once a later view was heard, replies of older ones count no more. */
static void take_record(struct transaction *t, const uint8_t *reply)
{
    sprondilu_record record = {.box = reply[SPRONDILU_REPLY_BOX], .view = view_of(reply), .retry = value_of(reply)};
    uint8_t state = reply[SPRONDILU_REPLY_STATE];
    size_t place = 0;
    record.is_final = state >= SPRONDILU_FINAL_OK;
    record.result = record.is_final ? (uint8_t)(state - FINAL) : state;
    if (t->declared || record.view < t->view) {
        return;
    }
    if (record.view > t->view) {
        t->view = record.view;
        t->heard = 0;
        t->result = 0;
        memset(t->confirmed, 0, sizeof t->confirmed);
    }
    while (place < t->heard && t->records[place].box != record.box) {
        place++;
    }
    t->records[place] = record; /* a box that answers again counts once, as it answered last */
    t->heard += place == t->heard;
}

/*
 * What the grower is told, after each round of messages and not within it. Only f+1 acceptances in one view make an
 * entry recorded: an OK that was declared, and a commit that the handset has stored, are lost with the handset, since
 * nobody goes on in its place. What is told is stored first, so that it is not told again after a power cut.
 */
static void tell(struct transaction *t)
{
    enum told now = NOTHING_YET;
    if (t->recorded) {
        now = t->stopped ? RECORDED_RULE_BROKEN : RECORDED;
    } else if (t->stopped) {
        now = IN_DOUBT;
    } else if (t->outcome == SPRONDILU_OUTCOME_ABORT) {
        now = NOT_RECORDED;
    } else if (t->declared && t->result == SPRONDILU_OK) {
        now = WILL_BE_RECORDED;
    }
    if (t->told != now) {
        t->told = now;
        /*
         * Where this fails the grower is told all the same: what is recorded stands in the boxes. After a power cut the
         * handset then goes on from what it had stored before. It may tell this step again, and may find recorded what
         * it had called in doubt.
         */
        (void)handset_store(t);
        handset_show(t);
    }
}

static void send_to(struct transaction *t, uint8_t box, const struct letter *letter)
{
    uint8_t refusal = SPRONDILU_DONE;
    const uint8_t *reply = t->stopped ? NULL : ask(box, letter, &refusal);
    t->stopped = t->stopped || refusal == SPRONDILU_OTHER_BODY || refusal == SPRONDILU_CONTRADICTION;
    t->full[box] = refusal == SPRONDILU_FULL || (t->full[box] && reply == NULL);
    if (reply == NULL || stamp_of(reply) != t->stamp) {
        return; /* of another stamp, or late: nothing is taken from it */
    }
    uint8_t state = reply[SPRONDILU_REPLY_STATE];
    switch (reply[SPRONDILU_REPLY_KIND]) {
    case SPRONDILU_PROPOSE_PREPARE:
        take_record(t, reply);
        break;
    case SPRONDILU_FINALISE_PREPARE:
        take_record(t, reply);
        if (view_of(reply) == t->view && state == t->result + FINAL && value_of(reply) == t->retry) {
            t->confirmed[box] = true;
        }
        break;
    case SPRONDILU_PROPOSE_OUTCOME:
        t->accepted[box] = true;
        t->accepted_in[box] = view_of(reply);
        break;
    case SPRONDILU_FINALISE_OUTCOME:
        t->done[box] = true;
        break;
    }
}

/* What the replies come to, if no result was sent in their view yet. */
static void count(struct transaction *t)
{
    if (t->stopped || t->result != 0) {
        return; /* rule 2: a result that was sent stays the only one in its view, whatever more replies come to */
    }
    uint64_t answer = sprondilu_count_records(BOXES, t->records, t->heard);
    if (SPRONDILU_NUMBER_OF(answer) != SPRONDILU_DONE) {
        t->stopped = true; /* 3: this program put the records together wrongly; 6: somebody broke a rule */
    } else if (SPRONDILU_KIND_OF(answer) != SPRONDILU_WAIT) {
        t->result = (uint8_t)SPRONDILU_RESULT_OF(answer);
        t->retry = SPRONDILU_RETRY_OF(answer);
        t->declared = SPRONDILU_KIND_OF(answer) == SPRONDILU_FAST;
    }
}

/* Message 1 to all boxes, and what the replies come to. Who has the time waits for all of them before the count. */
void prepare(struct transaction *t)
{
    if (t->outcome != NO_OUTCOME) {
        return; /* rule 7: nothing is counted any more, so nothing is declared */
    }
    t->begun = t->begun || handset_store(t);
    if (!t->begun) {
        return; /* rule 1: a stamp that could be forgotten could go out with a second body */
    }
    struct letter letter = letter_about(SPRONDILU_PROPOSE_PREPARE, t->stamp);
    add_body(&letter, &t->body);
    for (uint8_t box = 0; box < BOXES; box++) {
        send_to(t, box, &letter);
    }
    count(t);
    tell(t);
}

/* Message 2 with the slow result, for the view of the replies; declared once f+1 boxes have confirmed it there. */
void confirm(struct transaction *t)
{
    if (t->outcome != NO_OUTCOME || t->declared || t->result == 0) {
        return; /* rule 7; what was declared stays so; and rule 3: without a result there is nothing to send */
    }
    struct letter letter = letter_about(SPRONDILU_FINALISE_PREPARE, t->stamp);
    add(&letter, t->view, 4);
    add(&letter, t->result, 1);
    add(&letter, t->retry, 8);
    for (uint8_t box = 0; box < BOXES; box++) {
        send_to(t, box, &letter);
    }
    t->declared = !t->stopped && how_many(t->confirmed) >= QUORUM;
    tell(t);
}

/* Message 7, which any box may be asked at any time: the version and the value of a register as this box has them. */
bool read_register(uint8_t box, uint64_t stamp, uint8_t reg, uint64_t *version, uint64_t *value)
{
    uint8_t refusal;
    struct letter letter = letter_about(SPRONDILU_READ, stamp);
    add(&letter, reg, 1);
    const uint8_t *reply = ask(box, &letter, &refusal);
    if (reply != NULL) {
        *version = stamp_of(reply);
        *value = value_of(reply);
    }
    return reply != NULL;
}

/* Rule 5: a commit is told only to a box that has answered in the view of the declaration or a later one. */
static bool may_commit(const struct transaction *t, uint8_t box)
{
    uint64_t version, value;
    if (!has_answered[box] || answered_in[box] < t->view) {
        read_register(box, t->stamp, 0, &version, &value); /* the answer has its view */
    }
    return has_answered[box] && answered_in[box] >= t->view;
}

/* Rule 6: whether f+1 boxes have accepted the outcome in one view, and which. */
static bool accepted_in_one(const struct transaction *t, uint32_t *view)
{
    for (uint8_t box = 0; box < BOXES; box++) {
        bool same[BOXES];
        for (uint8_t other = 0; other < BOXES; other++) {
            same[other] = t->accepted[box] && t->accepted[other] && t->accepted_in[other] == t->accepted_in[box];
        }
        *view = t->accepted_in[box];
        if (how_many(same) >= QUORUM) {
            return true;
        }
    }
    return false;
}

/* Rule 5: whether an outcome may be proposed. It is stored first: after a power cut the handset goes on with it. */
static bool take_outcome(struct transaction *t, uint8_t outcome)
{
    uint8_t before = t->outcome;
    if (t->stopped || (t->outcome != NO_OUTCOME && t->outcome != outcome)) {
        return false; /* never both outcomes */
    }
    t->outcome = outcome;
    if (before == NO_OUTCOME && !handset_store(t)) {
        t->outcome = NO_OUTCOME; /* nothing was sent: it may be tried again */
        return false;
    }
    return true;
}

/* Message 4, to those that have accepted message 3. */
static void finish(struct transaction *t, uint32_t view)
{
    struct letter letter = letter_about(SPRONDILU_FINALISE_OUTCOME, t->stamp);
    add(&letter, view, 4);
    add(&letter, t->outcome, 1);
    for (uint8_t box = 0; box < BOXES; box++) {
        if (t->accepted[box]) {
            send_to(t, box, &letter);
        }
    }
    tell(t);
}

/* Messages 3 and 4, as often as it takes: to propose the same again is no harm, and finds who missed it. */
static void propose(struct transaction *t, uint8_t outcome)
{
    uint32_t view;
    if (!take_outcome(t, outcome)) {
        return;
    }
    struct letter letter = letter_about(SPRONDILU_PROPOSE_OUTCOME, t->stamp);
    add(&letter, t->outcome, 1);
    add_body(&letter, &t->body);
    for (uint8_t box = 0; box < BOXES && !t->stopped; box++) {
        if (t->outcome == SPRONDILU_OUTCOME_ABORT || may_commit(t, box)) {
            send_to(t, box, &letter);
        }
    }
    bool in_one = accepted_in_one(t, &view);
    if (in_one && t->outcome == SPRONDILU_OUTCOME_COMMIT) {
        t->recorded = true; /* f+1 boxes hold it, also where another one has refused it in the same round */
    }
    tell(t);
    if (in_one) {
        finish(t, view);
    }
}

/*
 * What follows from the declared result; or once more what was proposed, for those that missed it. To try again after
 * an abort is another transaction, under a new stamp. After RETRY that is one above t->retry: the latest one, committed
 * or prepared, that has read or written what this one writes. Boxes may give different retry stamps; a slow answer has
 * the greatest. After ABORT the registers are read again first, since a committed one has written what was read. After
 * ABSTAIN the same is done later, when the one in the way may be finished. An entry for an earlier time gets no OK
 * under a later one that was accepted on one of its registers.
 */
void conclude(struct transaction *t)
{
    if (t->outcome != NO_OUTCOME) {
        propose(t, t->outcome);
    } else if (t->declared) { /* rule 5: of a result that is not declared nothing follows */
        propose(t, t->result == SPRONDILU_OK ? SPRONDILU_OUTCOME_COMMIT : SPRONDILU_OUTCOME_ABORT);
    }
}

/* Abort without a result, or against one: allowed until commit was proposed. Nobody was told "recorded" by then. */
void give_up(struct transaction *t)
{
    propose(t, SPRONDILU_OUTCOME_ABORT);
}

/*
 * After a power cut of the handset, with what it has stored: that outcome again, or abort where it had stored none.
 * What was told is stored too, and is not told again; and what was stopped stays so.
 */
void resume(struct transaction *t)
{
    propose(t, t->outcome != NO_OUTCOME ? t->outcome : SPRONDILU_OUTCOME_ABORT);
}

/*
 * One round, to be repeated after a loss: 4, 7, 8 and 9 are met by message 1 again or, with an outcome, by message 3.
 * Boxes that have no room ask for a view change where one makes room. So an entry waits for that before it is given up.
 */
void advance(struct transaction *t)
{
    prepare(t);
    confirm(t);
    conclude(t);
    bool too_few_have_room = how_many(t->full) > BOXES - QUORUM;
    t->waited = too_few_have_room ? t->waited + 1 : 0;
    if (t->waited >= ROUNDS_WITHOUT_ROOM) {
        give_up(t);
    }
}

/* ---- The view change, made by the box whose number is the view's modulo n. */

static uint8_t run[QUORUM * SPRONDILU_TABLE_BYTES];
static uint8_t start_message[SPRONDILU_MESSAGE_BYTES]; /* kept for as long as a box may be late */
static uint8_t *const start_image = start_message + SPRONDILU_START_VIEW_IMAGE;
static size_t start_length;

/*
 * `promised` is the view that the starter itself has promised last. Its promise of the new one comes first, and is
 * stored: after a power cut it goes on above that. So for one view there is one image and no second one.
 */
bool merge_next_view(uint8_t starter, uint32_t promised)
{
    uint8_t message[] = {SPRONDILU_CHANGE_VIEW, 0, 0, 0, 0};
    uint32_t view = promised + 1;
    size_t run_length = 0;
    unsigned images = 0;
    while (view % BOXES != starter) {
        view++;
    }
    put_number(message + 1, view, 4);
    for (uint8_t turn = 0; turn < BOXES && images < QUORUM; turn++) {
        uint8_t box = (uint8_t)((starter + turn) % BOXES);
        const uint8_t *reply = radio_ask(box, message, sizeof message);
        if (is_done(reply, SPRONDILU_CHANGE_VIEW, box) && stamp_of(reply) == view) {
            size_t length = radio_fetch_image(box, run + run_length);
            run_length += length;
            images += length > 0; /* for one that did not arrive the next box may stand in */
        } else if (turn == 0) {
            return false;
        }
    }
    if (images < QUORUM) {
        return false; /* too few have promised, or too few images came: a later view may mend it */
    }
    uint8_t number = sprondilu_merge(run, run_length, view, start_image, SPRONDILU_TABLE_BYTES);
    if (number != SPRONDILU_DONE) {
        if (number != SPRONDILU_WRONG_TABLES) { /* 11: one of them has promised a later view since */
            box_report(starter, "the tables could not be merged");
        }
        return false;
    }
    start_message[0] = SPRONDILU_START_VIEW;
    put_number(start_message + 1, view, 4);
    start_length = SPRONDILU_START_VIEW_IMAGE + image_length(start_image);
    return true;
}

/* Message 6, as often as it takes: 10 says that the box is in this view already, or is bound for a later one. */
bool start_view(uint8_t box)
{
    const uint8_t *reply = radio_ask(box, start_message, start_length);
    return is_done(reply, SPRONDILU_START_VIEW, box) && view_of(reply) == number_at(start_message + 1, 4);
}
