/*
 * What the parts of the example share: a box, a transaction, the calls of box.c, and what the hardware has to supply.
 * docs/FIRMWARE.md goes through it. Kinds, codes and places of messages and replies are those of sprondilu.h.
 */
#ifndef BOX_H
#define BOX_H

#include "sprondilu.h"

#include <stdbool.h>

#define BOXES 3  /* n */
#define QUORUM 2 /* f+1 */

/* A table has at most so many rows, and how many it has stands at this place in its image, as a number of 4 bytes. */
#define MOST_ROWS 512
#define TABLE_ROWS 4

/* ---- A box. */

struct box {
    uint8_t number;
    bool answers;           /* if not, the box is silent, and is one of those that are away */
    uint64_t sequence;      /* of what is stored, counted from 1: it lies in slot sequence % 2 */
    uint64_t rows_compared; /* by its searches for stamps, since it was started: a part of what it has fetched */
    uint8_t table[SPRONDILU_TABLE_BYTES];
};

bool box_install(struct box *box, uint8_t number);
bool box_start(struct box *box, uint8_t number);
void box_receive(struct box *box, const uint8_t *message, size_t length);

/* ---- What the hardware of a box supplies. The box is named since all boxes stand in one program here. */

/* The bytes of slot 0 or 1, to be read. A slot has room for SLOT_HEAD bytes and the longest image. */
#define SLOT_HEAD 16
#define SLOT_BYTES (13 * 4096)
const uint8_t *flash_slot(uint8_t box, uint64_t slot);
/* Both say whether they came to their end. */
bool flash_erase(uint8_t box, uint64_t slot);
bool flash_write(uint8_t box, uint64_t slot, size_t at, const uint8_t *bytes, size_t length);

/* 24 bytes back to whoever sent the message. */
void radio_reply(uint8_t box, const uint8_t *reply);

/* What a technician or the grower has to see. A box without power shows nothing: it starts from its storage later. */
void box_report(uint8_t box, const char *what);

/* Asks whoever changes views for a change: the box has no room in this view, and one that begins with its rows has. */
void box_ask_for_view(uint8_t box);

/* ---- A transaction, by its coordinator, which is a handset here. */

struct access {
    uint8_t reg;
    uint64_t number; /* the version that was read, or the value that is written */
};

struct body {
    uint8_t reads;
    uint8_t writes;
    struct access accesses[8]; /* the reads, then the writes; registers rise in each */
};

/* In so many rounds fewer than f+1 boxes have room for an entry before it is given up: a view change may make room. */
#define ROUNDS_WITHOUT_ROOM 2

#define NO_OUTCOME 0 /* where there is neither SPRONDILU_OUTCOME_COMMIT nor SPRONDILU_OUTCOME_ABORT */

/*
 * What the grower is told of an entry, in this order. NOT_RECORDED and IN_DOUBT are told instead of RECORDED: neither
 * comes after it, nor it after one of them.
 */
enum told {
    NOTHING_YET,
    WILL_BE_RECORDED,     /* OK was declared: it will be recorded, if the handset lives */
    RECORDED,             /* f+1 different boxes have accepted its commit in one view, and not before */
    RECORDED_RULE_BROKEN, /* the same, and by then or later a box refused it with 5 or 6: somebody has to see to it */
    NOT_RECORDED,         /* abort was proposed, also if OK had been declared: it has to be entered again */
    IN_DOUBT              /* a rule was broken, and it was not recorded by then: somebody has to see to it */
};

/* All that is known of one stamp. docs/FIRMWARE.md says what a coordinator may still do that has lost a part of it. */
struct transaction {
    uint64_t stamp;
    struct body body;                /* rule 1: the only one that ever goes out under this stamp */
    uint32_t view;                   /* the latest in which boxes replied; once declared, that of the declaration */
    sprondilu_record records[BOXES]; /* rule 3: of the replies in that view, one for each box */
    size_t heard;
    uint8_t result; /* rule 2: the only one that was sent or declared in that view; 0 for none */
    uint64_t retry;
    bool confirmed[BOXES]; /* rule 4: who has confirmed that result in that view */
    bool declared;         /* the result stands; but an OK is no record yet */
    uint8_t outcome;       /* rules 5 and 7: what was proposed; never the other one */
    bool accepted[BOXES];  /* rule 6: who has accepted that, and in which view */
    uint32_t accepted_in[BOXES];
    bool done[BOXES];
    bool recorded;    /* f+1 have accepted the commit in one view: it stands, whatever becomes of the handset */
    enum told told;   /* what the grower was told last */
    bool full[BOXES]; /* who had no room for this stamp when it was asked last */
    unsigned waited;  /* rounds, one behind the other, in which fewer than f+1 boxes had room for it */
    bool begun;       /* stamp and body are stored, so that message 1 may go out */
    bool stopped;     /* a rule was broken, or a reply changed on its way: nothing more is sent */
};

/* Each keeps the rules by itself, in whatever order they are called: what is not allowed, or not yet, is not sent. */
void prepare(struct transaction *t);
void confirm(struct transaction *t);
void conclude(struct transaction *t);
void give_up(struct transaction *t);
void advance(struct transaction *t);
void resume(struct transaction *t);
bool read_register(uint8_t box, uint64_t stamp, uint8_t reg, uint64_t *version, uint64_t *value);

/* ---- What the handset supplies. */

/*
 * Keeps what is known of a stamp through a power cut, and says whether it does. It is called before the first message
 * 1, so that the stamp is never used for another body; before the first message 3, so that the handset goes on with
 * that outcome and never with the other; and before the grower is told a step, so that no step is told twice and what
 * was stopped stays so. Where it fails, or power is cut in the middle, what it kept before has to stay: two slots do
 * that, as in a box. What it keeps is lost with the handset: because of it nobody is told "recorded".
 */
bool handset_store(const struct transaction *t);

/*
 * Shows the grower what `told` says, each step once. A handset that comes on after a power cut shows of each entry the
 * `told` that it has stored, by itself: it may have lost power between the storing of a step and this call.
 */
void handset_show(const struct transaction *t);

/* ---- The view change. */

bool merge_next_view(uint8_t starter, uint32_t promised);
bool start_view(uint8_t box);

/* ---- What the radio of a coordinator, or of a box that changes the view, supplies. */

/*
 * The 24 bytes that a box sent back, whole and unchanged, or NULL if none came. A refusal and a reply to message 7 do
 * not say what was asked: that they answer this message, the radio has to see to. Any other reply may be an old one.
 */
const uint8_t *radio_ask(uint8_t box, const uint8_t *message, size_t length);

/* A box's image, whole and unchanged, as its table buffer held it between two calls; its length, or 0. */
size_t radio_fetch_image(uint8_t box, uint8_t *to);

/* ---- Small helpers. */

void put_number(uint8_t *bytes, uint64_t number, size_t width);
uint64_t number_at(const uint8_t *bytes, size_t width);
uint32_t check_sum(uint32_t sum, const uint8_t *bytes, size_t length);
size_t image_length(const uint8_t *table);
unsigned how_many(const bool *marks);

#endif
