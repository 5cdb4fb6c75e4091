/*
 * The tray store: readings of egg trays, shared by the stations of a grading line, one small step at a time.
 *
 * Terms
 *   tray      a number of 64 bits, 1 to 18,446,744,073,709,551,614; the lent words hold it as two halves, see TRAY_NUMBER
 *   reading   a value and a stamp, both any 32-bit number; a tray's readings are kept newest first. Their meaning is
 *             the caller's. Stamps are compared as unsigned numbers and do not wrap.
 *   station   a number from 0, below the count given at opening; it has one call at most at a time
 *   call      a put of a reading, a get of the newest one or a sweep over a span of trays: started, then given step after
 *             step until one answers done
 *   event     an accepted start, or a step not refused (a wait too); its tick is the count of events so far, from 1
 *   effect    each finished put and get took effect as a whole at one of its own steps. All their answers are those of
 *             these calls done one after another in the order of their effect ticks, in whatever order the stations were
 *             turned.
 *   span      the trays from a first number to a last, both included
 *   sweep     lists a span in rising order of the trays, one a step, while other calls go on. It has no effect and changes
 *             no answer of theirs. Each reading that it shows was the newest of its tray at the tick of that step. When it
 *             is done, every tray of the span that was there at its start was shown exactly once, every other at most once.
 *             It is no picture of one moment: see tray_start_sweep.
 *   draw      16 random bits that a put brings; they settle the top level of a new tray, see tray_start_put
 *   K, V      how many trays and how many readings there is room for. Nothing is ever removed.
 *
 * The store is the words that the caller lends with each call: a state, a node table, a reading table and, for a step,
 * a tally. There is nothing else: no function has memory of its own, allocates, calls anything but memcpy and memset,
 * or holds a pointer after it returns. So stores can stand side by side, and the words may be copied between calls and used on.
 *
 * The caller owes
 *   - true lengths: each buffer has at least as many words (uint32_t, not bytes) as the length passed with it, an
 *     `answer` as many as its declaration says, a `tick` one;
 *   - valid pointers, aligned for uint32_t, never null;
 *   - buffers of one call that do not overlap, `answer` and `tick` included;
 *   - one caller at a time: while a call runs, nothing else (thread, interrupt, DMA) touches its buffers. Calls on
 *     stores that share no buffer may run at the same time;
 *   - the same state, tables and tally, unaltered, from one call to the next.
 * The last is tested as far as refusals 10 and 11 go: with any words at all in the buffers no function reads or writes
 * outside them, and each ends. The first four cannot be tested.
 */
#ifndef TRAY_STORE_H
#define TRAY_STORE_H

#include <stddef.h>
#include <stdint.h>

#ifdef __cplusplus
extern "C" {
#endif

/* ---- Sizes and limits ------------------------------------------------------------------------------------------- */

#define TRAY_VERSION 3u              /* the number of the layout, word 0 of every state; 1 had trays of 32 bits, 2 no sweep */

#define TRAY_STATE_WORDS 177u        /* words of a state */
#define TRAY_TALLY_WORDS 7u          /* words of a tally, one for each answer of a put or a get */
#define TRAY_WORDS_PER_NODE 16u
#define TRAY_WORDS_PER_READING 3u
#define TRAY_WORDS_PER_STATION 21u

/* Words of the tables, for static arrays. The count is not tested here: tray_open refuses what is out of range. */
#define TRAY_NODE_WORDS(trays) (TRAY_WORDS_PER_NODE * ((trays) + 1u))
#define TRAY_READING_WORDS(readings) (TRAY_WORDS_PER_READING * ((readings) + 1u))

#define TRAY_MAX_TRAYS 1023u         /* K is 1 to this: a node table of 32 to 16,384 words, a multiple of 16 */
#define TRAY_MAX_READINGS 4095u      /* V is 1 to this: a reading table of 6 to 12,288 words, a multiple of 3 */
#define TRAY_MAX_STATIONS 8u         /* stations are 1 to this */
#define TRAY_MAX_EVENTS 1000000000u  /* the event limit is 1 to this */
#define TRAY_TOP_LEVEL 5u            /* levels are 0 to this */
#define TRAY_LEVELS 6u
#define TRAY_MAX_COUNT 4294967295u   /* a count of the tally that has come here stays here */

/* Tray numbers are the first of these to the last, as uint64_t. */
#define TRAY_FIRST_TRAY UINT64_C(1)
#define TRAY_LAST_TRAY UINT64_C(18446744073709551614)

/* ---- Numbers ---------------------------------------------------------------------------------------------------- */

/*
 * What a call returns: 0, or the number of the first refusal, in the order told at the call, whose condition holds.
 * A refused call changes no word of state, tables and tally, takes no tick, and sets all its answer words to 0. The
 * one exception is tray_open, which leaves a closed state.
 *
 *  1 NODE_LENGTH     node table not a multiple of 16 words from 32 to 16,384
 *  2 READING_LENGTH  reading table not a multiple of 3 words from 6 to 12,288
 *  3 STATION_COUNT   stations not 1 to 8
 *  4 EVENT_LIMIT     event limit not 1 to 1,000,000,000
 *  5 NO_STATION      station number not below the store's count of stations
 *  6 BAD_TRAY        tray number 0 or 18,446,744,073,709,551,615; at the start of a sweep either end
 *  7 BUSY            a start at a station that has a call; an inspection while any station below the count has one
 *  8 NO_CALL         a step of a station that has no call
 *  9 SPENT           the count of events has come to the event limit
 * 10 CORRUPT         the words lent are no open state, or do not go together. One of these:
 *                      state_words is not 177, or word 0 is not 3, or word 1 is not 1 (0: closed);
 *                      a kind above 3, a phase above 9 or an answer above 7 in the words of a station that the call uses:
 *                      at a start, a step and standing the station asked (0 to 7, below the count or not); at an
 *                      inspection those below the count; at a look none;
 *                      stations, event limit, a table's length, trays made (above K) or readings held (above V) outside
 *                      the limits above, or events above the event limit;
 *                      a table's length in the state unlike the length lent (not at standing, which is lent none);
 *                      at a step, tally_words is not 7.
 *                    At tray_open: state_words is not 177.
 * 11 DAMAGED         the memory that the call met was altered.
 *                    At any step: a level above 5; a node p that is not in use; a get outside walk and read; a sweep
 *                      outside walk and follow; a put in read or follow; a get or a sweep with an effect tick; a put at
 *                      release, or with an effect tick, whose answer no put gives (found, none, swept).
 *                    At a step that needs it: a top level above 5; a node or place not in use that the step reads from,
 *                      writes to, follows, compares or takes up as p (a link that make or link only copies is not
 *                      tested); the end where update needs a node; a new node or a newest reading numbered 0 (a sweep
 *                      reads the newest reading of the trays that it shows, of no others).
 *                    At a look: a newest reading 0 or not in use; a previous place not smaller than its own.
 * 12 NO_TRAY         no such tray
 * 13 NO_READING      fewer readings than asked
 * 17 BAD_SPAN        first tray above the last, at the start of a sweep
 *
 * 14 to 16 are numbers of the sheet program; no call here gives them.
 */
enum tray_refusal {
    TRAY_OK = 0,
    TRAY_REFUSED_NODE_LENGTH = 1,
    TRAY_REFUSED_READING_LENGTH = 2,
    TRAY_REFUSED_STATION_COUNT = 3,
    TRAY_REFUSED_EVENT_LIMIT = 4,
    TRAY_REFUSED_NO_STATION = 5,
    TRAY_REFUSED_BAD_TRAY = 6,
    TRAY_REFUSED_BUSY = 7,
    TRAY_REFUSED_NO_CALL = 8,
    TRAY_REFUSED_SPENT = 9,
    TRAY_REFUSED_CORRUPT = 10,
    TRAY_REFUSED_DAMAGED = 11,
    TRAY_REFUSED_NO_TRAY = 12,
    TRAY_REFUSED_NO_READING = 13,
    TRAY_REFUSED_BAD_SPAN = 17
};

/* What a station is doing. */
enum tray_kind {
    TRAY_KIND_IDLE = 0,
    TRAY_KIND_PUT = 1,
    TRAY_KIND_GET = 2,
    TRAY_KIND_SWEEP = 3
};

/*
 * How a call ends. The number of a put's or a get's answer is also the place of its count in the tally. Swept is counted
 * nowhere: its number is TRAY_TALLY_WORDS, one past the last place, so tally[answer] is not to be read for a sweep.
 */
enum tray_answer {
    TRAY_ANSWER_TOO_OLD = 0,       /* put: the stamp is below that of the tray's newest reading; nothing is kept */
    TRAY_ANSWER_READINGS_FULL = 1, /* put: V readings are held; nothing is kept */
    TRAY_ANSWER_ADDED = 2,         /* put: the reading is now the newest of a tray that was there; equal stamps too */
    TRAY_ANSWER_TRAYS_FULL = 3,    /* put: the tray is not there and K trays are; nothing is kept */
    TRAY_ANSWER_NEW = 4,           /* put: the reading is the first of a tray that was not there */
    TRAY_ANSWER_FOUND = 5,         /* get: the tray's newest reading is told */
    TRAY_ANSWER_NONE = 6,          /* get: the tray is not there */
    TRAY_ANSWER_SWEPT = 7          /* sweep: the end of the span was met */
};
/* For a tray that is there, too old comes before readings full; for one that is not, trays full before readings full. */

/* What a step did. */
enum tray_outcome {
    TRAY_OUTCOME_ON = 0,           /* the call went one step on */
    TRAY_OUTCOME_WAIT = 1,         /* another station holds the lock needed; only the count of events changed */
    TRAY_OUTCOME_DONE = 2,         /* the call finished and the station is idle again */
    TRAY_OUTCOME_SHOWN = 3         /* a sweep went on to a tray of its span and shows it; the call runs on */
};

/* Where a call stands: the phase that its next step does. For node p and level L see the words of a station. */
enum tray_phase {
    TRAY_PHASE_WALK = 0,           /* down from level 5 and along to the tray's place; a sweep to the first's */
    TRAY_PHASE_READ = 1,           /* get: the effect, found */
    TRAY_PHASE_SEEK = 2,           /* put: along level L to the tray's place */
    TRAY_PHASE_LOCK = 3,           /* put: take the lock of p at L, or wait */
    TRAY_PHASE_CHECK = 4,          /* put: the place once more, under the lock; where a tray was put in, back to seek */
    TRAY_PHASE_UPDATE = 5,         /* put: the effect, on the tray behind p */
    TRAY_PHASE_MAKE = 6,           /* put: the effect, a new node behind p */
    TRAY_PHASE_LINK = 7,           /* put: the new node behind p at level L */
    TRAY_PHASE_RELEASE = 8,        /* put: free the lock; a new tray goes on one level up, to its top level */
    TRAY_PHASE_FOLLOW = 9          /* sweep: along level 0, one tray a step, to the end of the span */
};

/* What an inspection found. */
enum tray_inspection {
    TRAY_SOUND = 0,
    TRAY_FAULT = 1
};

/* ---- Layout of the lent words ----------------------------------------------------------------------------------- */

/*
 * For reading, by a debugger or a display. Only the calls below write them.
 *
 * A tray number takes two words wherever it stands (in a station, in a node, in what a sweep shows), its low and its high half:
 * low + 2^32 * high. Numbers up to 4,294,967,295 have a high half of 0. TRAY_NUMBER puts the halves together.
 */
#define TRAY_NUMBER(low, high) ((uint64_t)(high) << 32 | (uint32_t)(low))

/* State: nine words, then 21 words for each of eight stations, those not below the count included. */
enum tray_state_word {
    TRAY_STATE_VERSION = 0,        /* 3 */
    TRAY_STATE_OPENED = 1,         /* 1; 0 in a closed state */
    TRAY_STATE_STATIONS = 2,       /* as given at opening */
    TRAY_STATE_LIMIT = 3,          /* as given at opening */
    TRAY_STATE_EVENTS = 4,         /* events so far: the tick of the last one, never above the limit */
    TRAY_STATE_NODE_WORDS = 5,     /* words of the node table, 16 * (K + 1) */
    TRAY_STATE_READING_WORDS = 6,  /* words of the reading table, 3 * (V + 1) */
    TRAY_STATE_TRAYS = 7,          /* trays made, at most K: nodes 0 to this are in use */
    TRAY_STATE_READINGS = 8,       /* readings held, at most V: places 1 to this are in use */
    TRAY_STATE_FIRST_STATION = 9
};

/* Where a station's words begin in the state. */
#define TRAY_STATION_AT(station) ((size_t)TRAY_STATE_FIRST_STATION + TRAY_WORDS_PER_STATION * (size_t)(station))

/* A station without a call has TRAY_ANSWER_NONE (6) as its answer and 0 in its other words. */
enum tray_station_word {
    TRAY_STATION_KIND = 0,         /* enum tray_kind */
    TRAY_STATION_TRAY_LOW = 1,     /* what the start was given, from here to the stamp; for a sweep its first tray */
    TRAY_STATION_TRAY_HIGH = 2,
    TRAY_STATION_LAST_LOW = 3,     /* the last tray of a sweep; for a put and a get their tray once more */
    TRAY_STATION_LAST_HIGH = 4,
    TRAY_STATION_VALUE = 5,        /* of a put; 0 for a get and a sweep, and so are stamp and top level */
    TRAY_STATION_STAMP = 6,
    TRAY_STATION_TOP = 7,          /* top level, from the draw */
    TRAY_STATION_START = 8,        /* tick of the start */
    TRAY_STATION_PHASE = 9,        /* enum tray_phase */
    TRAY_STATION_LEVEL = 10,       /* level L */
    TRAY_STATION_NODE = 11,        /* node p; of a sweep in follow the node shown or passed last, or where its walk ended */
    TRAY_STATION_NEW_NODE = 12,    /* the node that this put made; 0 before */
    TRAY_STATION_ANSWER = 13,      /* enum tray_answer: a put's from its effect on; TRAY_ANSWER_NONE before */
    TRAY_STATION_EFFECT = 14,      /* tick of the effect; 0 before */
    TRAY_STATION_REMEMBERED = 15   /* and 16 to 20: the node remembered at levels 0 to 5 */
};

/*
 * Node table: 16 words a node, node n from word 16 * n. Node 0 is the left end and no tray: its tray number is 0, its
 * top level 5. Trays are nodes 1, 2 and so on in the order of making. Along the links of a level tray numbers rise.
 */
enum tray_node_word {
    TRAY_NODE_TRAY_LOW = 0,        /* tray number, low half */
    TRAY_NODE_NEWEST = 1,          /* place of the newest reading */
    TRAY_NODE_TOP = 2,             /* top level */
    TRAY_NODE_TRAY_HIGH = 3,       /* tray number, high half */
    TRAY_NODE_LINKS = 4,           /* words 4 to 9: the next node at levels 0 to 5; 0 is the end */
    TRAY_NODE_LOCKS = 10           /* words 10 to 15: the locks of levels 0 to 5; 0 is free, else the holder's number + 1 */
};

/* Reading table: 3 words a reading, place n from word 3 * n. Place 0 is unused. Places are given out in rising order. */
enum tray_reading_word {
    TRAY_READING_VALUE = 0,
    TRAY_READING_STAMP = 1,
    TRAY_READING_PREVIOUS = 2      /* place of the same tray's reading before this one; 0 for none */
};

/*
 * Tally: 7 words; word n counts the finished calls whose answer has number n (enum tray_answer). No word counts the sweeps.
 * The caller zeroes it; tray_open does not touch it. Its counts are only added to, never read for anything else.
 */

/* ---- Sizes, asked of the library -------------------------------------------------------------------------------- */

/* For a caller that compares its header with the library it is linked with, or takes its sizes at run time. */
uint32_t tray_version(void);                     /* TRAY_VERSION: 3 */
size_t tray_state_words(void);                   /* TRAY_STATE_WORDS: 177 */
size_t tray_tally_words(void);                   /* TRAY_TALLY_WORDS: 7 */
size_t tray_node_words(uint32_t trays);          /* 16 * (trays + 1); 0 where trays is not 1 to 1023 */
size_t tray_reading_words(uint32_t readings);    /* 3 * (readings + 1); 0 where readings is not 1 to 4095 */

/* ---- Calls ------------------------------------------------------------------------------------------------------ */

/*
 * Opens an empty store in the lent words, whatever was in them, for `stations` stations and at most `limit` events. K
 * and V follow from the lengths of the tables: K = node_words / 16 - 1, V = reading_words / 3 - 1.
 *
 * Changes: all of the state; both tables are zeroed and word 2 of node 0 set to 5. What the buffers held is gone.
 * Refusals, in order: 10, 1, 2, 3, 4. Refused 10, nothing changes. Refused 1 to 4, both tables stay as they were and
 * the state becomes a closed one, which every other call refuses with 10: word 0 is 3, each station's answer 6, all
 * else 0.
 * Time: by the lengths of the tables.
 */
uint32_t tray_open(uint32_t *state, size_t state_words, uint32_t *nodes, size_t node_words,
                   uint32_t *readings, size_t reading_words, uint32_t stations, uint32_t limit);

/*
 * Starts a put: the reading (value, stamp) of `tray`, for `station`. No step is taken yet.
 *
 * draw: 16 random bits, new for each put. If the tray turns out to be new, its top level is the count of trailing zero
 * bits, at most 5; draw 0 gives 5. The draw alters no answer, only how many steps calls take.
 * tick: one word, the tick of this start.
 * Changes: the count of events (one more) and the station's words. The tables are lent for their lengths alone.
 * Refusals, in order: 10, 5, 6, 7, 9.
 */
uint32_t tray_start_put(uint32_t *state, size_t state_words, const uint32_t *nodes, size_t node_words,
                        const uint32_t *readings, size_t reading_words, uint32_t station, uint64_t tray,
                        uint32_t value, uint32_t stamp, uint16_t draw, uint32_t *tick);

/*
 * Starts a get of the newest reading of `tray`, for `station`. All else is as with tray_start_put.
 */
uint32_t tray_start_get(uint32_t *state, size_t state_words, const uint32_t *nodes, size_t node_words,
                        const uint32_t *readings, size_t reading_words, uint32_t station, uint64_t tray,
                        uint32_t *tick);

/*
 * Starts a sweep over the trays from `first` to `last`, both included, for `station`. Neither need be there; they may be
 * equal; TRAY_FIRST_TRAY and TRAY_LAST_TRAY are the whole store. No step is taken yet.
 *
 * The steps walk to the first as a get's do and show nothing; from there each shows the next tray of the span with its
 * newest reading, and the one that meets the end, or a tray past the last, answers done. So a span of n trays takes the
 * walk, n steps and one, and one more for each tray below the first that was put in where the walk had ended.
 *
 * What is promised: the trays shown lie in the span and rise; each reading shown was the newest of its tray at the tick of
 * the step that shows it; when the sweep is done, every tray of the span that was there at its start (the put that made it
 * had taken effect) was shown exactly once, and one made later at most once.
 * What is not: a picture of one moment. A tray shown early may have a newer reading by the time a later one is shown. A tray
 * made while the sweep runs is shown if the sweep has not passed its place; so of two it may be the later one alone.
 *
 * A sweep takes no lock: it never waits, and nobody waits for it.
 * tick: one word, the tick of this start.
 * Changes: the count of events (one more) and the station's words. The tables are lent for their lengths alone.
 * Refusals, in order: 10, 5, 6 (either end), 17, 7, 9.
 */
uint32_t tray_start_sweep(uint32_t *state, size_t state_words, const uint32_t *nodes, size_t node_words,
                          const uint32_t *readings, size_t reading_words, uint32_t station, uint64_t first,
                          uint64_t last, uint32_t *tick);

/*
 * Gives the call of `station` one step. Steps of different stations may come in any order.
 *
 * answer: eight words, as enum tray_step_word names them. Words 2 to 7 are 0 where the outcome is on or wait. Where it is
 * shown, which only a sweep's can be, words 2 to 5 are the tray shown and its newest reading, 6 and 7 are 0.
 * Changes: the count of events, one more. At a wait nothing else. Otherwise words of the station and, by phase, a lock
 * or a link (lock, check, link, release), or a reading, a new node and the counts in use (update, make). Where done,
 * the station is idle again and the one count of its answer in the tally is one more. A sweep writes no word of the
 * tables and none of the tally.
 * Refusals, in order: 10, 5, 8, 9, 11. Refused, the call stays where it stood.
 * Time: bounded, whatever the number of stations, trays and readings.
 */
uint32_t tray_step(uint32_t *state, size_t state_words, uint32_t *nodes, size_t node_words,
                   uint32_t *readings, size_t reading_words, uint32_t *tally, size_t tally_words,
                   uint32_t station, uint32_t answer[8]);

enum tray_step_word {
    TRAY_STEP_OUTCOME = 0,         /* enum tray_outcome */
    TRAY_STEP_TICK = 1,            /* tick of this step; where done, the call's finish tick */
    /* where the outcome is done: */
    TRAY_STEP_KIND = 2,            /* enum tray_kind, put, get or sweep */
    TRAY_STEP_ANSWER = 3,          /* enum tray_answer */
    TRAY_STEP_VALUE = 4,           /* put: its own value, whatever the answer; get: the value found, or 0 for none; sweep: 0 */
    TRAY_STEP_STAMP = 5,           /* the same for the stamp */
    TRAY_STEP_START = 6,           /* tick of the call's start */
    TRAY_STEP_EFFECT = 7,          /* tick of its effect: above the start tick, not above the finish tick; sweep: 0 */
    /* where it is shown, with value and stamp of the tray's newest reading in words 4 and 5: */
    TRAY_STEP_TRAY_LOW = 2,        /* number of the tray shown, low half */
    TRAY_STEP_TRAY_HIGH = 3,       /* and high half */
    TRAY_STEP_WORDS = 8
};

/*
 * Looks up a reading of `tray`: 0 back is the newest, 1 the one before it, and so on. It sees all effects so far, also
 * those of calls that still run. It is no event and needs no station.
 *
 * answer: two words, value and stamp.
 * Changes: nothing.
 * Refusals, in order: 10, 6, 12, 11, 13 (along the readings of the tray, 11 before 13).
 * Time: by the trays made, and by `back`, at most the readings held.
 */
uint32_t tray_look(const uint32_t *state, size_t state_words, const uint32_t *nodes, size_t node_words,
                   const uint32_t *readings, size_t reading_words, uint64_t tray, uint32_t back,
                   uint32_t answer[2]);

enum tray_look_word {
    TRAY_LOOK_VALUE = 0,
    TRAY_LOOK_STAMP = 1,
    TRAY_LOOK_WORDS = 2
};

/*
 * Inspects the memory of a store whose stations are all idle: for levels 0 to 5, along the links from node 0, that each
 * lock is free, each link leads to a node in use with a greater tray number and a top level that reaches here, each
 * tray's readings lie at falling places in use with stamps that do not rise going back, and no node is missing on a
 * level that its top level reaches. It stops at the first fault. Values are not checked against anything.
 *
 * answer: three words: sound, 0, 0; or fault, the level, the node reached: the one whose lock, readings or link is at
 * fault, or the last node of a level that misses some.
 * Changes: nothing.
 * Refusals, in order: 10, 7.
 * Time: by the trays made and the readings held.
 */
uint32_t tray_inspect(const uint32_t *state, size_t state_words, const uint32_t *nodes, size_t node_words,
                      const uint32_t *readings, size_t reading_words, uint32_t answer[3]);

enum tray_inspect_word {
    TRAY_INSPECT_RESULT = 0,       /* enum tray_inspection */
    TRAY_INSPECT_LEVEL = 1,
    TRAY_INSPECT_NODE = 2,
    TRAY_INSPECT_WORDS = 3
};

/*
 * Tells what `station` is doing.
 *
 * answer: three words: idle, 0, 0; or the kind of its call, the tick of the start, the tick of the effect (0 before; a
 * sweep has none). A put with an effect tick is in force already, though its last steps are still to come.
 * Changes: nothing.
 * Refusals, in order: 10, 5.
 */
uint32_t tray_standing(const uint32_t *state, size_t state_words, uint32_t station, uint32_t answer[3]);

enum tray_standing_word {
    TRAY_STANDING_KIND = 0,        /* enum tray_kind */
    TRAY_STANDING_START = 1,
    TRAY_STANDING_EFFECT = 2,
    TRAY_STANDING_WORDS = 3
};

#ifdef __cplusplus
}
#endif

#endif
