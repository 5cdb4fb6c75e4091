/*
 * A small grading line on the tray store. Trays come past the scale, the candler and two packing lanes, in this order. The
 * scale puts a tray's weight; the candler looks the weight up and puts it again with the class; lane A gets the newest
 * reading and packs class A, lane B the seconds. Lane C makes up a farm's lot: once, while the others go on, it lists the
 * trays of that farm. The controller gives every station one turn in each round, so that the calls of up to five stations
 * overlap. It prints a line for each finished call, each wait and each tray listed, and what the store holds at the end.
 *
 * A value is 10,000 times the class plus the weight in grams. A stamp is the controller's clock, one count a round.
 */
#include "tray_store.h"

#include <inttypes.h>
#include <stdio.h>
#include <stdlib.h>

enum { SCALE, CANDLER, LANE_A, LANE_B, LANE_C, STATIONS };
enum { TRAYS = 8, READINGS = 16, EVENTS = 2000 };
enum { NODE_WORDS = TRAY_NODE_WORDS(TRAYS), READING_WORDS = TRAY_READING_WORDS(READINGS) };
enum { NOT_CANDLED, CLASS_A, SECONDS, CLASS_UNIT = 10000 };

static const char *const station_names[STATIONS] = {"scale", "candler", "lane A", "lane B", "lane C"};
static const char *const kind_names[] = {"idle", "put", "get", "sweep"};
static const char *const answer_names[TRAY_TALLY_WORDS] = {"too old", "readings full", "added", "trays full", "new", "found", "none"};
static const char *const class_names[] = {"", " class A", " seconds"};

/* The memory of the store. */
static uint32_t state[TRAY_STATE_WORDS];
static uint32_t nodes[NODE_WORDS];
static uint32_t readings[READING_WORDS];
static uint32_t tally[TRAY_TALLY_WORDS];

/*
 * The trays in the order of arrival, with what the sensors see of each. Tray numbers are tracking numbers of twelve digits,
 * four of the farm and eight of its own count: longer than 32 bits, rising in no order, the count 512 here from two farms.
 */
struct tray {
    uint64_t number;
    uint32_t weight, class_seen;
};
static const struct tray arrivals[] = {
    {204100000512, 1874, CLASS_A}, {204100000407, 1902, CLASS_A}, {307700000512, 1655, SECONDS},
    {204100000388, 1921, CLASS_A}, {307700000395, 1730, SECONDS}, {307700000701, 1888, CLASS_A},
};
static const struct tray by_hand = {204100000777, 1840, CLASS_A}; /* someone sets it down behind the scale and the candler */
enum { ARRIVALS = sizeof arrivals / sizeof arrivals[0] };

/* The trays in front of each station. The first stays there until its call is done. */
static struct {
    const struct tray *tray[ARRIVALS + 1];
    unsigned first, end;
} belts[STATIONS];
static uint32_t clock_now = 1000;

/* The lot: all numbers of one farm, the clock at which lane C begins to list it, and how far it is. Lane C has no belt. */
static const uint64_t lot_first = 204100000000, lot_last = 204199999999;
static const uint32_t lot_due = 1049;
static struct {
    uint32_t trays_at_start, shown;
    int done;
} lot;

/* ---- refusals: none is due on this line, so each ends the program */

static void stop_if(uint32_t refusal, const char *call)
{
    static const char *const meaning[] = {
        "accepted", "node table length", "reading table length", "count of stations", "event limit out of range",
        "no such station", "tray number out of range", "busy", "no call running", "event limit spent",
        "no open state, or one that does not go with the tables", "memory was altered", "no such tray", "fewer readings than asked",
        [TRAY_REFUSED_BAD_SPAN] = "first tray above the last",
    };
    const char *told = refusal < sizeof meaning / sizeof meaning[0] ? meaning[refusal] : NULL;
    if (refusal == TRAY_OK) {
        return;
    }
    fflush(stdout);
    fprintf(stderr, "%s refused %" PRIu32 ": %s\n", call, refusal, told != NULL ? told : "unknown");
    exit(EXIT_FAILURE);
}

/* ---- belts */

static void send(unsigned station, const struct tray *tray)
{
    belts[station].tray[belts[station].end++] = tray;
}

static int is_waiting(unsigned station)
{
    return station == LANE_C ? clock_now >= lot_due && !lot.done : belts[station].first < belts[station].end;
}

static const struct tray *tray_at(unsigned station)
{
    return belts[station].tray[belts[station].first];
}

/* ---- starts */

/* Sixteen bits for a put, by xorshift. */
static uint16_t draw(void)
{
    static uint16_t bits = 1;
    bits ^= (uint16_t)(bits << 7);
    bits ^= (uint16_t)(bits >> 9);
    bits ^= (uint16_t)(bits << 8);
    return bits;
}

static uint32_t look(uint64_t tray, uint32_t back, unsigned word)
{
    uint32_t answer[TRAY_LOOK_WORDS];
    stop_if(tray_look(state, TRAY_STATE_WORDS, nodes, NODE_WORDS, readings, READING_WORDS, tray, back, answer), "look");
    return answer[word];
}

static void start_put(unsigned station, uint64_t tray, uint32_t value)
{
    uint32_t tick;
    stop_if(tray_start_put(state, TRAY_STATE_WORDS, nodes, NODE_WORDS, readings, READING_WORDS, station, tray, value, clock_now,
                           draw(), &tick),
            "start of a put");
}

static void start_get(unsigned station, uint64_t tray)
{
    uint32_t tick;
    stop_if(tray_start_get(state, TRAY_STATE_WORDS, nodes, NODE_WORDS, readings, READING_WORDS, station, tray, &tick),
            "start of a get");
}

static void start_sweep(unsigned station, uint64_t first, uint64_t last)
{
    uint32_t tick;
    stop_if(tray_start_sweep(state, TRAY_STATE_WORDS, nodes, NODE_WORDS, readings, READING_WORDS, station, first, last, &tick),
            "start of a sweep");
    lot.trays_at_start = state[TRAY_STATE_TRAYS];
    printf("%6" PRIu32 "  %-7s lists %" PRIu64 " to %" PRIu64 "\n", tick, station_names[station], first, last);
}

static void start(unsigned station)
{
    if (station == LANE_C) {
        start_sweep(station, lot_first, lot_last);
        return;
    }
    const struct tray *tray = tray_at(station);
    switch (station) {
    case SCALE:
        start_put(station, tray->number, tray->weight);
        break;
    case CANDLER:
        start_put(station, tray->number, CLASS_UNIT * tray->class_seen + look(tray->number, 0, TRAY_LOOK_VALUE));
        break;
    default:
        start_get(station, tray->number);
    }
}

/* ---- standing and waits */

static uint32_t standing(unsigned station, unsigned word)
{
    uint32_t answer[TRAY_STANDING_WORDS];
    stop_if(tray_standing(state, TRAY_STATE_WORDS, station, answer), "standing");
    return answer[word];
}

static void tell_standing(unsigned station)
{
    uint32_t kind = standing(station, TRAY_STANDING_KIND);
    uint32_t effect = standing(station, TRAY_STANDING_EFFECT);
    printf("        standing of %-7s ", station_names[station]);
    if (kind == TRAY_KIND_IDLE) {
        printf("idle\n");
        return;
    }
    printf("%s since %" PRIu32, kind_names[kind], standing(station, TRAY_STANDING_START));
    if (effect == 0) {
        printf(", no effect yet\n");
    } else {
        printf(", effect at %" PRIu32 "\n", effect);
    }
}

/* Which tray waits and who holds the lock that it waits at, read from the words of the state and the node table. */
static void tell_wait(unsigned station, uint32_t tick)
{
    static int told;
    const uint32_t *words = &state[TRAY_STATION_AT(station)];
    const uint32_t *node = &nodes[TRAY_WORDS_PER_NODE * words[TRAY_STATION_NODE]];
    uint32_t holder = node[TRAY_NODE_LOCKS + words[TRAY_STATION_LEVEL]] - 1;
    printf("%6" PRIu32 "  %-7s waits, tray %" PRIu64 ": the lock of node %" PRIu32 ", level %" PRIu32 ", is the %s's\n", tick,
           station_names[station], TRAY_NUMBER(words[TRAY_STATION_TRAY_LOW], words[TRAY_STATION_TRAY_HIGH]),
           words[TRAY_STATION_NODE], words[TRAY_STATION_LEVEL], holder < STATIONS ? station_names[holder] : "nobody");
    for (unsigned i = 0; !told && i < STATIONS; i++) {
        tell_standing(i);
    }
    told = 1;
}

/* ---- steps */

static void tell_reading(uint32_t value, uint32_t stamp)
{
    uint32_t class_told = value / CLASS_UNIT;
    const char *name = class_told <= SECONDS ? class_names[class_told] : " ?";
    printf("%4" PRIu32 " g%-8s stamp %4" PRIu32, value % CLASS_UNIT, name, stamp);
}

/* Sends the tray on after a put. It is taken off the line where its reading was not kept. */
static const char *after_put(unsigned station, const struct tray *tray, uint32_t answer)
{
    if (answer != TRAY_ANSWER_NEW && answer != TRAY_ANSWER_ADDED) {
        return "taken off";
    }
    send(station == SCALE ? CANDLER : LANE_A, tray);
    return station == SCALE ? "to the candler" : "to the lanes";
}

/* Packs the tray after a get, or sends it on. Nothing is packed whose class the store does not tell. */
static const char *after_get(unsigned station, const struct tray *tray, uint32_t answer, uint32_t value)
{
    uint32_t class_told = answer == TRAY_ANSWER_FOUND ? value / CLASS_UNIT : NOT_CANDLED;
    if (station == LANE_A && class_told == CLASS_A) {
        return "packed as class A";
    }
    if (station == LANE_B && class_told == SECONDS) {
        return "packed as seconds";
    }
    if (station == LANE_A && class_told == SECONDS) {
        send(LANE_B, tray);
        return "to lane B";
    }
    return "taken off: not graded";
}

static void finish(unsigned station, const uint32_t answer[TRAY_STEP_WORDS])
{
    const struct tray *tray = tray_at(station);
    int put = answer[TRAY_STEP_KIND] == TRAY_KIND_PUT;
    belts[station].first++;
    printf("%6" PRIu32 "  %-7s %s %" PRIu64 "  %-13s ", answer[TRAY_STEP_TICK], station_names[station], put ? "put" : "get",
           tray->number, answer_names[answer[TRAY_STEP_ANSWER]]);
    if (answer[TRAY_STEP_ANSWER] == TRAY_ANSWER_NONE) {
        printf("%25s", "");
    } else {
        tell_reading(answer[TRAY_STEP_VALUE], answer[TRAY_STEP_STAMP]);
    }
    printf("  start %3" PRIu32 ", effect %3" PRIu32 "  %s\n", answer[TRAY_STEP_START], answer[TRAY_STEP_EFFECT],
           put ? after_put(station, tray, answer[TRAY_STEP_ANSWER])
               : after_get(station, tray, answer[TRAY_STEP_ANSWER], answer[TRAY_STEP_VALUE]));
}

/* A tray that the sweep shows. Nodes are given out in the order of making, so p tells whether the tray is newer than the sweep. */
static void show(unsigned station, const uint32_t answer[TRAY_STEP_WORDS])
{
    uint32_t node = state[TRAY_STATION_AT(station) + TRAY_STATION_NODE];
    lot.shown++;
    printf("%6" PRIu32 "  %-7s sees %" PRIu64 "               ", answer[TRAY_STEP_TICK], station_names[station],
           TRAY_NUMBER(answer[TRAY_STEP_TRAY_LOW], answer[TRAY_STEP_TRAY_HIGH]));
    tell_reading(answer[TRAY_STEP_VALUE], answer[TRAY_STEP_STAMP]);
    printf("%s\n", node > lot.trays_at_start ? "  new since the start of the list" : "");
}

static void finish_sweep(unsigned station, const uint32_t answer[TRAY_STEP_WORDS])
{
    lot.done = 1;
    printf("%6" PRIu32 "  %-7s has listed %" PRIu32 " trays, start %3" PRIu32 "\n", answer[TRAY_STEP_TICK], station_names[station],
           lot.shown, answer[TRAY_STEP_START]);
}

static void step(unsigned station)
{
    uint32_t answer[TRAY_STEP_WORDS];
    stop_if(tray_step(state, TRAY_STATE_WORDS, nodes, NODE_WORDS, readings, READING_WORDS, tally, TRAY_TALLY_WORDS, station, answer),
            "step");
    if (answer[TRAY_STEP_OUTCOME] == TRAY_OUTCOME_WAIT) {
        tell_wait(station, answer[TRAY_STEP_TICK]);
    } else if (answer[TRAY_STEP_OUTCOME] == TRAY_OUTCOME_SHOWN) {
        show(station, answer);
    } else if (answer[TRAY_STEP_OUTCOME] == TRAY_OUTCOME_DONE && answer[TRAY_STEP_KIND] == TRAY_KIND_SWEEP) {
        finish_sweep(station, answer);
    } else if (answer[TRAY_STEP_OUTCOME] == TRAY_OUTCOME_DONE) {
        finish(station, answer);
    }
}

/* One turn: a step where a call runs, else a start where there is something to do. */
static void turn(unsigned station)
{
    if (standing(station, TRAY_STANDING_KIND) != TRAY_KIND_IDLE) {
        step(station);
    } else if (is_waiting(station)) {
        start(station);
    }
}

/* ---- the line */

static void open_line(void)
{
    if (tray_version() != TRAY_VERSION || tray_state_words() != TRAY_STATE_WORDS || tray_tally_words() != TRAY_TALLY_WORDS) {
        fprintf(stderr, "the library is not the one of this header\n");
        exit(EXIT_FAILURE);
    }
    stop_if(tray_open(state, TRAY_STATE_WORDS, nodes, NODE_WORDS, readings, READING_WORDS, STATIONS, EVENTS), "open");
    for (unsigned i = 0; i < ARRIVALS; i++) {
        send(SCALE, &arrivals[i]);
    }
    send(LANE_A, &by_hand);
    printf("open: %d stations, %d trays, %d readings, %d events at most\n\n  tick\n", STATIONS, TRAYS, READINGS, EVENTS);
}

/* Empty belts and a lot listed mean idle stations too. */
static int is_empty(void)
{
    return !is_waiting(SCALE) && !is_waiting(CANDLER) && !is_waiting(LANE_A) && !is_waiting(LANE_B) && lot.done;
}

static void tell_held(void)
{
    printf("\n%" PRIu32 " trays, %" PRIu32 " readings, %" PRIu32 " events\n", state[TRAY_STATE_TRAYS], state[TRAY_STATE_READINGS],
           state[TRAY_STATE_EVENTS]);
    for (unsigned i = 0; i < ARRIVALS; i++) {
        uint64_t tray = arrivals[i].number;
        printf("  tray %" PRIu64 ": ", tray);
        tell_reading(look(tray, 0, TRAY_LOOK_VALUE), look(tray, 0, TRAY_LOOK_STAMP));
        printf(", before it ");
        tell_reading(look(tray, 1, TRAY_LOOK_VALUE), look(tray, 1, TRAY_LOOK_STAMP));
        printf("\n");
    }
    printf("finished calls:");
    for (unsigned i = 0; i < TRAY_TALLY_WORDS; i++) {
        printf("%s %s %" PRIu32, i == 0 ? "" : ",", answer_names[i], tally[i]);
    }
    printf("\n");
}

static int is_sound(void)
{
    uint32_t answer[TRAY_INSPECT_WORDS];
    stop_if(tray_inspect(state, TRAY_STATE_WORDS, nodes, NODE_WORDS, readings, READING_WORDS, answer), "inspection");
    if (answer[TRAY_INSPECT_RESULT] == TRAY_SOUND) {
        printf("inspection: sound\n");
        return 1;
    }
    printf("inspection: fault at level %" PRIu32 ", node %" PRIu32 "\n", answer[TRAY_INSPECT_LEVEL], answer[TRAY_INSPECT_NODE]);
    return 0;
}

int main(void)
{
    open_line();
    for (; !is_empty(); clock_now++) {
        for (unsigned station = 0; station < STATIONS; station++) {
            turn(station);
        }
    }
    tell_held();
    int sound = is_sound();
    return sound && fflush(stdout) == 0 ? EXIT_SUCCESS : EXIT_FAILURE;
}
