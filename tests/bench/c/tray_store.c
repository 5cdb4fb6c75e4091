/* include/tray_store.h written by hand: the yardstick of the benchmarks. The lent words are overlaid by structs and changed
 * in place. Names follow docs/GLOSSARY.md: key = tray, version = reading, process = station, scan = sweep. */
#include "tray_store.h"

#include <string.h>

enum { LEVELS = 6, TOP = LEVELS - 1, PROCESSES = 8, NODE_WORDS = 16, VERSION_WORDS = 3 };
enum { MAX_KEYS = 1023, MAX_VERSIONS = 4095, MAX_LIMIT = 1000000000, LAYOUT = 3 };

typedef enum { IDLE, PUT, GET, SCAN, KINDS } Kind;
typedef enum { WALK, READ, SEEK, LOCK, CHECK, UPDATE, MAKE, LINK, RELEASE, FOLLOW, PHASES } Phase;
typedef enum { TOO_OLD, VERSIONS_FULL, ADDED, KEYS_FULL, NEW, FOUND, NONE, SWEPT, ANSWERS } Answer;
typedef enum { ON, WAIT, DONE, SHOWN } Outcome;

enum { COUNTS = SWEPT }; /* the answers that the tally counts come first */

typedef enum {
    ACCEPTED, NODE_LENGTH, VERSION_LENGTH, PROCESS_COUNT, EVENT_LIMIT, NO_PROCESS, BAD_KEY, BUSY, NO_CALL, SPENT,
    CORRUPT, DAMAGED, NO_KEY, NO_VERSION, BAD_SPAN = 17
} Refusal;

typedef struct {
    uint32_t kind, key_low, key_high, last_low, last_high, value, timestamp, top, start;
    uint32_t phase, level, pred, made;
    uint32_t answer, effect;
    uint32_t preds[LEVELS];
} Process;

typedef struct {
    uint32_t layout, opened, processes, limit, events;
    uint32_t node_words, version_words, nodes, versions;
    Process process[PROCESSES];
} State;

typedef struct { uint32_t key_low, newest, top, key_high, next[LEVELS], lock[LEVELS]; } Node;
typedef struct { uint32_t value, timestamp, prev; } Version;

enum { STATE_WORDS = sizeof(State) / sizeof(uint32_t) };

_Static_assert(STATE_WORDS == TRAY_STATE_WORDS, "the state's layout");
_Static_assert(sizeof(Node) == NODE_WORDS * sizeof(uint32_t), "a node's layout");
_Static_assert(sizeof(Version) == VERSION_WORDS * sizeof(uint32_t), "a version's layout");

/* ---- keys: two words of a node or a process, one number wherever they are compared */

static inline uint64_t key_at(const Node *x) { return TRAY_NUMBER(x->key_low, x->key_high); }

static inline uint64_t key_sought(const Process *c) { return TRAY_NUMBER(c->key_low, c->key_high); }

static inline uint64_t last_sought(const Process *c) { return TRAY_NUMBER(c->last_low, c->last_high); }

/* ---- sizes */

uint32_t tray_version(void) { return LAYOUT; }

size_t tray_state_words(void) { return STATE_WORDS; }

size_t tray_tally_words(void) { return COUNTS; }

size_t tray_node_words(uint32_t trays)
{
    return trays >= 1 && trays <= MAX_KEYS ? NODE_WORDS * ((size_t)trays + 1) : 0;
}

size_t tray_reading_words(uint32_t readings)
{
    return readings >= 1 && readings <= MAX_VERSIONS ? VERSION_WORDS * ((size_t)readings + 1) : 0;
}

/* ---- refusal 10 */

static inline int lawful_node_words(size_t words)
{
    return words >= 2 * NODE_WORDS && words <= NODE_WORDS * (MAX_KEYS + 1) && words % NODE_WORDS == 0;
}

static inline int lawful_version_words(size_t words)
{
    return words >= 2 * VERSION_WORDS && words <= VERSION_WORDS * (MAX_VERSIONS + 1) && words % VERSION_WORDS == 0;
}

static inline int lawful_processes(uint32_t processes) { return processes >= 1 && processes <= PROCESSES; }

static inline int lawful_limit(uint32_t limit) { return limit >= 1 && limit <= MAX_LIMIT; }

static inline int lawful_key(uint64_t key) { return key != 0 && key != UINT64_MAX; }

/* The head of a state of the right length. Written out for the tables: each is divided once, for its length and its count. */
static inline int lawful_head(const State *s)
{
    uint32_t nodes = s->node_words / NODE_WORDS, versions = s->version_words / VERSION_WORDS;
    return s->layout == LAYOUT && s->opened == 1 && lawful_processes(s->processes) && lawful_limit(s->limit)
        && s->events <= s->limit && nodes >= 2 && nodes <= MAX_KEYS + 1 && nodes * NODE_WORDS == s->node_words
        && versions >= 2 && versions <= MAX_VERSIONS + 1 && versions * VERSION_WORDS == s->version_words
        && s->nodes < nodes && s->versions < versions;
}

static inline int known_process(const Process *p)
{
    return p->kind < KINDS && p->phase < PHASES && p->answer < ANSWERS;
}

/* A call tests the head and the processes that it reads: one, or those below the count, or none. */
static inline int lawful_state(const State *s, size_t state_words) { return state_words == STATE_WORDS && lawful_head(s); }

static inline int lawful_at(const State *s, size_t state_words, uint32_t process)
{
    return lawful_state(s, state_words) && (process >= PROCESSES || known_process(&s->process[process]));
}

static int known_below(const State *s)
{
    for (uint32_t i = 0; i < s->processes; i++) {
        if (!known_process(&s->process[i])) {
            return 0;
        }
    }
    return 1;
}

static inline int like_tables(const State *s, size_t node_words, size_t version_words)
{
    return node_words == s->node_words && version_words == s->version_words;
}

/* ---- open and start */

/* The last word on its own: more than 80 bytes the compiler clears by a string instruction, which takes longer. */
static inline void make_idle(Process *c)
{
    memset(c, 0, offsetof(Process, preds[TOP]));
    c->preds[TOP] = 0;
    c->answer = NONE;
}

static void reset(State *s)
{
    memset(s, 0, sizeof *s);
    s->layout = LAYOUT;
    for (int i = 0; i < PROCESSES; i++) {
        make_idle(&s->process[i]);
    }
}

static Refusal open_refusal(size_t node_words, size_t version_words, uint32_t processes, uint32_t limit)
{
    return !lawful_node_words(node_words)       ? NODE_LENGTH
         : !lawful_version_words(version_words) ? VERSION_LENGTH
         : !lawful_processes(processes)         ? PROCESS_COUNT
         : !lawful_limit(limit)                 ? EVENT_LIMIT
                                                : ACCEPTED;
}

uint32_t tray_open(uint32_t *state, size_t state_words, uint32_t *nodes, size_t node_words,
                   uint32_t *readings, size_t reading_words, uint32_t stations, uint32_t limit)
{
    State *s = (State *)state;
    if (state_words != STATE_WORDS) {
        return CORRUPT;
    }
    reset(s);
    Refusal refusal = open_refusal(node_words, reading_words, stations, limit);
    if (refusal != ACCEPTED) {
        return refusal;
    }
    s->opened = 1;
    s->processes = stations;
    s->limit = limit;
    s->node_words = (uint32_t)node_words;
    s->version_words = (uint32_t)reading_words;
    memset(nodes, 0, node_words * sizeof *nodes);
    memset(readings, 0, reading_words * sizeof *readings);
    ((Node *)nodes)->top = TOP;
    return ACCEPTED;
}

/* From key to last; a put and a get have one key, so the tests of a span fall away for them. */
static inline Refusal start_refusal(const State *s, size_t state_words, size_t node_words, size_t version_words,
                                    uint32_t process, uint64_t key, uint64_t last)
{
    return !lawful_at(s, state_words, process) || !like_tables(s, node_words, version_words) ? CORRUPT
         : process >= s->processes                                                           ? NO_PROCESS
         : !lawful_key(key) || !lawful_key(last)                                             ? BAD_KEY
         : key > last                                                                        ? BAD_SPAN
         : s->process[process].kind != IDLE                                                  ? BUSY
         : s->events >= s->limit                                                             ? SPENT
                                                                                             : ACCEPTED;
}

static inline Process *give_call(State *s, uint32_t process, Kind kind, uint64_t key, uint64_t last)
{
    Process *c = &s->process[process];
    make_idle(c);
    c->kind = kind;
    c->key_low = (uint32_t)key;
    c->key_high = (uint32_t)(key >> 32);
    c->last_low = (uint32_t)last;
    c->last_high = (uint32_t)(last >> 32);
    c->start = ++s->events;
    c->level = TOP;
    return c;
}

static uint32_t top_of(uint16_t draw)
{
    return (uint32_t)__builtin_ctz(draw | 1u << TOP); /* the bit at TOP caps the count */
}

uint32_t tray_start_put(uint32_t *state, size_t state_words, const uint32_t *nodes, size_t node_words,
                        const uint32_t *readings, size_t reading_words, uint32_t station, uint64_t tray,
                        uint32_t value, uint32_t stamp, uint16_t draw, uint32_t *tick)
{
    State *s = (State *)state;
    (void)nodes;
    (void)readings;
    Refusal refusal = start_refusal(s, state_words, node_words, reading_words, station, tray, tray);
    *tick = 0;
    if (refusal == ACCEPTED) {
        Process *c = give_call(s, station, PUT, tray, tray);
        c->value = value;
        c->timestamp = stamp;
        c->top = top_of(draw);
        *tick = c->start;
    }
    return refusal;
}

uint32_t tray_start_get(uint32_t *state, size_t state_words, const uint32_t *nodes, size_t node_words,
                        const uint32_t *readings, size_t reading_words, uint32_t station, uint64_t tray,
                        uint32_t *tick)
{
    State *s = (State *)state;
    (void)nodes;
    (void)readings;
    Refusal refusal = start_refusal(s, state_words, node_words, reading_words, station, tray, tray);
    *tick = 0;
    if (refusal == ACCEPTED) {
        *tick = give_call(s, station, GET, tray, tray)->start;
    }
    return refusal;
}

uint32_t tray_start_sweep(uint32_t *state, size_t state_words, const uint32_t *nodes, size_t node_words,
                          const uint32_t *readings, size_t reading_words, uint32_t station, uint64_t first,
                          uint64_t last, uint32_t *tick)
{
    State *s = (State *)state;
    (void)nodes;
    (void)readings;
    Refusal refusal = start_refusal(s, state_words, node_words, reading_words, station, first, last);
    *tick = 0;
    if (refusal == ACCEPTED) {
        *tick = give_call(s, station, SCAN, first, last)->start;
    }
    return refusal;
}

/* ---- step: one function a phase, each of which makes all its tests before its first write */

/* What a phase works on, the call `c` first. Six arguments stay in registers; no phase needs them all. */
#define UNUSED __attribute__((unused))
#define TURN(name) \
    static uint32_t name(Process *c UNUSED, State *s UNUSED, Node *nodes UNUSED, Version *versions UNUSED, \
                         uint32_t *tally UNUSED, uint32_t *answer UNUSED)

/* Refusal 11 at any step, but for level and pred: of a put, of a get, of a scan, and of any in walk. */
static inline int lawful_put(const Process *c) { return c->kind == PUT && (c->effect == 0 || c->answer <= NEW); }

static inline int lawful_get(const Process *c) { return c->kind == GET && c->effect == 0; }

static inline int lawful_scan(const Process *c) { return c->kind == SCAN && c->effect == 0; }

static inline int lawful_walk(const Process *c) { return c->effect == 0 || lawful_put(c); }

/* The answer's words are 0 so far, so is ON. */
static inline uint32_t on(State *s, uint32_t *answer)
{
    answer[1] = ++s->events;
    return ACCEPTED;
}

static inline uint32_t end(State *s, Process *c, uint32_t *answer, uint32_t value, uint32_t timestamp)
{
    answer[0] = DONE;
    answer[1] = ++s->events;
    answer[2] = c->kind;
    answer[3] = c->answer;
    answer[4] = value;
    answer[5] = timestamp;
    answer[6] = c->start;
    answer[7] = c->effect;
    make_idle(c);
    return ACCEPTED;
}

/* The end of a put or a get, which the tally counts. */
static inline uint32_t finish(State *s, Process *c, uint32_t *tally, uint32_t *answer, uint32_t value, uint32_t timestamp)
{
    tally[c->answer] += tally[c->answer] != UINT32_MAX;
    return end(s, c, answer, value, timestamp);
}

/* `next` is in use or the end: the caller has seen to that. */
static inline int before(const Process *c, const Node *nodes, uint32_t next)
{
    return next != 0 && key_at(&nodes[next]) < key_sought(c);
}

static inline int leads_to_key(const Process *c, const Node *nodes, uint32_t next)
{
    return next != 0 && key_at(&nodes[next]) == key_sought(c);
}

TURN(walk)
{
    uint32_t next = nodes[c->pred].next[c->level];
    if (!lawful_walk(c) || next > s->nodes) {
        return DAMAGED;
    }
    if (before(c, nodes, next)) {
        c->pred = next;
        return on(s, answer);
    }
    c->preds[c->level] = c->pred;
    if (c->level > 0) {
        c->level--;
    } else if (c->kind == PUT) {
        c->phase = SEEK;
    } else if (c->kind == SCAN) {
        c->phase = FOLLOW;
    } else if (leads_to_key(c, nodes, next)) {
        c->pred = next;
        c->phase = READ;
    } else {
        c->answer = NONE;
        c->effect = s->events + 1;
        return finish(s, c, tally, answer, 0, 0);
    }
    return on(s, answer);
}

TURN(read_newest)
{
    uint32_t i = nodes[c->pred].newest;
    if (!lawful_get(c) || i == 0 || i > s->versions) {
        return DAMAGED;
    }
    c->answer = FOUND;
    c->effect = s->events + 1;
    return finish(s, c, tally, answer, versions[i].value, versions[i].timestamp);
}

TURN(seek)
{
    uint32_t next = nodes[c->pred].next[c->level];
    if (!lawful_put(c) || next > s->nodes) {
        return DAMAGED;
    }
    if (before(c, nodes, next)) {
        c->pred = next;
    } else {
        c->phase = LOCK;
    }
    return on(s, answer);
}

TURN(take_lock)
{
    uint32_t *lock = &nodes[c->pred].lock[c->level];
    if (!lawful_put(c)) {
        return DAMAGED;
    }
    if (*lock != 0) {
        answer[0] = WAIT;
        return on(s, answer);
    }
    *lock = (uint32_t)(c - s->process) + 1;
    c->phase = CHECK;
    return on(s, answer);
}

/* The link is read again, now under the lock. */
TURN(check)
{
    uint32_t next = nodes[c->pred].next[c->level];
    if (!lawful_put(c) || next > s->nodes) {
        return DAMAGED;
    }
    if (before(c, nodes, next)) {
        nodes[c->pred].lock[c->level] = 0;
        c->pred = next;
        c->phase = SEEK;
    } else {
        c->phase = c->level > 0 ? LINK : leads_to_key(c, nodes, next) ? UPDATE : MAKE;
    }
    return on(s, answer);
}

static inline uint32_t commit(State *s, Process *c, uint32_t *answer, Answer effect)
{
    c->answer = effect;
    c->effect = s->events + 1;
    c->phase = RELEASE;
    return on(s, answer);
}

static inline int versions_full(const State *s) { return s->versions + 1 == s->version_words / VERSION_WORDS; }

/* The call's own version at the next unused index; answers the index. */
static inline uint32_t add_version(State *s, const Process *c, Version *versions, uint32_t prev)
{
    uint32_t i = ++s->versions;
    versions[i] = (Version){ c->value, c->timestamp, prev };
    return i;
}

TURN(update)
{
    uint32_t next = nodes[c->pred].next[0];
    if (!lawful_put(c) || next == 0 || next > s->nodes) {
        return DAMAGED;
    }
    Node *node = &nodes[next];
    if (node->newest == 0 || node->newest > s->versions) {
        return DAMAGED;
    }
    if (c->timestamp < versions[node->newest].timestamp) {
        return commit(s, c, answer, TOO_OLD);
    }
    if (versions_full(s)) {
        return commit(s, c, answer, VERSIONS_FULL);
    }
    node->newest = add_version(s, c, versions, node->newest);
    return commit(s, c, answer, ADDED);
}

TURN(make)
{
    if (!lawful_put(c)) {
        return DAMAGED;
    }
    if (s->nodes + 1 == s->node_words / NODE_WORDS) {
        return commit(s, c, answer, KEYS_FULL);
    }
    if (versions_full(s)) {
        return commit(s, c, answer, VERSIONS_FULL);
    }
    if (c->top > TOP) {
        return DAMAGED;
    }
    uint32_t *link = &nodes[c->pred].next[0];
    uint32_t made = ++s->nodes;
    nodes[made] = (Node){ .key_low = c->key_low, .newest = add_version(s, c, versions, 0), .top = c->top,
                          .key_high = c->key_high, .next = { *link } };
    *link = made;
    c->made = made;
    return commit(s, c, answer, NEW);
}

TURN(link_level)
{
    if (!lawful_put(c) || c->made == 0 || c->made > s->nodes) {
        return DAMAGED;
    }
    nodes[c->made].next[c->level] = nodes[c->pred].next[c->level];
    nodes[c->pred].next[c->level] = c->made;
    c->phase = RELEASE;
    return on(s, answer);
}

TURN(release)
{
    uint32_t *lock = &nodes[c->pred].lock[c->level];
    if (c->kind != PUT || c->answer > NEW || (c->answer == NEW && c->top > TOP)) {
        return DAMAGED;
    }
    if (c->answer != NEW || c->level >= c->top) {
        *lock = 0;
        return finish(s, c, tally, answer, c->value, c->timestamp);
    }
    uint32_t pred = c->preds[c->level + 1];
    if (pred > s->nodes) {
        return DAMAGED;
    }
    *lock = 0;
    c->level++;
    c->pred = pred;
    c->phase = SEEK;
    return on(s, answer);
}

/* Along level 0, whatever the call's level. A key below the first was made since the walk; its version is not read. */
TURN(follow_level)
{
    uint32_t next = nodes[c->pred].next[0];
    if (!lawful_scan(c) || next > s->nodes) {
        return DAMAGED;
    }
    const Node *node = &nodes[next];
    if (next == 0 || key_at(node) > last_sought(c)) {
        c->answer = SWEPT;
        return end(s, c, answer, 0, 0);
    }
    if (key_at(node) >= key_sought(c)) {
        if (node->newest == 0 || node->newest > s->versions) {
            return DAMAGED;
        }
        answer[0] = SHOWN;
        answer[2] = node->key_low;
        answer[3] = node->key_high;
        answer[4] = versions[node->newest].value;
        answer[5] = versions[node->newest].timestamp;
    }
    c->pred = next;
    return on(s, answer);
}

typedef uint32_t Turn(Process *, State *, Node *, Version *, uint32_t *, uint32_t *);

static Turn *const turns[PHASES] = {
    [WALK] = walk,   [READ] = read_newest, [SEEK] = seek, [LOCK] = take_lock,  [CHECK] = check,
    [UPDATE] = update, [MAKE] = make, [LINK] = link_level, [RELEASE] = release, [FOLLOW] = follow_level,
};

/* Why a process has no call to turn. */
static __attribute__((cold)) uint32_t not_running(const State *s, uint32_t process)
{
    if (process < PROCESSES && !known_process(&s->process[process])) {
        return CORRUPT;
    }
    return process >= s->processes ? NO_PROCESS : NO_CALL;
}

/* Of the processes only the one turned is tested, so that a step costs the same whatever their number. */
uint32_t tray_step(uint32_t *state, size_t state_words, uint32_t *nodes, size_t node_words,
                   uint32_t *readings, size_t reading_words, uint32_t *tally, size_t tally_words,
                   uint32_t station, uint32_t answer[8])
{
    State *s = (State *)state;
    memset(answer, 0, 8 * sizeof *answer);
    if (state_words != STATE_WORDS || tally_words != COUNTS || !lawful_head(s)
        || !like_tables(s, node_words, reading_words)) {
        return CORRUPT;
    }
    if (station >= s->processes) {
        return not_running(s, station);
    }
    Process *c = &s->process[station];
    if (c->kind == IDLE || !known_process(c)) {
        return not_running(s, station);
    }
    if (s->events == s->limit) {
        return SPENT;
    }
    if (c->level > TOP || c->pred > s->nodes) {
        return DAMAGED;
    }
    return turns[c->phase](c, s, (Node *)nodes, (Version *)readings, tally, answer);
}

/* ---- look, inspection, standing */

static uint32_t find_key(const Node *nodes, uint32_t last, uint64_t key)
{
    for (uint32_t x = 1; x <= last; x++) {
        if (key_at(&nodes[x]) == key) {
            return x;
        }
    }
    return 0;
}

/* `i` becomes the index `back` places behind it. */
static Refusal follow(const Version *versions, uint32_t back, uint32_t *i)
{
    for (; back > 0; back--) {
        uint32_t prev = versions[*i].prev;
        if (prev >= *i) {
            return DAMAGED;
        }
        if (prev == 0) {
            return NO_VERSION;
        }
        *i = prev;
    }
    return ACCEPTED;
}

uint32_t tray_look(const uint32_t *state, size_t state_words, const uint32_t *nodes, size_t node_words,
                   const uint32_t *readings, size_t reading_words, uint64_t tray, uint32_t back,
                   uint32_t answer[2])
{
    const State *s = (const State *)state;
    const Node *table = (const Node *)nodes;
    const Version *versions = (const Version *)readings;
    answer[0] = answer[1] = 0;
    if (!lawful_state(s, state_words) || !like_tables(s, node_words, reading_words)) {
        return CORRUPT;
    }
    if (!lawful_key(tray)) {
        return BAD_KEY;
    }
    uint32_t x = find_key(table, s->nodes, tray);
    if (x == 0) {
        return NO_KEY;
    }
    uint32_t i = table[x].newest;
    Refusal refusal = i == 0 || i > s->versions ? DAMAGED : follow(versions, back, &i);
    if (refusal == ACCEPTED) {
        answer[0] = versions[i].value;
        answer[1] = versions[i].timestamp;
    }
    return refusal;
}

/* Places fall along the chain and timestamps do not rise. Both are tested in one pass: either fault is the node's. */
static int sound_chain(const Version *versions, uint32_t used, uint32_t i)
{
    if (i == 0 || i > used) {
        return 0;
    }
    for (;;) {
        uint32_t prev = versions[i].prev;
        if (prev == 0) {
            return 1;
        }
        if (prev >= i || versions[prev].timestamp > versions[i].timestamp) {
            return 0;
        }
        i = prev;
    }
}

/* How many nodes reach each level. */
static void count_reaching(const Node *nodes, uint32_t last, uint32_t reaching[LEVELS])
{
    memset(reaching, 0, LEVELS * sizeof *reaching);
    for (uint32_t x = 1; x <= last; x++) {
        reaching[nodes[x].top < TOP ? nodes[x].top : TOP]++;
    }
    for (int level = TOP; level > 0; level--) {
        reaching[level - 1] += reaching[level];
    }
}

/* Walks one level; 1 and the node reached at its first fault. Keys rise on the way, so it ends; the last one read goes along. */
static int fault_on(const State *s, const Node *nodes, const Version *versions, uint32_t level, uint32_t due, uint32_t *at)
{
    uint64_t key = key_at(nodes);
    uint32_t seen = 0;
    for (*at = 0;; seen++) {
        const Node *x = &nodes[*at];
        uint32_t next = x->next[level];
        if (x->lock[level] != 0 || next > s->nodes) {
            return 1;
        }
        if (level == 0 && *at != 0 && !sound_chain(versions, s->versions, x->newest)) {
            return 1;
        }
        if (next == 0) {
            return seen < due;
        }
        uint64_t next_key = key_at(&nodes[next]);
        if (next_key <= key || nodes[next].top < level) {
            return 1;
        }
        key = next_key;
        *at = next;
    }
}

static int idle_below(const State *s)
{
    for (uint32_t i = 0; i < s->processes; i++) {
        if (s->process[i].kind != IDLE) {
            return 0;
        }
    }
    return 1;
}

uint32_t tray_inspect(const uint32_t *state, size_t state_words, const uint32_t *nodes, size_t node_words,
                      const uint32_t *readings, size_t reading_words, uint32_t answer[3])
{
    const State *s = (const State *)state;
    const Node *table = (const Node *)nodes;
    uint32_t reaching[LEVELS], at;
    memset(answer, 0, 3 * sizeof *answer);
    if (!lawful_state(s, state_words) || !known_below(s) || !like_tables(s, node_words, reading_words)) {
        return CORRUPT;
    }
    if (!idle_below(s)) {
        return BUSY;
    }
    count_reaching(table, s->nodes, reaching);
    for (uint32_t level = 0; level < LEVELS; level++) {
        if (fault_on(s, table, (const Version *)readings, level, reaching[level], &at)) {
            answer[0] = 1;
            answer[1] = level;
            answer[2] = at;
            break;
        }
    }
    return ACCEPTED;
}

uint32_t tray_standing(const uint32_t *state, size_t state_words, uint32_t station, uint32_t answer[3])
{
    const State *s = (const State *)state;
    memset(answer, 0, 3 * sizeof *answer);
    if (!lawful_at(s, state_words, station)) {
        return CORRUPT;
    }
    if (station >= s->processes) {
        return NO_PROCESS;
    }
    const Process *p = &s->process[station];
    if (p->kind != IDLE) {
        answer[0] = p->kind;
        answer[1] = p->start;
        answer[2] = p->effect;
    }
    return ACCEPTED;
}
