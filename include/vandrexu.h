/* Vandrexu for C: an NVM Express controller in memory, around the fused Compare and Write, and a checker of histories.
 *
 * Link libvandrexu_c.a. It takes its memory from malloc, realloc and free of the program. Nothing here waits, starts a
 * thread, takes a lock, or reads or writes anything but the memory that it is given and that it allocates. docs/LIBRARY.md
 * has a first program, and says what is proved of a call.
 *
 * Of every call: no pointer is null, also where a count is 0; what an argument points to is the caller's own, is not in
 * what a handle owns, and no two arguments overlap, but where both are only read. A call is not made from a signal
 * handler, nor from a child that a process with threads forked. What a call is answered is proved for all else. */
#ifndef VANDREXU_H
#define VANDREXU_H

#include <assert.h>
#include <stddef.h>
#include <stdint.h>

#ifdef __cplusplus
extern "C" {
#define VANDREXU_LAYOUT(what) static_assert(what, "layout")
#else
#define VANDREXU_LAYOUT(what) _Static_assert(what, "layout")
#endif

#define VANDREXU_VERSION "0.1.0"

/* What a call answers: 0, or a number that says why not. All but 0 leave everything as before, but where a call says
 * otherwise. */
enum vandrexu_status {
    VANDREXU_DONE = 0,
    /* why a step is refused, as in the texts of casdisk */
    VANDREXU_NO_QUEUE = 1,
    VANDREXU_NO_ROOM = 2,
    VANDREXU_NO_ENTRY = 3,
    VANDREXU_JOBS_FULL = 4,
    VANDREXU_NO_TICKET = 5,
    VANDREXU_CONFLICT = 6,
    VANDREXU_WRONG_STATE = 7,
    VANDREXU_CQ_FULL = 8,
    VANDREXU_NO_COMPLETION = 9,
    VANDREXU_BAD_BATCH = 10,
    VANDREXU_NO_MEMORY = 11, /* also of every other call that allocates */
    /* why a configuration is refused */
    VANDREXU_AWUN_TOO_LARGE = 21,
    VANDREXU_ACWU_TOO_LARGE = 22,
    VANDREXU_BOUNDARY_BELOW_UNIT = 23,
    VANDREXU_OFFSET_PAST_BOUNDARY = 24,
    VANDREXU_BAD_BLOCKS = 25,
    VANDREXU_BAD_PAIRS = 26,
    VANDREXU_BAD_SQ_SIZE = 27,
    VANDREXU_BAD_CQ_SIZE = 28,
    VANDREXU_BAD_JOBS = 29,
    VANDREXU_BAD_CQS = 30,
    /* of these calls alone */
    VANDREXU_NO_HANDLE = 101,     /* the handle owns nothing */
    VANDREXU_IN_USE = 102,        /* the handle owns something already */
    VANDREXU_TOO_SMALL = 103,     /* the room is too small; *needed says how much is wanted */
    VANDREXU_NO_BLOCK = 104,      /* the volume has no such block */
    VANDREXU_NOTHING_READY = 105, /* no ticket can go on by itself */
    VANDREXU_BAD_ENTRY = 106,     /* the data aren't just those of the entries */
    VANDREXU_BAD_LINE = 107,      /* no line of a history, or of the text that is read */
    VANDREXU_NOT_LEGAL = 108,     /* the history with this line isn't legal */
    VANDREXU_NOT_EXPLAINED = 109, /* the history isn't legal, or hosts saw something else of it; or no history explains it */
    VANDREXU_BAD_HISTORY = 110,   /* what stands beside a trace has a line that is none, or its configuration is refused */
    VANDREXU_OTHER_CONFIG = 111,  /* a trace and a history that don't belong together */
    VANDREXU_GAVE_UP = 112,       /* the steps of a search were used up */
    VANDREXU_NOT_FOUND = 126,     /* a search found neither a history nor a refutation */
    VANDREXU_NOT_REFUTED = 127,   /* the trace isn't refuted by this */
    VANDREXU_FORGOTTEN = 129,     /* the step at this place of a history was forgotten */
    VANDREXU_OTHER_ENTRY = 131    /* the step was made, and its line isn't the one that was given */
};

/* A handle lies in the caller's memory. It is zeros before its `_new` and after its `_free`. Between them the caller
 * neither reads its fields for anything nor writes them. It may be moved, as by memcpy, if the old place is not used
 * again: two that own the same would free it twice. One call at a time has it. It may be used on another thread than
 * before, if the caller orders the two uses, by a lock or a join. */
typedef struct vandrexu_controller {
    void *at;
    uint32_t live;
} vandrexu_controller;

typedef struct vandrexu_checker {
    void *at;
    uint32_t live;
} vandrexu_checker;

typedef struct vandrexu_tracer {
    void *at;
    uint32_t live;
} vandrexu_tracer;

#define VANDREXU_CONTROLLER_NONE {0, 0}
#define VANDREXU_CHECKER_NONE {0, 0}
#define VANDREXU_TRACER_NONE {0, 0}

/* ---- A configuration ---- */

typedef struct vandrexu_config {
    uint32_t blocks;  /* of 512 bytes, 1 to 65536 */
    uint16_t awun;    /* the most blocks of a unit, 0's based, 0 to 255 */
    uint16_t acwu;    /* the most blocks of a fused pair, 0's based, 0 to 255 */
    uint16_t nabsn;   /* blocks from a boundary to the next, 0's based; 0 is for none */
    uint16_t nabo;    /* the block of the first boundary */
    uint16_t pairs;   /* submission queues, numbered from 1, 1 to 16 */
    uint16_t sq_size; /* slots of a submission queue, 2 to 1024 */
    uint16_t cq_size; /* slots of a completion queue, 2 to 1024 */
    uint16_t jobs;    /* the most tickets in flight, 1 to 256 */
    uint16_t cqs;     /* completion queues, 1 to pairs */
} vandrexu_config;

/* 0, or the first of the faults 21 to 30 that holds. */
uint32_t vandrexu_config_fault(const vandrexu_config *config);

/* ---- A controller ---- */

/* 0, and the handle owns a controller with no history and blocks of zeros; 11, 21 to 30, VANDREXU_IN_USE. */
uint32_t vandrexu_controller_new(const vandrexu_config *config, vandrexu_controller *controller);

/* Frees it, and leaves the handle zeros. Nothing is done to one that owns nothing. */
void vandrexu_controller_free(vandrexu_controller *controller);

/* Makes the memory of the next `more` Grants, Blocks and Reaps, so that none of them is answered 11. */
uint32_t vandrexu_controller_reserve(vandrexu_controller *controller, size_t more);

/* A submission queue entry, and how many bytes of data belong to it. */
typedef struct vandrexu_entry {
    uint8_t bytes[64];
    size_t count;
} vandrexu_entry;

/* Publishes all entries, or none. The data of the entries lies one behind the other in `data`, and nothing else does:
 * else VANDREXU_BAD_ENTRY. */
uint32_t vandrexu_controller_publish(vandrexu_controller *controller, uint16_t queue, const vandrexu_entry *entries,
                                     size_t count, const uint8_t *data, size_t data_length);

enum vandrexu_kind { VANDREXU_FAILED = 1, VANDREXU_FLUSH = 2, VANDREXU_UNITS = 3, VANDREXU_PAIR = 4 };
enum vandrexu_op { VANDREXU_READ = 1, VANDREXU_COMPARE = 2, VANDREXU_WRITE = 3, VANDREXU_WRITE_ZEROES = 4 };
enum vandrexu_mode { VANDREXU_SHARED = 1, VANDREXU_EXCLUSIVE = 2 };
enum vandrexu_found { VANDREXU_FOUND_READ = 1, VANDREXU_EQUAL = 2, VANDREXU_DIFFERS = 3, VANDREXU_WRITTEN = 4 };

/* What a fetched ticket has to do. What a kind does not have is 0. */
typedef struct vandrexu_work {
    uint64_t ticket; /* numbered from 1 */
    uint64_t slba;
    uint32_t blocks;
    uint32_t kind;
    uint32_t op;       /* of VANDREXU_UNITS */
    uint32_t statuses; /* of VANDREXU_FAILED: 1 or 2 */
} vandrexu_work;

uint32_t vandrexu_controller_fetch(vandrexu_controller *controller, uint16_t queue, vandrexu_work *work);

typedef struct vandrexu_granted {
    uint64_t unit; /* of the ticket, from 0 */
    uint64_t slba;
    uint32_t blocks;
    uint32_t mode;
} vandrexu_granted;

uint32_t vandrexu_controller_grant(vandrexu_controller *controller, uint64_t ticket, vandrexu_granted *granted);

typedef struct vandrexu_blocked {
    uint64_t lba;
    uint32_t found;
    uint8_t effect; /* 1: the unit takes effect by this step */
    uint8_t ended;  /* 1: the unit has ended */
    uint8_t zeros[2];
} vandrexu_blocked;

uint32_t vandrexu_controller_block(vandrexu_controller *controller, uint64_t ticket, vandrexu_blocked *blocked);

/* `cqe` is 16 bytes. */
uint32_t vandrexu_controller_post(vandrexu_controller *controller, uint64_t ticket, uint8_t *cqe);

/* Reaps the next completion of a completion queue: `cqe` is 16 bytes, and *count is how many bytes a successful Read
 * read, else 0. They stay with the controller until the next Reap, and are had by vandrexu_controller_data. */
uint32_t vandrexu_controller_reap(vandrexu_controller *controller, uint16_t queue, uint8_t *cqe, size_t *count);

/* Copies the data of the last reaped completion: *needed bytes; VANDREXU_TOO_SMALL. */
uint32_t vandrexu_controller_data(vandrexu_controller *controller, uint8_t *out, size_t room, size_t *needed);

/* A Grant, Block or Post, which names a ticket. */
enum vandrexu_step_kind { VANDREXU_STEP_GRANT = 2, VANDREXU_STEP_BLOCK = 3, VANDREXU_STEP_POST = 4 };
typedef struct vandrexu_step {
    uint64_t ticket;
    uint32_t kind;
} vandrexu_step;

/* The step of the least ticket that can go on; VANDREXU_NOTHING_READY. It isn't made. */
uint32_t vandrexu_controller_ready(vandrexu_controller *controller, vandrexu_step *step);

/* Makes this step, and the one that is ready then, until none is: 0; or 11, and the steps before are made. */
uint32_t vandrexu_settle(vandrexu_controller *controller);

/* The block as it lies in the volume: `out` is 512 bytes; VANDREXU_NO_BLOCK. */
uint32_t vandrexu_controller_medium(vandrexu_controller *controller, uint64_t lba, uint8_t *out);

/* How many entries the history has. */
uint32_t vandrexu_controller_history_count(vandrexu_controller *controller, uint64_t *count);

/* Copies lines of the history, as many whole ones as fit, each with its line feed: *needed bytes, and *next is the place
 * behind them. Place 0 is the configuration's line, place k the k-th entry's, which is the k of `bad at k`. So all lines
 * from 0 on are the text that casdisk prints of a run, and checks. Behind the last one nothing is copied, and *next is
 * `from`. VANDREXU_TOO_SMALL where not one line fits: *needed is the length of the first. 11. It takes as long as the
 * lines that are copied, and the next one, are; what stands before `from` costs nothing. VANDREXU_FORGOTTEN where the
 * entry at `from` was forgotten; if the first one was, place 0 gives the configuration's line alone. */
uint32_t vandrexu_controller_history(vandrexu_controller *controller, uint64_t from, uint8_t *out, size_t room,
                                     size_t *needed, uint64_t *next);

/* Forgets the entries before a place: their memory is used again, and the places of the others stay. What was forgotten
 * before stays so. The *next of the call above is the place behind the lines that were copied. So who copies lines and
 * then forgets up to there keeps memory flat. */
uint32_t vandrexu_controller_forget(vandrexu_controller *controller, uint64_t place);

/* Makes the step of the next line of a history once more, an entry's, without its line feed: 0 where the controller added
 * this line. VANDREXU_OTHER_ENTRY where it made the step and added another line, which is the last of its history now;
 * the number of the refusal where it refuses the step. So a new controller that is given all lines of a history with its
 * configuration goes on from there, or the first answer that isn't 0 is at the step that a controller of this kind would
 * have made otherwise. What such a controller made is never answered so. VANDREXU_BAD_LINE and 11, where no step is made. What a Reap read is had as above. */
uint32_t vandrexu_controller_replay(vandrexu_controller *controller, const uint8_t *line, size_t length);

/* ---- A checker of histories, which keeps no line ---- */

/* 0, and the handle owns a checker of histories of this configuration that has taken no line; 11, 21 to 30,
 * VANDREXU_IN_USE. */
uint32_t vandrexu_checker_new(const vandrexu_config *config, vandrexu_checker *checker);

/* Frees it, and leaves the handle zeros. Nothing is done to one that owns nothing. */
void vandrexu_checker_free(vandrexu_checker *checker);

/* Takes the next line of a history, an entry's, without its line feed: 0 where all lines so far are legal;
 * VANDREXU_NOT_LEGAL where they aren't, and from then on for each; VANDREXU_BAD_LINE and 11, where it isn't taken. The
 * configuration's line, which a history's file begins with, is no entry's. */
uint32_t vandrexu_checker_take_line(vandrexu_checker *checker, const uint8_t *line, size_t length);

/* What the next line would be answered; it isn't taken: 0; VANDREXU_NOT_LEGAL, and `out` begins with the words of the
 * first rule that it breaks, *needed bytes; VANDREXU_TOO_SMALL for those words, *needed says how many they are;
 * VANDREXU_BAD_LINE; 11. */
uint32_t vandrexu_checker_why(vandrexu_checker *checker, const uint8_t *line, size_t length, uint8_t *out, size_t room,
                              size_t *needed);

/* ---- A tracer: what hosts see of a history ---- */

/* 0, and the handle owns a tracer of histories of this configuration that has taken no line; 11, 21 to 30,
 * VANDREXU_IN_USE. */
uint32_t vandrexu_tracer_new(const vandrexu_config *config, vandrexu_tracer *tracer);

/* Frees it, and leaves the handle zeros. Nothing is done to one that owns nothing. */
void vandrexu_tracer_free(vandrexu_tracer *tracer);

/* Takes the next line of a history, an entry's, without its line feed: 0; VANDREXU_BAD_LINE and 11, where it isn't taken.
 * The history of a controller or a disk here is legal. Of one that isn't nothing is said. */
uint32_t vandrexu_tracer_take_line(vandrexu_tracer *tracer, const uint8_t *line, size_t length);

/* Copies what the line that was taken last adds to the trace (docs/OBSERVING.md): a line with its line feed, where hosts see
 * something of it, and else nothing: *needed bytes; VANDREXU_TOO_SMALL; 11. The configuration's line and then all these
 * lines are the trace that casdisk prints of a run, and observes. */
uint32_t vandrexu_tracer_seen(vandrexu_tracer *tracer, uint8_t *out, size_t room, size_t *needed);

/* ---- Whole texts, from memory to memory, as casdisk takes them ---- */

/* Each gives what casdisk prints, at the begin of `out`, and *needed is its length; where `room` is less than that, the
 * answer is VANDREXU_TOO_SMALL, and nothing is written there. *line is 0, or the line, from 1, that an answer is about.
 * Nothing is kept between two calls. 21 to 30 are for the configuration in the text's first line. */

/* The kinds of lines that a run shows: a sum of these. */
enum vandrexu_lines {
    VANDREXU_PUBLISH_LINES = 1,
    VANDREXU_FETCH_LINES = 2,
    VANDREXU_GRANT_LINES = 4,
    VANDREXU_BLOCK_LINES = 8,
    VANDREXU_POST_LINES = 16,
    VANDREXU_REAP_LINES = 32,
    VANDREXU_REFUSED_LINES = 64,
    VANDREXU_MEDIUM_LINES = 128,
    VANDREXU_ALL_LINES = 255
};

/* Runs a script: 0; VANDREXU_BAD_LINE with its first bad line, and the text of the lines before it; 21 to 30; 11, with a
 * beginning of the text. */
uint32_t vandrexu_run_text(const uint8_t *script, size_t script_length, uint8_t kinds, uint8_t *out, size_t room,
                           size_t *needed, uint64_t *line);

/* Checks a history: 0 where it is legal, VANDREXU_NOT_LEGAL where it isn't; VANDREXU_BAD_LINE with its first bad line,
 * 21 to 30 and 11. */
uint32_t vandrexu_check_text(const uint8_t *history, size_t history_length, uint8_t *out, size_t room, size_t *needed,
                             uint64_t *line);

/* Says whether a history explains a trace: 0 where it does, VANDREXU_NOT_EXPLAINED where it doesn't; VANDREXU_BAD_LINE
 * with the first bad line of the trace, and 21 to 30 for its configuration; VANDREXU_BAD_HISTORY with the first bad line
 * of the history, its first one for its configuration; VANDREXU_OTHER_CONFIG; 11. */
uint32_t vandrexu_certify_text(const uint8_t *trace, size_t trace_length, const uint8_t *history, size_t history_length,
                               uint8_t *out, size_t room, size_t *needed, uint64_t *line);

/* Says whether a trace is refuted: 0 where it is, so that no legal history explains it, VANDREXU_NOT_REFUTED where it
 * isn't by this refutation; VANDREXU_BAD_LINE with the first bad line of the trace, and 21 to 30 for its configuration;
 * VANDREXU_BAD_HISTORY with the first bad line of the refutation; 11. */
uint32_t vandrexu_refute_text(const uint8_t *trace, size_t trace_length, const uint8_t *refutation,
                              size_t refutation_length, uint8_t *out, size_t room, size_t *needed, uint64_t *line);

/* Looks for a history that explains a trace, in `steps` steps at most (casdisk takes 10,000,000): 0, and the history is at
 * the begin of `history`, *found its length; VANDREXU_NOT_EXPLAINED where there is none, and what refutes the trace is at
 * the begin of `history`; VANDREXU_NOT_FOUND, of which nothing is promised, and VANDREXU_GAVE_UP; VANDREXU_BAD_LINE with
 * the first bad line of the trace, 21 to 30 and 11. VANDREXU_TOO_SMALL is for either room. */
uint32_t vandrexu_observe_text(const uint8_t *trace, size_t trace_length, uint64_t steps, uint8_t *history,
                               size_t history_room, size_t *found, uint8_t *out, size_t room, size_t *needed,
                               uint64_t *line);

/* ---- Of these calls alone, nothing of which is proved by itself ---- */

/* Lets all handles together have so many bytes of memory at the most, from now on: what wants more is answered as where
 * malloc refuses it, so by 11, and what is there stays. SIZE_MAX is for no limit. Any thread may call it. */
void vandrexu_heap_limit(size_t bytes);

/* How many bytes all handles together have now, as malloc rounds them up. */
size_t vandrexu_heap_used(void);

VANDREXU_LAYOUT(sizeof(void *) == 8 && sizeof(size_t) == 8);
VANDREXU_LAYOUT(sizeof(vandrexu_controller) == 16 && offsetof(vandrexu_controller, live) == 8);
VANDREXU_LAYOUT(sizeof(vandrexu_checker) == 16 && offsetof(vandrexu_checker, live) == 8);
VANDREXU_LAYOUT(sizeof(vandrexu_tracer) == 16 && offsetof(vandrexu_tracer, live) == 8);
VANDREXU_LAYOUT(sizeof(vandrexu_config) == 24 && offsetof(vandrexu_config, cqs) == 20);
VANDREXU_LAYOUT(sizeof(vandrexu_entry) == 72 && offsetof(vandrexu_entry, count) == 64);
VANDREXU_LAYOUT(sizeof(vandrexu_work) == 32 && offsetof(vandrexu_work, statuses) == 28);
VANDREXU_LAYOUT(sizeof(vandrexu_granted) == 24 && offsetof(vandrexu_granted, mode) == 20);
VANDREXU_LAYOUT(sizeof(vandrexu_blocked) == 16 && offsetof(vandrexu_blocked, ended) == 13);
VANDREXU_LAYOUT(sizeof(vandrexu_step) == 16 && offsetof(vandrexu_step, kind) == 8);

#ifdef __cplusplus
}
#endif
#endif
