/* Vandrexu for C: slots of a controller in memory, claimed, released and taken over by the fused Compare and Write.
 *
 * Link libvandrexu_c.a. What vandrexu.h and vandrexu_hosts.h say of every call, of handles, of disks and of the numbers
 * that calls answer is so here too. A slot is a lock: one block of a disk, which holds zeros while nobody has it, and
 * else the name of who has it: the number of a host, and a serial that the host uses once. A disk is made with its
 * slots, and only the calls below write there. A slot host is a host that claims slots and releases them, and takes
 * over those of a host that died; docs/SLOTS.md says by which rules. Like any host it has a submission queue, and one
 * call at a time, which somebody polls.
 *
 * What a host has at a slot is kept in its handle. Where the handle is freed, the slot stays held by its name. */
#ifndef VANDREXU_SLOTS_H
#define VANDREXU_SLOTS_H

#include "vandrexu_hosts.h"

#ifdef __cplusplus
extern "C" {
#endif

/* What a call answers beside the numbers of vandrexu.h and vandrexu_hosts.h. */
enum vandrexu_slot_status {
    VANDREXU_CALL_NO_SERIAL = 48, /* the host has used the last serial */
    /* of these calls alone */
    VANDREXU_NO_SLOT = 118,  /* there is no such slot */
    VANDREXU_NOT_HELD = 119, /* the host hasn't the slot */
    VANDREXU_HELD = 120,     /* the host has the slot */
    VANDREXU_BAD_NAME = 122, /* the name has a zero in it, or is of the host itself */
    VANDREXU_BAD_AREA = 123, /* there would be no slot, or one behind block 65,535 */
    VANDREXU_SLOTS_MISUSED = 128 /* the history with this line doesn't keep the discipline of slots */
};

typedef struct vandrexu_slot_host {
    void *at;
    uint32_t live;
} vandrexu_slot_host;

typedef struct vandrexu_slot_checker {
    void *at;
    uint32_t live;
} vandrexu_slot_checker;

#define VANDREXU_SLOT_HOST_NONE {0, 0}
#define VANDREXU_SLOT_CHECKER_NONE {0, 0}

/* As vandrexu_disk_new, but with so many slots from block `first` on: slot i is block first + i. VANDREXU_BAD_AREA,
 * whatever the configuration and the handle are; else the numbers of vandrexu_disk_new. */
uint32_t vandrexu_slot_disk_new(const vandrexu_config *config, uint16_t hosts, uint64_t first, uint32_t count,
                                vandrexu_disk *disk);

/* As vandrexu_host_new, and the host's slots are those of the disk. VANDREXU_BAD_AREA where it has none: that is looked
 * at behind VANDREXU_NO_HANDLE. What a host of either kind has used, no host of the other kind gets. */
uint32_t vandrexu_slot_host_new(vandrexu_disk *disk, uint32_t number, uint16_t queue, vandrexu_slot_host *host);

/* Frees it, and leaves the handle zeros. What the host has stays held, and a call that isn't answered is forgotten: who
 * knows that the host is gone may take its slots over. Nothing is done to one that owns nothing. */
void vandrexu_slot_host_free(vandrexu_slot_host *host);

/* Each begins a call about slot i: its entries are published. 43, 45 and 46, and then nothing was, and the host has what it
 * had; VANDREXU_IN_CALL, VANDREXU_NO_SLOT. */

/* To claim it: to swap zeros for the host's next name. 48; VANDREXU_HELD. */
uint32_t vandrexu_slot_claim(vandrexu_slot_host *host, uint32_t slot);

/* To claim the first slot that nobody has: slot 0, and each further one by a poll, once the one before is answered to be
 * somebody's. VANDREXU_SLOT_TAKEN is then told where each was, at a moment of its own. 48. */
uint32_t vandrexu_slot_claim_any(vandrexu_slot_host *host);

/* To release it, which was claimed or taken over: to swap the host's name for zeros. From then on the host has it no more,
 * whatever comes of it. VANDREXU_NOT_HELD. */
uint32_t vandrexu_slot_release(vandrexu_slot_host *host, uint32_t slot);

/* To take it over: to swap the name of a dead host, its number and its serial, for the host's next name. That the dead host
 * does nothing any more is yours to see. 48; VANDREXU_HELD, VANDREXU_BAD_NAME. */
uint32_t vandrexu_slot_take_over(vandrexu_slot_host *host, uint32_t slot, uint32_t dead_host, uint64_t dead_serial);

/* To ask who holds it: to read its block. */
uint32_t vandrexu_slot_ask_holder(vandrexu_slot_host *host, uint32_t slot);

/* What became of a call. */
enum vandrexu_slot_reply_kind {
    VANDREXU_SLOT_PENDING = 1,  /* not all its completions were reaped */
    VANDREXU_SLOT_HELD = 2,     /* of a claim and of a takeover: the slot is the host's */
    VANDREXU_SLOT_TAKEN = 3,    /* somebody else has it; of a takeover, or it has no longer that name */
    VANDREXU_SLOT_RELEASED = 4, /* nobody has it by this host's name */
    VANDREXU_SLOT_FREE = 5,     /* of the question who holds it: nobody */
    VANDREXU_SLOT_OF_NAME = 6,  /* whoever has the name beside it */
    VANDREXU_SLOT_FOREIGN = 7,  /* its block is neither zeros nor a name, which no call brings about */
    VANDREXU_SLOT_FAILED = 8    /* with the status beside it */
};

typedef struct vandrexu_slot_reply {
    uint32_t kind;
    uint32_t slot;   /* of VANDREXU_SLOT_HELD: which */
    uint64_t serial; /* of VANDREXU_SLOT_OF_NAME: the serial */
    uint32_t host;   /* and the number of the host */
    uint8_t sct;     /* of VANDREXU_SLOT_FAILED: the Status Code Type */
    uint8_t sc;      /* and the Status Code */
    uint8_t zeros[2];
} vandrexu_slot_reply;

/* Reaps at most one completion of the host's completion queue: 0, and what became of the call, which is over but where it
 * is pending; 44, where it failed, and it is over; 45 and 46, and it goes on; VANDREXU_NO_CALL. Where it isn't over, and
 * where there is none, the reply says pending. */
uint32_t vandrexu_slot_poll(vandrexu_slot_host *host, vandrexu_slot_reply *reply);

/* ---- A checker of the discipline of slots, which keeps no line ---- */

/* 0, and the handle owns a checker of so many slots from block `first` on, for histories of this configuration, that has
 * taken no line; VANDREXU_BAD_AREA, whatever the configuration and the handle are; 11, 21 to 30, VANDREXU_IN_USE. */
uint32_t vandrexu_slot_checker_new(const vandrexu_config *config, uint64_t first, uint32_t count,
                                   vandrexu_slot_checker *checker);

/* Frees it, and leaves the handle zeros. Nothing is done to one that owns nothing. */
void vandrexu_slot_checker_free(vandrexu_slot_checker *checker);

/* Takes the next line of a history, an entry's, without its line feed: 0 where all lines so far keep the discipline of the
 * slots (docs/CHECKING.md); VANDREXU_SLOTS_MISUSED where they don't, and from then on for each; VANDREXU_BAD_LINE and 11,
 * where it isn't taken. The history of a disk is legal. Of one that isn't nothing is said: give the lines of others to
 * vandrexu_checker_take_line, too. */
uint32_t vandrexu_slot_checker_take_line(vandrexu_slot_checker *checker, const uint8_t *line, size_t length);

/* Which line broke the discipline first: 0 where none did; VANDREXU_SLOTS_MISUSED, and *place is its place, the K of `slots
 * bad at K`, *block that of the slot, and `out` begins with the words of the rule, *needed bytes; VANDREXU_TOO_SMALL for
 * those words, *needed says how many they are; 11. */
uint32_t vandrexu_slot_checker_why(vandrexu_slot_checker *checker, uint64_t *place, uint64_t *block, uint8_t *out,
                                   size_t room, size_t *needed);

VANDREXU_LAYOUT(sizeof(vandrexu_slot_checker) == 16 && offsetof(vandrexu_slot_checker, live) == 8);
VANDREXU_LAYOUT(sizeof(vandrexu_slot_host) == 16 && offsetof(vandrexu_slot_host, live) == 8);
VANDREXU_LAYOUT(sizeof(vandrexu_slot_reply) == 24 && offsetof(vandrexu_slot_reply, serial) == 8);
VANDREXU_LAYOUT(offsetof(vandrexu_slot_reply, host) == 16 && offsetof(vandrexu_slot_reply, sct) == 20);

#ifdef __cplusplus
}
#endif
#endif
