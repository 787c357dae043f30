/* Vandrexu for C: hosts of one controller in memory, each with a driver, around the fused Compare and Write.
 *
 * Link libvandrexu_c.a. What vandrexu.h says of every call, of handles, and of the numbers that calls answer is so here
 * too. A disk is a controller that many handles share: its own, by which it is served, and one for each host. Each host
 * has a submission queue, and many calls in flight, which somebody polls by their numbers. Handles of one disk may be used
 * by unlike threads at once, each by one at a time.
 *
 * No two hosts of a disk have one number, or submission queues of one completion queue. The second is refused, also
 * where the first was freed. So a disk has at most `cqs` hosts, and no host uses another one's queues. A host that ended
 * is kept by its disk, and made again by its number. What a call is answered is then proved to be true of the history of
 * the controller. */
#ifndef VANDREXU_HOSTS_H
#define VANDREXU_HOSTS_H

#include "vandrexu.h"

#ifdef __cplusplus
extern "C" {
#endif

/* What a call answers beside the numbers of vandrexu.h. */
enum vandrexu_host_status {
    VANDREXU_BUSY = 12, /* of a disk's calls: another handle of the disk had the controller */
    /* why a host's call isn't started, or wasn't served */
    VANDREXU_CALL_LENGTH = 41,    /* no block, or data that isn't whole blocks, or two data of unlike lengths */
    VANDREXU_CALL_TOO_LONG = 42,  /* more than 256 blocks, or of a pair more than `acwu` and one */
    VANDREXU_CALL_NO_ROOM = 43,   /* too few CIDs are free, or no room in the submission queue */
    VANDREXU_CALL_FAILED = 44,    /* a completion with another status than those that a reply tells */
    VANDREXU_CALL_BUSY = 45,      /* another handle of the disk had the controller */
    VANDREXU_CALL_NO_MEMORY = 46, /* memory was refused */
    VANDREXU_CALL_SLOT_AREA = 47, /* a Write, a Write Zeroes or a Compare and Write that touches a slot of the disk */
    /* of these calls alone */
    VANDREXU_UNFINISHED = 113,  /* what was fetched before isn't finished */
    VANDREXU_NO_HOST = 114,     /* as many hosts were made as the disk was made for */
    VANDREXU_BAD_NUMBER = 115,  /* a host has no number 0 */
    VANDREXU_IN_CALL = 116,     /* the slot host has a call, or a host that is to end */
    VANDREXU_NO_CALL = 117,     /* the slot host has no call, or no call of the host has this number */
    VANDREXU_USED_NUMBER = 124, /* a host of the disk had the number before, also one that was freed */
    VANDREXU_USED_QUEUE = 125,  /* one had the completion queue of this submission queue before */
    VANDREXU_OTHER_HOST = 130   /* no host of this number, made of the disk, lives; or none ended */
};

typedef struct vandrexu_disk {
    void *at;
    uint32_t live;
} vandrexu_disk;

typedef struct vandrexu_host {
    void *at;
    uint32_t live;
} vandrexu_host;

#define VANDREXU_DISK_NONE {0, 0}
#define VANDREXU_HOST_NONE {0, 0}

/* ---- A disk ---- */

/* 0, and the handle owns a controller with no history, blocks of zeros and no slots, of which so many hosts can be
 * made; 11, 21 to 30, VANDREXU_IN_USE. */
uint32_t vandrexu_disk_new(const vandrexu_config *config, uint16_t hosts, vandrexu_disk *disk);

/* Frees it with the hosts that ended, and leaves the handle zeros. Other hosts that were made of it stay, and the
 * controller with them: but nobody serves it then. Nothing is done to one that owns nothing. */
void vandrexu_disk_free(vandrexu_disk *disk);

/* How many hosts, of either kind, can be made of it yet. */
uint32_t vandrexu_disk_hosts_left(vandrexu_disk *disk, size_t *count);

/* Fetches the next command, or fused pair, of a submission queue, and makes all that it has to do: 0. At a refusal, as
 * VANDREXU_NO_ENTRY, 8, 11 or VANDREXU_BUSY, what was fetched and isn't finished is kept, and the next call goes on with
 * that, whichever queue it names. */
uint32_t vandrexu_disk_serve(vandrexu_disk *disk, uint16_t queue);

/* The same in steps. Fetches, and keeps what has to be done; VANDREXU_UNFINISHED where something is kept. */
uint32_t vandrexu_disk_fetch(vandrexu_disk *disk, uint16_t queue);

/* Makes the next Grant, Block or Post of what is kept; VANDREXU_NOTHING_READY where there is none, and nothing is kept
 * then. */
uint32_t vandrexu_disk_task(vandrexu_disk *disk);

/* Forgets the entries of the controller's history before a place, the k-th entry's being k: their memory is used again.
 * UINT64_MAX is for all so far. Nothing that a host or the disk is answered changes by it. */
uint32_t vandrexu_disk_forget(vandrexu_disk *disk, uint64_t place);

/* Each looks at the controller, and makes no step; VANDREXU_BUSY. What it tells is of the history so far, which is legal
 * and goes on from what the handle was told before. */

/* Copies lines of the history, as vandrexu_controller_history does: VANDREXU_TOO_SMALL, VANDREXU_FORGOTTEN; 11. */
uint32_t vandrexu_disk_history(vandrexu_disk *disk, uint64_t from, uint8_t *out, size_t room, size_t *needed,
                               uint64_t *next);

/* How many entries the history has. */
uint32_t vandrexu_disk_history_count(vandrexu_disk *disk, uint64_t *count);

/* The block as it lies in the volume: `out` is 512 bytes; VANDREXU_NO_BLOCK. */
uint32_t vandrexu_disk_medium(vandrexu_disk *disk, uint64_t lba, uint8_t *out);

/* ---- A host ---- */

/* 0, and the host's handle owns a host of this number, not 0, with a driver on this submission queue. Else the first
 * that holds of VANDREXU_IN_USE, VANDREXU_NO_HANDLE, VANDREXU_BAD_NUMBER, VANDREXU_NO_QUEUE, VANDREXU_USED_NUMBER and
 * VANDREXU_USED_QUEUE; or 11, or VANDREXU_NO_HOST. */
uint32_t vandrexu_host_new(vandrexu_disk *disk, uint32_t number, uint16_t queue, vandrexu_host *host);

/* Frees it, and leaves the handle zeros; calls that aren't answered are forgotten, and its pass isn't given back. Nothing
 * is done to one that owns nothing. */
void vandrexu_host_free(vandrexu_host *host);

/* Ends a host, and leaves its handle zeros: the disk keeps its number, its submission queue and the CIDs of calls that
 * were given up. VANDREXU_IN_CALL where a call wasn't; VANDREXU_OTHER_HOST where no host of its number, made of this
 * disk, lives. */
uint32_t vandrexu_host_end(vandrexu_disk *disk, vandrexu_host *host);

/* 0, and the handle owns the host of this number that ended, on its submission queue, as it was. Else the first that holds
 * of VANDREXU_IN_USE, VANDREXU_NO_HANDLE and VANDREXU_OTHER_HOST, where none ended; or 11. It takes none of the hosts that
 * are left, so a host may end and be made again for ever. */
uint32_t vandrexu_host_again(vandrexu_disk *disk, uint32_t number, vandrexu_host *host);

/* Each begins a call: 0, its entries are published, and *call is its number, by which it is polled. 46 where a growth is
 * refused for one call more, else the first that holds of 41, 42 and 47, else 43, 45 or 46, and then nothing was published.
 * A host has up to 64 commands in flight, of which a pair is two. Data is 512 bytes a block, and is copied. Slots are read
 * and compared as any block. */
uint32_t vandrexu_host_read(vandrexu_host *host, uint64_t lba, uint32_t blocks, uint32_t *call);
uint32_t vandrexu_host_write_zeroes(vandrexu_host *host, uint64_t lba, uint32_t blocks, uint32_t *call);
uint32_t vandrexu_host_write(vandrexu_host *host, uint64_t lba, const uint8_t *data, size_t length, uint32_t *call);
uint32_t vandrexu_host_compare(vandrexu_host *host, uint64_t lba, const uint8_t *data, size_t length, uint32_t *call);

/* Writes the desired data where the blocks hold the expected data, as one fused pair. */
uint32_t vandrexu_host_compare_and_write(vandrexu_host *host, uint64_t lba, const uint8_t *expected,
                                         size_t expected_length, const uint8_t *desired, size_t desired_length,
                                         uint32_t *call);

/* What became of a call. */
enum vandrexu_reply_kind {
    VANDREXU_REPLY_PENDING = 1, /* not all its completions were reaped */
    VANDREXU_REPLY_READ = 2,    /* what was read is had by vandrexu_host_data */
    VANDREXU_REPLY_WRITTEN = 3, /* of a Write, and of a Write Zeroes */
    VANDREXU_REPLY_EQUAL = 4,   /* a Compare's data was on the blocks */
    VANDREXU_REPLY_DIFFERS = 5, /* that of a Compare, or of a Compare and Write, was not */
    VANDREXU_REPLY_SWAPPED = 6, /* a Compare and Write's was, and its blocks were written */
    VANDREXU_REPLY_FAILED = 7   /* with the status beside it */
};

typedef struct vandrexu_reply {
    uint32_t kind;
    uint8_t sct; /* of VANDREXU_REPLY_FAILED: the Status Code Type */
    uint8_t sc;  /* and the Status Code */
    uint8_t zeros[2];
} vandrexu_reply;

/* Reaps at most one completion of the host's completion queue, of whichever call: 0, and what became of this call, whose
 * number is free then but where it is pending; 44, where it failed, and it is over; 45 and 46, and it goes on;
 * VANDREXU_NO_CALL, where no call has the number. Where it isn't over, and where there is none, the reply says pending.
 * Calls are polled in any order. Where calls were given up, one of them has its turn first, and reaps one more. */
uint32_t vandrexu_host_poll(vandrexu_host *host, uint32_t call, vandrexu_reply *reply);

/* Gives up a call, whose number is free then: what it asked for is done or not, and nobody is told. Its CIDs stay in use
 * until its completions came, and polls, of whichever number, have reaped them. VANDREXU_NO_CALL; 11, and the call goes
 * on. */
uint32_t vandrexu_host_give_up(vandrexu_host *host, uint32_t call);

/* How many calls the host waits for: those that have a number, and those that were given up and keep their CIDs. */
uint32_t vandrexu_host_waiting(vandrexu_host *host, size_t *calls, size_t *given_up);

/* Copies what the host read last: *needed bytes; VANDREXU_TOO_SMALL. */
uint32_t vandrexu_host_data(vandrexu_host *host, uint8_t *out, size_t room, size_t *needed);

VANDREXU_LAYOUT(sizeof(vandrexu_disk) == 16 && offsetof(vandrexu_disk, live) == 8);
VANDREXU_LAYOUT(sizeof(vandrexu_host) == 16 && offsetof(vandrexu_host, live) == 8);
VANDREXU_LAYOUT(sizeof(vandrexu_reply) == 8 && offsetof(vandrexu_reply, sct) == 4);

#ifdef __cplusplus
}
#endif
#endif
