/* Vandrexu for C: hosts of a controller that is somewhere else, around the fused Compare and Write.
 *
 * Link libvandrexu_c.a. What vandrexu.h, vandrexu_hosts.h and vandrexu_slots.h say of every call, of handles, of numbers and
 * of slots is so here too, and replies are theirs. A remote host has a driver over two queues in memory, which its caller
 * carries over any transport: what its calls publish is told entry by entry, and what came back is brought. Nothing here
 * waits, calls back or opens a socket.
 *
 * A call's reply is proved to be what its own completions tell, for that every completion that comes is brought once, and
 * none before its entry was told. One that no call is owed, one that comes twice, and one with a reserved bit are dropped,
 * and counted. Whether the controller told the truth isn't known here: a log of what was carried is judged for that
 * (docs/OBSERVING.md). */
#ifndef VANDREXU_REMOTE_H
#define VANDREXU_REMOTE_H

#include "vandrexu_slots.h"

#ifdef __cplusplus
extern "C" {
#endif

typedef struct vandrexu_remote {
    void *at;
    uint32_t live;
} vandrexu_remote;

typedef struct vandrexu_remote_slot_host {
    void *at;
    uint32_t live;
} vandrexu_remote_slot_host;

#define VANDREXU_REMOTE_NONE {0, 0}
#define VANDREXU_REMOTE_SLOT_HOST_NONE {0, 0}

/* An entry that is to be carried. */
typedef struct vandrexu_outgoing {
    uint8_t bytes[64]; /* the submission queue entry */
    size_t count;      /* how many bytes of data belong to it */
    size_t more;       /* 1 for the first of a fused pair, whose second is the next entry, else 0 */
    uint16_t queue;    /* the submission queue */
    uint8_t zeros[6];
} vandrexu_outgoing;

/* ---- A remote host: up to 64 commands in flight, of which a pair is two ---- */

/* 0, and the handle owns a host with this number, not 0, on this submission queue of the controller, not 0. A Compare and
 * Write has at most `acwu` and one blocks, and no call writes to the `blocks` blocks from block `first` on, which may be
 * none. Else the first that holds of VANDREXU_IN_USE, VANDREXU_BAD_NUMBER, VANDREXU_NO_QUEUE and VANDREXU_BAD_AREA; or 11. */
uint32_t vandrexu_remote_new(uint32_t number, uint16_t queue, uint16_t acwu, uint64_t first, uint32_t blocks,
                             vandrexu_remote *remote);

/* Frees it, and leaves the handle zeros. Nothing is done to one that owns nothing. */
void vandrexu_remote_free(vandrexu_remote *remote);

/* Each begins a call: 0, and *call is its number, by which it is polled. At 41, 42, 43, 46 and 47, as of a host's calls,
 * nothing is to be carried of it. Data is 512 bytes a block, and is copied. */
uint32_t vandrexu_remote_read(vandrexu_remote *remote, uint64_t lba, uint32_t blocks, uint32_t *call);
uint32_t vandrexu_remote_write_zeroes(vandrexu_remote *remote, uint64_t lba, uint32_t blocks, uint32_t *call);
uint32_t vandrexu_remote_write(vandrexu_remote *remote, uint64_t lba, const uint8_t *data, size_t length,
                               uint32_t *call);
uint32_t vandrexu_remote_compare(vandrexu_remote *remote, uint64_t lba, const uint8_t *data, size_t length,
                                 uint32_t *call);
uint32_t vandrexu_remote_compare_and_write(vandrexu_remote *remote, uint64_t lba, const uint8_t *expected,
                                           size_t expected_length, const uint8_t *desired, size_t desired_length,
                                           uint32_t *call);

/* Takes at most one of the completions that were brought, of whichever call, and else is as vandrexu_host_poll; but for 45
 * and 46, which it never answers. */
uint32_t vandrexu_remote_poll(vandrexu_remote *remote, uint32_t call, vandrexu_reply *reply);

/* As those of a host of a disk. */
uint32_t vandrexu_remote_give_up(vandrexu_remote *remote, uint32_t call);
uint32_t vandrexu_remote_waiting(vandrexu_remote *remote, size_t *calls, size_t *given_up);

/* Copies what was read last: *needed bytes; VANDREXU_TOO_SMALL. */
uint32_t vandrexu_remote_data(vandrexu_remote *remote, uint8_t *out, size_t room, size_t *needed);

/* The entry that was published first of those that weren't told yet: 0, and its data is at the begin of `out`. At
 * VANDREXU_TOO_SMALL the entry is told without its data, and is the next one still. VANDREXU_NOTHING_READY where there is
 * none. */
uint32_t vandrexu_remote_outgoing(vandrexu_remote *remote, vandrexu_outgoing *entry, uint8_t *out, size_t room);

/* Brings a completion queue entry of 16 bytes, with what a successful Read read, else with no data; 11, and it may be brought
 * again. Its SQID is the host's queue, and it counts for the command that has its CID then. Command Retry Delay, More and
 * Do Not Retry count as reserved: clear these four bits where a controller sets them. */
uint32_t vandrexu_remote_incoming(vandrexu_remote *remote, const uint8_t *cqe, const uint8_t *data, size_t length);

/* How many of the completions that were brought, and taken by a poll, no call was owed. */
uint32_t vandrexu_remote_dropped(vandrexu_remote *remote, uint64_t *count);

/* ---- A remote slot host: one call at a time ---- */

/* 0, and the handle owns a host with this number, not 0, on this submission queue, not 0, which claims so many slots from
 * block `first` on. The serials of its names are above `serial`: a number that a host had before, in a process that ended,
 * is given with a serial that none of its names had, as the clock's. Else the first that holds of VANDREXU_IN_USE,
 * VANDREXU_BAD_AREA, VANDREXU_BAD_NUMBER and VANDREXU_NO_QUEUE; or 11. */
uint32_t vandrexu_remote_slot_host_new(uint32_t number, uint16_t queue, uint64_t first, uint32_t count, uint64_t serial,
                                       vandrexu_remote_slot_host *host);

/* Frees it, and leaves the handle zeros. What the host has stays held. Nothing is done to one that owns nothing. */
void vandrexu_remote_slot_host_free(vandrexu_remote_slot_host *host);

/* As the calls of a slot host. */
uint32_t vandrexu_remote_slot_claim(vandrexu_remote_slot_host *host, uint32_t slot);
uint32_t vandrexu_remote_slot_claim_any(vandrexu_remote_slot_host *host);
uint32_t vandrexu_remote_slot_release(vandrexu_remote_slot_host *host, uint32_t slot);
uint32_t vandrexu_remote_slot_take_over(vandrexu_remote_slot_host *host, uint32_t slot, uint32_t dead_host,
                                        uint64_t dead_serial);
uint32_t vandrexu_remote_slot_ask_holder(vandrexu_remote_slot_host *host, uint32_t slot);
uint32_t vandrexu_remote_slot_poll(vandrexu_remote_slot_host *host, vandrexu_slot_reply *reply);

/* As those of a remote host. */
uint32_t vandrexu_remote_slot_outgoing(vandrexu_remote_slot_host *host, vandrexu_outgoing *entry, uint8_t *out,
                                       size_t room);
uint32_t vandrexu_remote_slot_incoming(vandrexu_remote_slot_host *host, const uint8_t *cqe, const uint8_t *data,
                                       size_t length);
uint32_t vandrexu_remote_slot_dropped(vandrexu_remote_slot_host *host, uint64_t *count);

VANDREXU_LAYOUT(sizeof(vandrexu_remote) == 16 && offsetof(vandrexu_remote, live) == 8);
VANDREXU_LAYOUT(sizeof(vandrexu_remote_slot_host) == 16 && offsetof(vandrexu_remote_slot_host, live) == 8);
VANDREXU_LAYOUT(sizeof(vandrexu_outgoing) == 88 && offsetof(vandrexu_outgoing, queue) == 80);

#ifdef __cplusplus
}
#endif
#endif
