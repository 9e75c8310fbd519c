/* What a hypervisor does with a guest's access to its device: trap handlers over the library, to be copied or linked. Which
   calls each access becomes, and why, is in docs/WIRING.md. host.c is C11, without allocation and without threads of its own; this file
   may also be included from C++.

   Locks: calls that take the hub as const may run at the same time; a call that may change it runs while no other call on it
   does. So trap_read, host_traps, host_page_rights and a trap_write to HOST_SHARED run under a lock held for reading, every
   other call under one held for writing, each for the whole of it: an access that is cut has no other call between its
   pieces. */
#ifndef HOST_H
#define HOST_H

#include <stdbool.h>

#include "ivshmem.h"

#ifdef __cplusplus
extern "C" {
#endif

/* What a host keeps of one hub. All that is pointed to is the host's own. */
struct host {
    uint32_t *hub;
    size_t hub_words;
    uint8_t *region;
    size_t region_bytes;
    ivshmem_delivery *table; /* a record for each peer; for this hub's calls alone */
    size_t records;
    /* Injects one interrupt. It is called for each record, in order, and makes no call on this hub. */
    void (*inject)(void *context, const ivshmem_delivery *delivery);
    void *context;
    /* Refusals that no guest can cause (10, 2, 11, 3): the host lent the wrong thing, or its memory was damaged. Counted in one
       step, since reads may run at the same time. */
    uint64_t faults;
};

enum host_space {
    HOST_CONFIGURATION,
    HOST_REGISTERS, /* BAR 0 */
    HOST_MSIX,      /* BAR 1 */
    HOST_SHARED     /* the offset is the guest physical address less the region's base */
};

/* A guest's load of 1 to 8 bytes: what it gets in its low bytes, the lowest address lowest, and 0 above. For another width
   nothing is done, and the answer is all ones. */
uint64_t trap_read(struct host *host, uint64_t peer, enum host_space space, uint64_t offset, unsigned width);

/* A guest's store of 1 to 8 bytes. The interrupts that it causes are injected when this returns. For another width nothing is
   done. */
void trap_write(struct host *host, uint64_t peer, enum host_space space, uint64_t offset, unsigned width, uint64_t value);

/* A reset and a disconnect of a peer, with the interrupts that they cause; the answer is the library's number. */
uint32_t host_reset(struct host *host, uint64_t peer);
uint32_t host_disconnect(struct host *host, uint64_t peer);

/* Where a BAR's 4096 bytes are to be trapped, if they are. */
struct host_trap {
    bool on;
    uint64_t address;
};
struct host_traps {
    struct host_trap bar[2];
};

/* Where BAR 0 and BAR 1 of the peer are to be trapped now: asked after a connect, reset or disconnect, and after a store for
   which host_moves_traps says yes. Of a peer that is not connected nothing is. */
struct host_traps host_traps(struct host *host, uint64_t peer);

/* Whether a store to configuration space touches Command's low byte or a BAR: 04h, or 10h to 17h. */
bool host_moves_traps(uint64_t offset, unsigned width);

/* How the page of the region that the offset lies in is to be mapped for the peer. */
enum host_rights { HOST_UNMAPPED, HOST_READ_ONLY, HOST_READ_WRITE };
enum host_rights host_page_rights(struct host *host, uint64_t peer, uint64_t offset);

#ifdef __cplusplus
}
#endif

#endif
