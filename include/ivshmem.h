/*
 * ivshmem v2 hub: joins 2 to IVSHMEM_MAX_PEERS guests through shared memory, a doorbell and a state word. For x86-64.
 *
 * The hub is an array of IVSHMEM_HUB_WORDS(peers, vectors) words, no more and no fewer, that the host owns and lends to each
 * call; the library keeps nothing of its own, allocates nothing and calls nothing but memcpy, memmove and memset. Its contents
 * are private to the library: any memory may be handed in, and what is not a sound hub is refused with IVSHMEM_UNSOUND_HUB. So
 * are words whose number is not the one that they were set up with.
 *
 * What every call has in common:
 * - Any numbers are answered. The answer's `number` is 0, or tells why the call was refused.
 * - A refused call changes no word of the hub, no byte of the region or of a buffer, no record of a table, and delivers
 *   nothing. A refused set-up alone changes the words that it is lent: it leaves all of them zero, which is no sound hub.
 * - A refused read has value 0, and a guest whose access is refused must see all ones: docs/WIRING.md says what becomes of each
 *   access of a guest, and examples/c/host.c does it.
 * - Of the region, a set-up writes every byte; a reset, a disconnect, and a register write that stores State write the bytes
 *   4 * id to 4 * id + 3; a load reads the bytes of its range, and a store writes them. No call touches any other byte of it.
 * - Pointers are not null, also where the length beside them is 0, are aligned for their type, and point to as many elements
 *   as the length says; what is lent to one call does not overlap, but for parts that are only read.
 * - Calls that take a hub as const may run at the same time; a call that may change it runs while no other call on it does.
 *   Calls on different hubs may run at once.
 */
#ifndef IVSHMEM_H
#define IVSHMEM_H

#include <stddef.h>
#include <stdint.h>

#ifdef __cplusplus
extern "C" {
#endif

/* The compiler warns of an answer that nobody looks at. */
#if defined(__GNUC__)
#define IVSHMEM_MUST_USE __attribute__((warn_unused_result))
#if defined(__has_attribute)
#if __has_attribute(retain)
#define IVSHMEM_KEPT __attribute__((used, retain)) /* also by a linker that leaves out what nothing refers to */
#endif
#endif
#ifndef IVSHMEM_KEPT
#define IVSHMEM_KEPT __attribute__((used))
#endif
#else
#define IVSHMEM_MUST_USE
#define IVSHMEM_KEPT
#endif

/* The version of the library, and of its interface: the types and the calls of this header. docs/CHANGES.md says what changed
   for callers. */
#define IVSHMEM_VERSION "0.2.0"
#define IVSHMEM_VERSION_MAJOR 0
#define IVSHMEM_VERSION_MINOR 2
#define IVSHMEM_VERSION_PATCH 0
#define IVSHMEM_INTERFACE 2

/* Answers IVSHMEM_INTERFACE. The number stands in the name, and whatever is compiled with this header asks for the name: a
   program does not link with an archive of another interface. */
uint32_t ivshmem_interface_2(void);
static uint32_t (*const ivshmem_interface_wanted)(void) IVSHMEM_KEPT = ivshmem_interface_2;

/* The most peers and vectors that a hub can be set up with. */
#define IVSHMEM_MAX_PEERS 64
#define IVSHMEM_MAX_VECTORS 16

/* The lowest base of a region, 1 MiB: below it is low memory, where firmware stands. */
#define IVSHMEM_MIN_BASE 0x100000

/* How many words a hub of so many peers and vectors has, as a size_t; with constants it is a constant, for an array's length.
   424 bytes for 4 peers by 4 vectors, 18 KB for the largest. */
#define IVSHMEM_HUB_WORDS(peers, vectors) \
    ((size_t)10 + (size_t)8 * (size_t)(peers) + (size_t)4 * (size_t)(peers) * (size_t)(vectors))
#define IVSHMEM_MAX_HUB_WORDS IVSHMEM_HUB_WORDS(IVSHMEM_MAX_PEERS, IVSHMEM_MAX_VECTORS)

/* The longest region, 1 GiB. */
#define IVSHMEM_MAX_REGION_BYTES 0x40000000

/* Bytes of a peer's three spaces. */
#define IVSHMEM_CONFIGURATION_BYTES 256
#define IVSHMEM_REGISTER_BYTES 4096
#define IVSHMEM_MSIX_BYTES 4096

/* Places in configuration space; docs/RULES.md says what stands there. */
enum ivshmem_configuration {
    IVSHMEM_CONFIGURATION_VENDOR_ID = 0x00,
    IVSHMEM_CONFIGURATION_DEVICE_ID = 0x02,
    IVSHMEM_CONFIGURATION_COMMAND = 0x04,
    IVSHMEM_CONFIGURATION_STATUS = 0x06,
    IVSHMEM_CONFIGURATION_REVISION = 0x08,
    IVSHMEM_CONFIGURATION_PROTOCOL = 0x09,
    IVSHMEM_CONFIGURATION_CLASS = 0x0B,
    IVSHMEM_CONFIGURATION_BAR0 = 0x10,
    IVSHMEM_CONFIGURATION_BAR1 = 0x14,
    IVSHMEM_CONFIGURATION_SUBSYSTEM_VENDOR = 0x2C,
    IVSHMEM_CONFIGURATION_SUBSYSTEM_ID = 0x2E,
    IVSHMEM_CONFIGURATION_CAPABILITIES = 0x34,
    IVSHMEM_CONFIGURATION_VENDOR_CAPABILITY = 0x40,
    IVSHMEM_CONFIGURATION_PRIVILEGED_CONTROL = 0x43,
    IVSHMEM_CONFIGURATION_STATE_TABLE_SIZE = 0x44,
    IVSHMEM_CONFIGURATION_READ_WRITE_SIZE = 0x48,
    IVSHMEM_CONFIGURATION_OUTPUT_SIZE = 0x50,
    IVSHMEM_CONFIGURATION_BASE_ADDRESS = 0x58,
    IVSHMEM_CONFIGURATION_MSIX_CAPABILITY = 0x60,
    IVSHMEM_CONFIGURATION_MESSAGE_CONTROL = 0x62,
    IVSHMEM_CONFIGURATION_MSIX_TABLE = 0x64,
    IVSHMEM_CONFIGURATION_MSIX_PENDING = 0x68
};

/* Bits of Command, of Privileged Control and of Message Control. */
enum ivshmem_bits {
    IVSHMEM_COMMAND_MEMORY = 0x0002,         /* BAR 0 and BAR 1 answer */
    IVSHMEM_COMMAND_BUS_MASTER = 0x0004,     /* interrupts may be sent */
    IVSHMEM_PRIVILEGED_ONE_SHOT = 0x01,      /* an interrupt clears Interrupt Control */
    IVSHMEM_MESSAGE_FUNCTION_MASK = 0x4000,  /* every vector is masked */
    IVSHMEM_MESSAGE_ENABLE = 0x8000          /* MSI-X is on */
};

/* Places in the register region, BAR 0. */
enum ivshmem_register {
    IVSHMEM_REGISTER_ID = 0x00,
    IVSHMEM_REGISTER_MAXIMUM_PEERS = 0x04,
    IVSHMEM_REGISTER_INTERRUPT_CONTROL = 0x08, /* bit 0 lets interrupts through */
    IVSHMEM_REGISTER_DOORBELL = 0x0C,          /* a store rings: the vector in bits 0 to 15, the peer in bits 16 to 31 */
    IVSHMEM_REGISTER_STATE = 0x10              /* a store that changes it rings vector 0 of every other peer */
};

/* Places in the MSI-X region, BAR 1: of the words of entry 0, how far apart the entries stand, and the pending bits, all 0. */
enum ivshmem_msix {
    IVSHMEM_MSIX_ADDRESS_LOW = 0x0,
    IVSHMEM_MSIX_ADDRESS_HIGH = 0x4,
    IVSHMEM_MSIX_DATA = 0x8,
    IVSHMEM_MSIX_CONTROL = 0xC, /* bit 0 masks the entry */
    IVSHMEM_MSIX_ENTRY_BYTES = 0x10,
    IVSHMEM_MSIX_PENDING = 0x800
};

/* Why a call was refused. Where several apply, the first in this order is given: 1, 10, 2, 11, 3, 4 or 5, 6, 7, 8, 9. Only a
   set-up gives 1, so that in every other call 10 comes first. */
enum ivshmem_number {
    IVSHMEM_ACCEPTED = 0,
    IVSHMEM_BAD_SETTING = 1,    /* a set-up number is outside its range */
    IVSHMEM_BAD_REGION = 2,     /* the region's length is not the total of the set-up */
    IVSHMEM_NO_SUCH_PEER = 3,   /* the id is not below the number of peers */
    IVSHMEM_NOT_CONNECTED = 4,  /* the peer is not connected */
    IVSHMEM_CONNECTED = 5,      /* connect of a connected peer */
    IVSHMEM_BAD_WIDTH = 6,      /* width not allowed, or a shared length of 0 */
    IVSHMEM_MISALIGNED = 7,     /* the offset is not a multiple of the width */
    IVSHMEM_OUT_OF_RANGE = 8,   /* past the end of the space, or not whole in one section */
    IVSHMEM_READ_ONLY = 9,      /* store to the State Table or to another peer's output section */
    IVSHMEM_UNSOUND_HUB = 10,   /* the hub handed in is not sound; in a set-up: not as many words as it asks for */
    IVSHMEM_SHORT_TABLE = 11    /* the delivery table has fewer records than there are peers */
};

/* The numbers that a hub is set up with; sizes are in bytes. Fields that are not named in an initialiser are 0, which is a
   number like any other. */
typedef struct ivshmem_settings {
    uint64_t peers;            /* N: 2 to IVSHMEM_MAX_PEERS */
    uint64_t vectors;          /* V: 1 to IVSHMEM_MAX_VECTORS, the same for all peers */
    uint64_t state_table;      /* S, the State Table's size: a nonzero multiple of 4096, at least 4 * peers */
    uint64_t read_write;       /* R, the read/write section's size: a multiple of 4096, or 0 */
    uint64_t output;           /* O, the size of each peer's output section: a multiple of 4096, or 0 */
    uint64_t base;             /* the region's guest physical address: a multiple of 4096, at least IVSHMEM_MIN_BASE, with
                                  base + total at most 2^64 */
    uint16_t protocol;         /* protocol type */
    uint16_t subsystem_vendor; /* PCI subsystem vendor id */
    uint16_t subsystem_id;     /* PCI subsystem id */
} ivshmem_settings;

/* An answer: 0 or the refusal's number, and the value read (0 where nothing is read, and for a refusal). */
typedef struct ivshmem_reply {
    uint32_t number;
    uint32_t value;
} ivshmem_reply;

/* An interrupt that the host injects into a guest: MSI-X vector `vector` of peer `target`, its message address and data. The
   record has no padding. */
typedef struct ivshmem_delivery {
    uint64_t address;
    uint32_t data;
    uint16_t target;
    uint16_t vector;
} ivshmem_delivery;

/* An answer, and the number of records written to the table. The count is for the host alone: no guest may learn it. */
typedef struct ivshmem_counted {
    ivshmem_reply reply;
    size_t count;
} ivshmem_counted;

/* The kind of section that a range lies in. */
enum ivshmem_kind {
    IVSHMEM_NO_SECTION = 0,
    IVSHMEM_STATE_TABLE = 1,
    IVSHMEM_READ_WRITE = 2,
    IVSHMEM_OUTPUT = 3
};

/* The answer to the section question: the section's kind, its owner (an output section's; otherwise 0), and whether the asking
   peer may store there (1 or 0). A refused question names no section and says no. */
typedef struct ivshmem_section {
    ivshmem_reply reply;
    uint32_t kind;
    uint32_t owner;
    uint32_t store;
} ivshmem_section;

/*
 * Calls by the host.
 */

/* Makes the words a hub with nobody connected, and the whole region zero. The region's length is ivshmem_total(&settings), at
   most IVSHMEM_MAX_REGION_BYTES. Refused with 1 where a number of the settings is outside its range, whatever is lent; then with
   10 where hub_words is not IVSHMEM_HUB_WORDS(peers, vectors); then with 2. Each of these leaves all the words zero, however
   many they are, and the region as it was. */
IVSHMEM_MUST_USE
ivshmem_reply ivshmem_set_up_hub(uint32_t *hub, size_t hub_words, uint8_t *region, size_t region_bytes,
                                 ivshmem_settings settings);

/* The peer joins with all registers at their reset values; nobody is rung. Refused with 10, 3 or 5. */
IVSHMEM_MUST_USE
ivshmem_reply ivshmem_connect(uint32_t *hub, size_t hub_words, uint64_t id);

/* The peer leaves: its registers take their reset values, and its State Table entry is 0. If its State was not 0, vector 0 is
   then rung at every other peer. The deliveries are written to the table from the front, in ring order. Refused with 10, 2,
   11, 3 or 4. */
IVSHMEM_MUST_USE
ivshmem_counted ivshmem_disconnect(uint32_t *hub, size_t hub_words, uint8_t *region, size_t region_bytes,
                                   ivshmem_delivery *table, size_t records, uint64_t id);

/* The same for a peer that stays connected. */
IVSHMEM_MUST_USE
ivshmem_counted ivshmem_reset(uint32_t *hub, size_t hub_words, uint8_t *region, size_t region_bytes,
                              ivshmem_delivery *table, size_t records, uint64_t id);

/*
 * Questions of the host. They change nothing, and their answers are for the host alone.
 */

/* 1 where the words are a sound hub, that is where no call but set-up, which overwrites them, would refuse them with 10; else
   0. */
IVSHMEM_MUST_USE
uint32_t ivshmem_is_sound(const uint32_t *hub, size_t hub_words);

/* Value 1 where the peer is connected, else 0. Refused with 10 or 3. */
IVSHMEM_MUST_USE
ivshmem_reply ivshmem_is_connected(const uint32_t *hub, size_t hub_words, uint64_t id);

/*
 * Calls by a guest, each with the id of the peer that makes it.
 */

/* Configuration space; widths 1, 2 and 4. An accepted access gives and leaves what its accesses of one byte do, lowest first and
   with no other call between them (docs/CALLS.md, 'Splitting an access to configuration space'). Refused with 10, 3, 4, 6, 7
   or 8. */
IVSHMEM_MUST_USE
ivshmem_reply ivshmem_configuration_read(const uint32_t *hub, size_t hub_words, uint64_t id, uint64_t offset, uint64_t width);
IVSHMEM_MUST_USE
ivshmem_reply ivshmem_configuration_write(uint32_t *hub, size_t hub_words, uint64_t id, uint64_t offset, uint64_t width,
                                          uint32_t value);

/* The register region (BAR 0); width 4. With Command bit 1 off it reads FFFFFFFFh and stores do nothing. A store to Doorbell
   may deliver one interrupt, a store to State one to each other peer; a store of the value that State holds rings nobody.
   Refused with 10, 3, 4, 6, 7 or 8, a write also with 2 or 11. */
IVSHMEM_MUST_USE
ivshmem_reply ivshmem_register_read(const uint32_t *hub, size_t hub_words, uint64_t id, uint64_t offset, uint64_t width);
IVSHMEM_MUST_USE
ivshmem_counted ivshmem_register_write(uint32_t *hub, size_t hub_words, uint8_t *region, size_t region_bytes,
                                       ivshmem_delivery *table, size_t records, uint64_t id, uint64_t offset,
                                       uint64_t width, uint32_t value);

/* The MSI-X region (BAR 1); width 4. With Command bit 1 off it reads FFFFFFFFh and stores do nothing. Refused with 10, 3, 4,
   6, 7 or 8. */
IVSHMEM_MUST_USE
ivshmem_reply ivshmem_msix_read(const uint32_t *hub, size_t hub_words, uint64_t id, uint64_t offset, uint64_t width);
IVSHMEM_MUST_USE
ivshmem_reply ivshmem_msix_write(uint32_t *hub, size_t hub_words, uint64_t id, uint64_t offset, uint64_t width, uint32_t value);

/* Which section a shared range lies in, and whether the peer may store to it. Refused with 10, 3, 4, 6 or 8. */
IVSHMEM_MUST_USE
ivshmem_section ivshmem_section_question(const uint32_t *hub, size_t hub_words, uint64_t id, uint64_t offset, uint64_t length);

/* Fills the buffer, whose length is the load's, with shared bytes. Refused with 10, 2, 3, 4, 6 or 8. */
IVSHMEM_MUST_USE
ivshmem_reply ivshmem_load(const uint32_t *hub, size_t hub_words, const uint8_t *region, size_t region_bytes, uint64_t id,
                           uint64_t offset, uint8_t *buffer, size_t length);

/* Stores bytes to the read/write section or to the peer's own output section. Refused with 10, 2, 3, 4, 6, 8 or 9. */
IVSHMEM_MUST_USE
ivshmem_reply ivshmem_store(const uint32_t *hub, size_t hub_words, uint8_t *region, size_t region_bytes, uint64_t id,
                            uint64_t offset, const uint8_t *bytes, size_t length);

/*
 * Helpers, without a call into the library.
 */

/* The length of the region that these settings ask for: state_table + read_write + peers * output. 0 where that does not fit,
   which set-up refuses. */
static inline size_t ivshmem_total(const ivshmem_settings *settings)
{
    uint64_t sections = settings->state_table + settings->read_write;

    if (sections < settings->state_table)
        return 0;
    if (settings->peers != 0 && settings->output > (UINT64_MAX - sections) / settings->peers)
        return 0;
    return (size_t)(sections + settings->peers * settings->output);
}

/* The words of the hub that these settings ask for. 0 where there are more peers or vectors than a hub can have, which set-up
   refuses. */
static inline size_t ivshmem_hub_words(const ivshmem_settings *settings)
{
    if (settings->peers > IVSHMEM_MAX_PEERS || settings->vectors > IVSHMEM_MAX_VECTORS)
        return 0;
    return IVSHMEM_HUB_WORDS(settings->peers, settings->vectors);
}

/* An answer's number in words. A number that this header does not know is called unknown, and nothing else. */
static inline const char *ivshmem_number_text(uint32_t number)
{
    switch (number) {
    case IVSHMEM_ACCEPTED: return "accepted";
    case IVSHMEM_BAD_SETTING: return "a set-up number is outside its range";
    case IVSHMEM_BAD_REGION: return "the region's length is not the total of the set-up";
    case IVSHMEM_NO_SUCH_PEER: return "there is no peer with this id";
    case IVSHMEM_NOT_CONNECTED: return "the peer is not connected";
    case IVSHMEM_CONNECTED: return "the peer is already connected";
    case IVSHMEM_BAD_WIDTH: return "this width is not allowed here";
    case IVSHMEM_MISALIGNED: return "the offset is not a multiple of the width";
    case IVSHMEM_OUT_OF_RANGE: return "the range is not whole inside one space or section";
    case IVSHMEM_READ_ONLY: return "the peer may not store to this section";
    case IVSHMEM_UNSOUND_HUB: return "the words are not a sound hub, or not as many as the set-up asks for";
    case IVSHMEM_SHORT_TABLE: return "the delivery table has fewer records than there are peers";
    default: return "an unknown number";
    }
}

/* The layout that the library was built with. */
#if defined(__cplusplus) && __cplusplus >= 201103L
#define IVSHMEM_HOLDS(fact) static_assert(fact, #fact)
#elif defined(__STDC_VERSION__) && __STDC_VERSION__ >= 201112L
#define IVSHMEM_HOLDS(fact) _Static_assert(fact, #fact)
#endif
#ifdef IVSHMEM_HOLDS
IVSHMEM_HOLDS(sizeof(size_t) == 8);
IVSHMEM_HOLDS(IVSHMEM_HUB_WORDS(4, 4) == 106);
IVSHMEM_HOLDS(IVSHMEM_MAX_HUB_WORDS == 4618);
IVSHMEM_HOLDS(sizeof(ivshmem_settings) == 56);
IVSHMEM_HOLDS(offsetof(ivshmem_settings, vectors) == 8);
IVSHMEM_HOLDS(offsetof(ivshmem_settings, state_table) == 16);
IVSHMEM_HOLDS(offsetof(ivshmem_settings, read_write) == 24);
IVSHMEM_HOLDS(offsetof(ivshmem_settings, output) == 32);
IVSHMEM_HOLDS(offsetof(ivshmem_settings, base) == 40);
IVSHMEM_HOLDS(offsetof(ivshmem_settings, protocol) == 48);
IVSHMEM_HOLDS(offsetof(ivshmem_settings, subsystem_vendor) == 50);
IVSHMEM_HOLDS(offsetof(ivshmem_settings, subsystem_id) == 52);
IVSHMEM_HOLDS(sizeof(ivshmem_reply) == 8);
IVSHMEM_HOLDS(offsetof(ivshmem_reply, value) == 4);
IVSHMEM_HOLDS(sizeof(ivshmem_delivery) == 16);
IVSHMEM_HOLDS(offsetof(ivshmem_delivery, data) == 8);
IVSHMEM_HOLDS(offsetof(ivshmem_delivery, target) == 12);
IVSHMEM_HOLDS(offsetof(ivshmem_delivery, vector) == 14);
IVSHMEM_HOLDS(sizeof(ivshmem_counted) == 16);
IVSHMEM_HOLDS(offsetof(ivshmem_counted, count) == 8);
IVSHMEM_HOLDS(sizeof(ivshmem_section) == 20);
IVSHMEM_HOLDS(offsetof(ivshmem_section, kind) == 8);
IVSHMEM_HOLDS(offsetof(ivshmem_section, owner) == 12);
IVSHMEM_HOLDS(offsetof(ivshmem_section, store) == 16);
#undef IVSHMEM_HOLDS
#endif

#ifdef __cplusplus
}
#endif

#endif
