/* Tries the trap handlers of host.c: every width at every alignment, in every space. What a guest must get is worked out here
   byte by byte or word by word, with accesses that the library takes as they are; a second hub gets the stores that must
   happen, and no others. Prints what is not so, and then ends with 1. */
#include <inttypes.h>
#include <stdio.h>
#include <string.h>

#include "host.h"

enum { PEERS = 4, VECTORS = 2, PAGE = 4096, STATE_TABLE = PAGE, READ_WRITE = PAGE, OUTPUT = 2 * PAGE };
enum { OUTPUTS = STATE_TABLE + READ_WRITE, TOTAL = OUTPUTS + PEERS * OUTPUT };
enum { WORDS = IVSHMEM_HUB_WORDS(PEERS, VECTORS), ROOM = 16 };

/* A hub with all that is lent to it, and what was injected. */
struct side {
    struct host host;
    uint32_t hub[WORDS];
    uint8_t region[TOTAL];
    ivshmem_delivery table[PEERS];
    ivshmem_delivery injected[ROOM];
    size_t count;
};

static struct side tried, expected;
static unsigned wrongs;

static void holds(bool fact, const char *what, uint64_t offset, unsigned width)
{
    if (!fact && wrongs++ < 20)
        printf("not so: %s (offset %" PRIX64 "h, width %u)\n", what, offset, width);
}

static void inject(void *context, const ivshmem_delivery *delivery)
{
    struct side *side = context;

    if (side->count < ROOM)
        side->injected[side->count] = *delivery;
    side->count++;
}

/* Everything on at every peer, and no byte of the shared region 0 or FFh. */
static bool switch_on(struct side *side, uint64_t id)
{
    uint32_t refused = ivshmem_connect(side->hub, WORDS, id).number;

    refused |= ivshmem_configuration_write(side->hub, WORDS, id, IVSHMEM_CONFIGURATION_COMMAND, 2, 6).number;
    for (uint64_t v = 0; v < VECTORS; v++) {
        const uint64_t entry = IVSHMEM_MSIX_ENTRY_BYTES * v;
        const uint32_t data = (uint32_t)(0x40 + 16 * v + id);
        refused |= ivshmem_msix_write(side->hub, WORDS, id, entry + IVSHMEM_MSIX_ADDRESS_LOW, 4, 0xFEE00000).number;
        refused |= ivshmem_msix_write(side->hub, WORDS, id, entry + IVSHMEM_MSIX_DATA, 4, data).number;
        refused |= ivshmem_msix_write(side->hub, WORDS, id, entry + IVSHMEM_MSIX_CONTROL, 4, 0).number;
    }
    refused |= ivshmem_configuration_write(side->hub, WORDS, id, IVSHMEM_CONFIGURATION_MESSAGE_CONTROL, 2, 0x8000).number;
    return refused == IVSHMEM_ACCEPTED;
}

static void set_up(struct side *side)
{
    const ivshmem_settings settings = {.peers = PEERS, .vectors = VECTORS, .state_table = STATE_TABLE, .read_write = READ_WRITE,
                                       .output = OUTPUT, .base = 0x100000000, .protocol = 0x1234, .subsystem_id = 0x4106};
    bool on = ivshmem_set_up_hub(side->hub, WORDS, side->region, TOTAL, settings).number == IVSHMEM_ACCEPTED;

    side->host = (struct host){.hub = side->hub, .hub_words = WORDS, .region = side->region, .region_bytes = TOTAL,
                               .table = side->table, .records = PEERS, .inject = inject, .context = side};
    memset(side->injected, 0, sizeof side->injected);
    side->count = 0;
    for (uint64_t id = 0; id < PEERS; id++) {
        on = on && switch_on(side, id);
        on = on && ivshmem_register_write(side->hub, WORDS, side->region, TOTAL, side->table, PEERS, id,
                                          IVSHMEM_REGISTER_INTERRUPT_CONTROL, 4, 1).reply.number == IVSHMEM_ACCEPTED;
    }
    for (size_t i = 0; i < TOTAL; i++)
        side->region[i] = (uint8_t)(1 + i % 251);
    holds(on, "a hub with every peer on", 0, 0);
}

static void set_up_both(void)
{
    set_up(&tried);
    set_up(&expected);
}

static void both_are_equal(const char *what, uint64_t offset, unsigned width)
{
    holds(memcmp(tried.hub, expected.hub, sizeof tried.hub) == 0, what, offset, width);
    holds(memcmp(tried.region, expected.region, sizeof tried.region) == 0, what, offset, width);
    holds(tried.count == expected.count && memcmp(tried.injected, expected.injected, sizeof tried.injected) == 0, what, offset,
          width);
    holds(tried.host.faults == 0, "a guest causes no fault", offset, width);
}

/* Where the offset's byte i stands; false behind the end of the space, and where the sum is not a number of 64 bits. */
static bool place(uint64_t offset, unsigned i, uint64_t end, uint64_t *at)
{
    *at = offset + i;
    return *at >= offset && *at < end;
}

static uint64_t ones(unsigned width)
{
    uint64_t value = 0;

    for (unsigned i = 0; i < width; i++)
        value |= (uint64_t)0xFF << (8 * i);
    return value;
}

/* A whole access to a BAR, taken as it is or not at all. */
static bool is_word(uint64_t offset, unsigned width)
{
    return width == 4 && offset % 4 == 0 && offset < PAGE;
}

static uint64_t configuration_bytes(uint64_t peer, uint64_t offset, unsigned width)
{
    uint64_t value = 0, at;

    for (unsigned i = 0; i < width; i++) {
        uint64_t byte = 0xFF;
        if (place(offset, i, IVSHMEM_CONFIGURATION_BYTES, &at))
            byte = ivshmem_configuration_read(tried.hub, WORDS, peer, at, 1).value;
        value |= byte << (8 * i);
    }
    return value;
}

static uint64_t register_word(uint64_t peer, uint64_t offset, unsigned width)
{
    return is_word(offset, width) ? ivshmem_register_read(tried.hub, WORDS, peer, offset, 4).value : ones(width);
}

static uint64_t msix_words(uint64_t peer, uint64_t offset, unsigned width)
{
    if (width == 8 && offset % 8 == 0)
        return msix_words(peer, offset, 4) | msix_words(peer, offset + 4, 4) << 32;
    return is_word(offset, width) ? ivshmem_msix_read(tried.hub, WORDS, peer, offset, 4).value : ones(width);
}

static uint64_t shared_bytes(uint64_t peer, uint64_t offset, unsigned width)
{
    uint64_t value = 0, at;

    (void)peer;
    for (unsigned i = 0; i < width; i++)
        value |= (uint64_t)(place(offset, i, TOTAL, &at) ? tried.region[at] : 0xFF) << (8 * i);
    return value;
}

static uint64_t (*const reads[])(uint64_t, uint64_t, unsigned) = {
    [HOST_CONFIGURATION] = configuration_bytes,
    [HOST_REGISTERS] = register_word,
    [HOST_MSIX] = msix_words,
    [HOST_SHARED] = shared_bytes,
};

static void write_configuration_bytes(uint64_t peer, uint64_t offset, unsigned width, uint64_t value)
{
    uint64_t at;

    for (unsigned i = 0; i < width; i++)
        if (place(offset, i, IVSHMEM_CONFIGURATION_BYTES, &at))
            holds(ivshmem_configuration_write(expected.hub, WORDS, peer, at, 1, (uint8_t)(value >> (8 * i))).number == 0,
                  "a byte written", at, 1);
}

static void write_register_word(uint64_t peer, uint64_t offset, unsigned width, uint64_t value)
{
    if (!is_word(offset, width))
        return;
    const ivshmem_counted answer = ivshmem_register_write(expected.hub, WORDS, expected.region, TOTAL, expected.table, PEERS,
                                                          peer, offset, 4, (uint32_t)value);
    holds(answer.reply.number == IVSHMEM_ACCEPTED, "a register written", offset, width);
    for (size_t i = 0; i < answer.count; i++)
        inject(&expected, &expected.table[i]);
}

static void write_msix_words(uint64_t peer, uint64_t offset, unsigned width, uint64_t value)
{
    if (width == 8 && offset % 8 == 0) {
        write_msix_words(peer, offset, 4, value);
        write_msix_words(peer, offset + 4, 4, value >> 32);
    } else if (is_word(offset, width)) {
        holds(ivshmem_msix_write(expected.hub, WORDS, peer, offset, 4, (uint32_t)value).number == 0, "a word written", offset, 4);
    }
}

static bool may_store(uint64_t peer, uint64_t at)
{
    return at >= STATE_TABLE && (at < OUTPUTS || (at - OUTPUTS) / OUTPUT == peer);
}

static void write_shared_bytes(uint64_t peer, uint64_t offset, unsigned width, uint64_t value)
{
    uint64_t at;

    for (unsigned i = 0; i < width; i++)
        if (place(offset, i, TOTAL, &at) && may_store(peer, at))
            expected.region[at] = (uint8_t)(value >> (8 * i));
}

static void (*const writes[])(uint64_t, uint64_t, unsigned, uint64_t) = {
    [HOST_CONFIGURATION] = write_configuration_bytes,
    [HOST_REGISTERS] = write_register_word,
    [HOST_MSIX] = write_msix_words,
    [HOST_SHARED] = write_shared_bytes,
};

static uint64_t next_value(void)
{
    static uint64_t value = 0x9E3779B97F4A7C15;

    value ^= value << 13;
    value ^= value >> 7;
    value ^= value << 17;
    return value;
}

/* A load and a store of each width at each offset from first to last; stores now with any bits, now with those of a ring. */
static void sweep(const char *what, uint64_t peer, enum host_space space, uint64_t first, uint64_t last)
{
    for (uint64_t offset = first; offset - first <= last - first; offset++)
        for (unsigned width = 1; width <= 8; width++) {
            const uint64_t bits = offset % 2 == 0 ? UINT64_MAX : 0x0003000100030001;
            const uint64_t value = next_value() & bits;
            const uint64_t read = trap_read(&tried.host, peer, space, offset, width);

            holds(read == reads[space](peer, offset, width), what, offset, width);
            tried.count = expected.count = 0;
            memset(tried.injected, 0, sizeof tried.injected);
            memset(expected.injected, 0, sizeof expected.injected);
            trap_write(&tried.host, peer, space, offset, width, value);
            writes[space](peer, offset, width, value);
            both_are_equal(what, offset, width);
        }
}

/* Offsets that no space has: a handler that keeps 32 bits of them, or adds to them beyond 2^64, finds a register. */
static void sweep_far(uint64_t peer)
{
    for (enum host_space space = HOST_CONFIGURATION; space <= HOST_SHARED; space++) {
        sweep("near 2^32", peer, space, 0xFFFFFFF8, 0x100000018);
        sweep("at 2^63", peer, space, (uint64_t)1 << 63, ((uint64_t)1 << 63) + 0x18);
        sweep("near 2^64", peer, space, UINT64_MAX - 16, UINT64_MAX);
    }
}

static void sweep_peer(uint64_t peer)
{
    set_up_both();
    sweep("configuration space", peer, HOST_CONFIGURATION, 0, 272);
    set_up_both();
    sweep("the registers", peer, HOST_REGISTERS, 0, 48);
    sweep("the registers' end", peer, HOST_REGISTERS, PAGE - 16, PAGE + 16);
    sweep("the MSI-X entries", peer, HOST_MSIX, 0, 48);
    sweep("the MSI-X pending bits", peer, HOST_MSIX, IVSHMEM_MSIX_PENDING - 16, IVSHMEM_MSIX_PENDING + 16);
    sweep("the MSI-X region's end", peer, HOST_MSIX, PAGE - 16, PAGE + 16);
    sweep("the State Table", peer, HOST_SHARED, 0, 40);
    for (uint64_t page = PAGE; page <= TOTAL + PAGE; page += PAGE)
        sweep("a page's end", peer, HOST_SHARED, page - 9, page + 9);
    sweep_far(peer);
}

/* With memory off in Command, both BARs read all ones and ignore stores; the rest is as before. */
static void memory_off(void)
{
    set_up_both();
    trap_write(&tried.host, 1, HOST_CONFIGURATION, IVSHMEM_CONFIGURATION_COMMAND, 2, IVSHMEM_COMMAND_BUS_MASTER);
    write_configuration_bytes(1, IVSHMEM_CONFIGURATION_COMMAND, 2, IVSHMEM_COMMAND_BUS_MASTER);
    sweep("the registers, memory off", 1, HOST_REGISTERS, 0, 32);
    sweep("the MSI-X entries, memory off", 1, HOST_MSIX, 0, 48);
    sweep("shared, memory off", 1, HOST_SHARED, OUTPUTS - 8, OUTPUTS + 8);
    holds(trap_read(&tried.host, 1, HOST_REGISTERS, IVSHMEM_REGISTER_ID, 4) == 0xFFFFFFFF, "memory off reads all ones", 0, 4);
}

/* Nothing of an empty slot is there, in no space, and no width but 1 to 8. */
static void nothing_there(const char *what, uint64_t peer, unsigned first, unsigned last)
{
    for (enum host_space space = HOST_CONFIGURATION; space <= HOST_SHARED; space++)
        for (uint64_t offset = 0; offset < 3 * PAGE; offset = offset < 64 ? offset + 1 : offset + 509)
            for (unsigned width = first; width <= last; width++) {
                const uint64_t read = trap_read(&tried.host, peer, space, offset, width);
                holds(read == (width < 1 || width > 8 ? UINT64_MAX : ones(width)), what, offset, width);
                trap_write(&tried.host, peer, space, offset, width, 0x0000000100000001);
                both_are_equal(what, offset, width);
            }
}

static void empty_slots_and_widths(void)
{
    set_up_both();
    nothing_there("no width 0", 1, 0, 0);
    nothing_there("no width above 8", 1, 9, 33);
    holds(trap_read(&tried.host, 1, HOST_CONFIGURATION, 0, UINT32_MAX) == UINT64_MAX, "no such width", 0, UINT32_MAX);
    holds(host_disconnect(&tried.host, 1) == IVSHMEM_ACCEPTED, "peer 1 is disconnected", 0, 0);
    holds(ivshmem_disconnect(expected.hub, WORDS, expected.region, TOTAL, expected.table, PEERS, 1).count == 0,
          "State 0 rings nobody", 0, 0);
    nothing_there("a peer that is not connected", 1, 1, 8);
}

/* Cut in two, this store would ring; widened, the next would store bytes that the guest did not. */
static void bar_0_is_never_cut(void)
{
    set_up_both();
    trap_write(&tried.host, 1, HOST_REGISTERS, IVSHMEM_REGISTER_INTERRUPT_CONTROL, 8, (uint64_t)0x00020001 << 32);
    both_are_equal("8 bytes at 08h ring nobody", 8, 8);
    trap_write(&tried.host, 1, HOST_REGISTERS, IVSHMEM_REGISTER_STATE, 1, 7);
    both_are_equal("a byte of State is not stored", 16, 1);
    holds(trap_read(&tried.host, 1, HOST_REGISTERS, IVSHMEM_REGISTER_ID, 8) == UINT64_MAX, "8 bytes of BAR 0", 0, 8);
    holds(trap_read(&tried.host, 1, HOST_REGISTERS, IVSHMEM_REGISTER_ID, 2) == 0xFFFF, "2 bytes of BAR 0", 0, 2);
}

static bool is_injected(size_t i, uint16_t target, uint16_t vector)
{
    const ivshmem_delivery *d = &tried.injected[i];

    return d->target == target && d->vector == vector && d->address == 0xFEE00000 && d->data == 0x40U + 16U * vector + target;
}

static void interrupts_in_order(void)
{
    set_up_both();
    trap_write(&tried.host, 1, HOST_REGISTERS, IVSHMEM_REGISTER_STATE, 4, 5);
    holds(tried.count == 3 && is_injected(0, 0, 0) && is_injected(1, 2, 0) && is_injected(2, 3, 0), "a State store rings", 16, 4);
    trap_write(&tried.host, 1, HOST_REGISTERS, IVSHMEM_REGISTER_STATE, 4, 5);
    holds(tried.count == 3, "the same State again rings nobody", 16, 4);
    trap_write(&tried.host, 2, HOST_REGISTERS, IVSHMEM_REGISTER_DOORBELL, 4, 0x00010001);
    holds(tried.count == 4 && is_injected(3, 1, 1), "a Doorbell store rings", 12, 4);
    holds(host_reset(&tried.host, 1) == IVSHMEM_ACCEPTED, "peer 1 is reset", 0, 0);
    holds(tried.count == 7 && is_injected(4, 0, 0) && is_injected(5, 2, 0) && is_injected(6, 3, 0), "a reset rings", 0, 0);
    trap_write(&tried.host, 3, HOST_REGISTERS, IVSHMEM_REGISTER_STATE, 4, 6);
    tried.count = 0;
    holds(host_disconnect(&tried.host, 3) == IVSHMEM_ACCEPTED, "peer 3 is disconnected", 0, 0);
    holds(tried.count == 2 && is_injected(0, 0, 0) && is_injected(1, 2, 0), "a disconnect rings", 0, 0);
    holds(host_disconnect(&tried.host, 3) == IVSHMEM_NOT_CONNECTED && tried.count == 2, "a refused one does not", 0, 0);
    holds(tried.host.faults == 0, "no fault so far", 0, 0);
}

/* One access of 4 bytes in each space, a load and a store: nothing is done, and so many refusals are counted. */
static void faulty(const char *what, uint64_t peer, uint64_t count)
{
    static uint8_t region[TOTAL];
    static uint32_t hub[WORDS];
    const uint64_t offsets[] = {IVSHMEM_CONFIGURATION_COMMAND, IVSHMEM_REGISTER_STATE, IVSHMEM_MSIX_DATA, STATE_TABLE};
    uint64_t refused = 0;

    memcpy(region, tried.region, sizeof region);
    memcpy(hub, tried.hub, sizeof hub);
    tried.host.faults = 0;
    for (enum host_space space = HOST_CONFIGURATION; space <= HOST_SHARED; space++) {
        const uint64_t before = tried.host.faults;
        const uint64_t read = trap_read(&tried.host, peer, space, offsets[space], 4);
        holds((tried.host.faults > before) == (read == 0xFFFFFFFF), what, offsets[space], 4);
        refused += tried.host.faults - before;
    }
    trap_write(&tried.host, peer, HOST_REGISTERS, IVSHMEM_REGISTER_STATE, 4, 9);
    holds(tried.host.faults == refused + 1 && tried.count == 0, what, IVSHMEM_REGISTER_STATE, 4);
    holds(memcmp(region, tried.region, sizeof region) == 0 && memcmp(hub, tried.hub, sizeof hub) == 0, what, 0, 0);
    holds(host_reset(&tried.host, peer) != IVSHMEM_ACCEPTED, what, 0, 0);
    holds(host_disconnect(&tried.host, peer) != IVSHMEM_ACCEPTED, what, 0, 0);
    holds(tried.host.faults == count, what, 0, 0);
    set_up_both();
}

/* The last numbers: register write, reset and disconnect, and the loads that meet the fault. */
static void faults_are_counted(void)
{
    set_up_both();
    tried.host.records--;
    faulty("a short table", 1, 3);
    tried.host.region_bytes -= PAGE;
    faulty("a short region", 1, 4);
    tried.host.hub_words--;
    faulty("a word too few", 1, 7);
    memset(tried.hub, 0xFF, sizeof tried.hub);
    faulty("damaged words", 1, 7);
    faulty("an id that no peer has", PEERS, 7);
    faulty("an id of 64 bits", (uint64_t)1 << 32 | 1, 7);
    memset(tried.hub, 0xFF, sizeof tried.hub);
    trap_write(&tried.host, 1, HOST_CONFIGURATION, 0, 4, 0);
    trap_write(&tried.host, 1, HOST_MSIX, 0, 8, 0);
    trap_write(&tried.host, 1, HOST_SHARED, STATE_TABLE, 4, 0);
    holds(!host_traps(&tried.host, 1).bar[0].on, "no trap over damaged words", 0, 0);
    holds(host_page_rights(&tried.host, 1, 0) == HOST_UNMAPPED, "no page over damaged words", 0, 0);
    holds(tried.host.faults == 6, "faults of stores and questions", 0, 0);
}

static bool traps_are(uint64_t peer, bool on, uint64_t bar0, uint64_t bar1)
{
    const struct host_traps traps = host_traps(&tried.host, peer);
    const bool at = traps.bar[0].address == bar0 && traps.bar[1].address == bar1;

    return traps.bar[0].on == on && traps.bar[1].on == on && (at || !on);
}

static void traps_move(void)
{
    set_up_both();
    trap_write(&tried.host, 2, HOST_CONFIGURATION, IVSHMEM_CONFIGURATION_BAR0, 8, 0xD0001FFFC0000FFF);
    holds(traps_are(2, true, 0xC0000000, 0xD0001000), "where the BARs are", 0x10, 8);
    holds(traps_are(1, true, 0, 0), "another peer's BARs", 0x10, 8);
    trap_write(&tried.host, 2, HOST_CONFIGURATION, IVSHMEM_CONFIGURATION_COMMAND, 1, 4);
    holds(traps_are(2, false, 0, 0), "memory off", 4, 1);
    trap_write(&tried.host, 2, HOST_CONFIGURATION, IVSHMEM_CONFIGURATION_COMMAND, 1, 2);
    holds(traps_are(2, true, 0xC0000000, 0xD0001000), "memory on again", 4, 1);
    holds(host_reset(&tried.host, 2) == IVSHMEM_ACCEPTED && traps_are(2, false, 0, 0), "after a reset", 0, 0);
    holds(host_disconnect(&tried.host, 1) == IVSHMEM_ACCEPTED && traps_are(1, false, 0, 0), "after a disconnect", 0, 0);
    holds(tried.host.faults == 0, "no fault by a question", 0, 0);
    for (uint64_t offset = 0; offset < 64; offset++)
        for (unsigned width = 0; width <= 8; width++) {
            bool moves = false;
            for (uint64_t at = offset; at < offset + width; at++)
                moves = moves || at == 0x04 || (at >= 0x10 && at <= 0x17);
            holds(host_moves_traps(offset, width) == moves, "whether a store moves a trap", offset, width);
        }
    holds(!host_moves_traps(UINT64_MAX - 2, 8), "a store at the end of 64 bits moves nothing", UINT64_MAX - 2, 8);
}

static void rights_of_pages(void)
{
    set_up_both();
    for (uint64_t peer = 0; peer < PEERS; peer++)
        for (uint64_t offset = 0; offset < TOTAL + 2 * PAGE; offset += PAGE / 2) {
            const enum host_rights there = may_store(peer, offset) ? HOST_READ_WRITE : HOST_READ_ONLY;
            holds(host_page_rights(&tried.host, peer, offset) == (offset < TOTAL ? there : HOST_UNMAPPED), "a page", offset, 0);
        }
    holds(host_page_rights(&tried.host, 0, UINT64_MAX) == HOST_UNMAPPED, "the last page of 64 bits", UINT64_MAX, 0);
    holds(host_disconnect(&tried.host, 0) == IVSHMEM_ACCEPTED, "peer 0 is disconnected", 0, 0);
    holds(host_page_rights(&tried.host, 0, STATE_TABLE) == HOST_UNMAPPED, "no page when it is gone", STATE_TABLE, 0);
    holds(tried.host.faults == 0, "no fault by a question", 0, 0);
}

int main(void)
{
    sweep_peer(0);
    sweep_peer(PEERS - 1);
    memory_off();
    empty_slots_and_widths();
    bar_0_is_never_cut();
    interrupts_in_order();
    faults_are_counted();
    traps_move();
    rights_of_pages();
    return wrongs != 0;
}
