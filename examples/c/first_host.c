/* The smallest host over host.c: two guests, whose accesses are written here as a hypervisor would get them. docs/WIRING.md goes
   through it. */
#include <inttypes.h>
#include <stdio.h>

#include "host.h"

enum { PEERS = 2, VECTORS = 1, STATE_TABLE = 4096, READ_WRITE = 4096, TOTAL = STATE_TABLE + READ_WRITE };

static uint32_t hub[IVSHMEM_HUB_WORDS(PEERS, VECTORS)];
static _Alignas(4096) uint8_t region[TOTAL];
static ivshmem_delivery table[PEERS];

static void inject(void *context, const ivshmem_delivery *d)
{
    (void)context;
    printf("inject into guest %" PRIu16 ": address %" PRIX64 "h, data %" PRIX32 "h\n", d->target, d->address, d->data);
}

/* What a hypervisor does at a store to configuration space. */
static void configuration_store(struct host *host, uint64_t peer, uint64_t offset, unsigned width, uint64_t value)
{
    trap_write(host, peer, HOST_CONFIGURATION, offset, width, value);
    if (!host_moves_traps(offset, width))
        return;
    const struct host_traps traps = host_traps(host, peer);
    for (unsigned n = 0; n < 2; n++)
        if (traps.bar[n].on)
            printf("trap BAR %u of guest %" PRIu64 " at %" PRIX64 "h\n", n, peer, traps.bar[n].address);
}

/* What a guest's driver does: BARs, Command, one vector, MSI-X on, interrupts on. */
static void switch_on(struct host *host, uint64_t peer)
{
    configuration_store(host, peer, IVSHMEM_CONFIGURATION_BAR0, 4, 0xC0000000);
    configuration_store(host, peer, IVSHMEM_CONFIGURATION_BAR1, 4, 0xC0001000);
    configuration_store(host, peer, IVSHMEM_CONFIGURATION_COMMAND, 2, IVSHMEM_COMMAND_MEMORY | IVSHMEM_COMMAND_BUS_MASTER);
    trap_write(host, peer, HOST_MSIX, IVSHMEM_MSIX_ADDRESS_LOW, 8, 0xFEE00000);
    trap_write(host, peer, HOST_MSIX, IVSHMEM_MSIX_DATA, 8, 0x40 + peer);
    configuration_store(host, peer, IVSHMEM_CONFIGURATION_MESSAGE_CONTROL, 2, IVSHMEM_MESSAGE_ENABLE);
    trap_write(host, peer, HOST_REGISTERS, IVSHMEM_REGISTER_INTERRUPT_CONTROL, 4, 1);
}

int main(void)
{
    const ivshmem_settings settings = {.peers = PEERS, .vectors = VECTORS, .state_table = STATE_TABLE, .read_write = READ_WRITE,
                                       .base = 0x100000000};
    struct host host = {.hub = hub, .hub_words = ivshmem_hub_words(&settings), .region = region, .region_bytes = TOTAL,
                        .table = table, .records = PEERS, .inject = inject};
    const char *const rights[] = {"unmapped", "read-only", "read-write"};

    if (ivshmem_set_up_hub(host.hub, host.hub_words, host.region, host.region_bytes, settings).number != IVSHMEM_ACCEPTED)
        return 1;
    for (uint64_t peer = 0; peer < PEERS; peer++) {
        if (ivshmem_connect(host.hub, host.hub_words, peer).number != IVSHMEM_ACCEPTED)
            return 1;
        switch_on(&host, peer);
    }
    for (uint64_t page = 0; page < TOTAL; page += 4096)
        printf("page at %" PRIu64 " for guest 0: %s\n", page, rights[host_page_rights(&host, 0, page)]);
    trap_write(&host, 0, HOST_REGISTERS, IVSHMEM_REGISTER_STATE, 4, 5);
    trap_write(&host, 1, HOST_REGISTERS, IVSHMEM_REGISTER_DOORBELL, 4, 0);
    printf("guest 1 reads 2 bytes of BAR 0: %" PRIX64 "h\n", trap_read(&host, 1, HOST_REGISTERS, IVSHMEM_REGISTER_ID, 2));
    printf("guest 1 reads State of guest 0: %" PRIX64 "h\n", trap_read(&host, 1, HOST_SHARED, 0, 4));
    return host.faults != 0;
}
