/* The trap handlers of host.h. A byte that no accepted call answered reads FFh, and a store that is refused is dropped: the value
   0 of a refused read never reaches a guest. */
#include "host.h"

enum { PAGE = 4096 };

static uint64_t all_ones(unsigned width)
{
    return UINT64_MAX >> (64 - 8 * width);
}

/* Whether a call was refused. 4, 6, 7, 8 and 9 are a guest's own doing; any other number is the host's fault and is counted. */
static bool is_refused(struct host *host, uint32_t number)
{
    switch (number) {
    case IVSHMEM_ACCEPTED:
        return false;
    case IVSHMEM_NOT_CONNECTED:
    case IVSHMEM_BAD_WIDTH:
    case IVSHMEM_MISALIGNED:
    case IVSHMEM_OUT_OF_RANGE:
    case IVSHMEM_READ_ONLY:
        return true;
    default:
        __atomic_fetch_add(&host->faults, 1, __ATOMIC_RELAXED);
        return true;
    }
}

static uint32_t inject_all(struct host *host, ivshmem_counted answer)
{
    if (!is_refused(host, answer.reply.number))
        for (size_t i = 0; i < answer.count; i++)
            host->inject(host->context, &host->table[i]);
    return answer.reply.number;
}

/* How many bytes go to the library in the next call, of those that are left of an access. Configuration space: the largest
   naturally aligned piece of 4, 2 or 1 bytes. BAR 0: all; cut in two, 8 bytes at 08h would ring the Doorbell. BAR 1: all, but 8
   aligned bytes go as two words, which PCI lets a driver store so. Shared: up to the end of the page, since a section is whole
   pages. */
static unsigned piece(enum host_space space, uint64_t offset, unsigned left)
{
    const uint64_t to_page_end = PAGE - offset % PAGE;

    switch (space) {
    case HOST_CONFIGURATION:
        return offset % 4 == 0 && left >= 4 ? 4 : offset % 2 == 0 && left >= 2 ? 2 : 1;
    case HOST_MSIX:
        return offset % 8 == 0 && left == 8 ? 4 : left;
    case HOST_SHARED:
        return left < to_page_end ? left : (unsigned)to_page_end;
    default:
        return left;
    }
}

static uint64_t load_piece(struct host *host, uint64_t peer, uint64_t offset, unsigned width)
{
    uint8_t bytes[8];
    uint64_t value = 0;

    if (is_refused(host, ivshmem_load(host->hub, host->hub_words, host->region, host->region_bytes, peer, offset, bytes,
                                      width).number))
        return all_ones(width);
    for (unsigned i = 0; i < width; i++)
        value |= (uint64_t)bytes[i] << (8 * i);
    return value;
}

static uint64_t read_piece(struct host *host, uint64_t peer, enum host_space space, uint64_t offset, unsigned width)
{
    ivshmem_reply reply;

    switch (space) {
    case HOST_CONFIGURATION:
        reply = ivshmem_configuration_read(host->hub, host->hub_words, peer, offset, width);
        break;
    case HOST_REGISTERS:
        reply = ivshmem_register_read(host->hub, host->hub_words, peer, offset, width);
        break;
    case HOST_MSIX:
        reply = ivshmem_msix_read(host->hub, host->hub_words, peer, offset, width);
        break;
    case HOST_SHARED:
        return load_piece(host, peer, offset, width);
    default:
        return all_ones(width);
    }
    return is_refused(host, reply.number) ? all_ones(width) : reply.value;
}

static void store_piece(struct host *host, uint64_t peer, uint64_t offset, unsigned width, uint64_t value)
{
    uint8_t bytes[8];

    for (unsigned i = 0; i < width; i++)
        bytes[i] = (uint8_t)(value >> (8 * i));
    is_refused(host, ivshmem_store(host->hub, host->hub_words, host->region, host->region_bytes, peer, offset, bytes,
                                   width).number);
}

static void write_piece(struct host *host, uint64_t peer, enum host_space space, uint64_t offset, unsigned width, uint64_t value)
{
    const uint32_t low = (uint32_t)value;

    switch (space) {
    case HOST_CONFIGURATION:
        is_refused(host, ivshmem_configuration_write(host->hub, host->hub_words, peer, offset, width, low).number);
        break;
    case HOST_REGISTERS:
        inject_all(host, ivshmem_register_write(host->hub, host->hub_words, host->region, host->region_bytes, host->table,
                                                host->records, peer, offset, width, low));
        break;
    case HOST_MSIX:
        is_refused(host, ivshmem_msix_write(host->hub, host->hub_words, peer, offset, width, low).number);
        break;
    case HOST_SHARED:
        store_piece(host, peer, offset, width, value);
        break;
    }
}

uint64_t trap_read(struct host *host, uint64_t peer, enum host_space space, uint64_t offset, unsigned width)
{
    uint64_t value = 0;

    if (width < 1 || width > 8)
        return UINT64_MAX;
    for (unsigned done = 0, size; done < width; done += size) {
        const uint64_t at = offset + done;
        size = piece(space, at, width - done);
        /* There is nothing behind 2^64 - 1, and 0 does not follow it. */
        value |= (at < offset ? all_ones(size) : read_piece(host, peer, space, at, size)) << (8 * done);
    }
    return value;
}

void trap_write(struct host *host, uint64_t peer, enum host_space space, uint64_t offset, unsigned width, uint64_t value)
{
    if (width < 1 || width > 8)
        return;
    for (unsigned done = 0, size; done < width; done += size) {
        const uint64_t at = offset + done;
        size = piece(space, at, width - done);
        if (at >= offset)
            write_piece(host, peer, space, at, size, value >> (8 * done));
    }
}

uint32_t host_reset(struct host *host, uint64_t peer)
{
    return inject_all(host, ivshmem_reset(host->hub, host->hub_words, host->region, host->region_bytes, host->table,
                                          host->records, peer));
}

uint32_t host_disconnect(struct host *host, uint64_t peer)
{
    return inject_all(host, ivshmem_disconnect(host->hub, host->hub_words, host->region, host->region_bytes, host->table,
                                               host->records, peer));
}

struct host_traps host_traps(struct host *host, uint64_t peer)
{
    struct host_traps traps = {{{false, 0}, {false, 0}}};
    const ivshmem_reply command = ivshmem_configuration_read(host->hub, host->hub_words, peer, IVSHMEM_CONFIGURATION_COMMAND, 2);

    if (is_refused(host, command.number) || !(command.value & IVSHMEM_COMMAND_MEMORY))
        return traps;
    for (unsigned n = 0; n < 2; n++) {
        const ivshmem_reply bar = ivshmem_configuration_read(host->hub, host->hub_words, peer,
                                                             IVSHMEM_CONFIGURATION_BAR0 + 4 * n, 4);
        traps.bar[n].on = !is_refused(host, bar.number);
        traps.bar[n].address = bar.value;
    }
    return traps;
}

static bool touches(uint64_t offset, unsigned width, uint64_t first, uint64_t last)
{
    return offset <= last && (offset >= first ? width > 0 : first - offset < width);
}

bool host_moves_traps(uint64_t offset, unsigned width)
{
    return touches(offset, width, IVSHMEM_CONFIGURATION_COMMAND, IVSHMEM_CONFIGURATION_COMMAND)
        || touches(offset, width, IVSHMEM_CONFIGURATION_BAR0, IVSHMEM_CONFIGURATION_BAR1 + 3);
}

enum host_rights host_page_rights(struct host *host, uint64_t peer, uint64_t offset)
{
    const ivshmem_section section = ivshmem_section_question(host->hub, host->hub_words, peer, offset - offset % PAGE, PAGE);

    /* Of a kind that this file does not know nothing is mapped. */
    if (is_refused(host, section.reply.number) || section.kind < IVSHMEM_STATE_TABLE || section.kind > IVSHMEM_OUTPUT)
        return HOST_UNMAPPED;
    return section.store == 1 ? HOST_READ_WRITE : HOST_READ_ONLY;
}
