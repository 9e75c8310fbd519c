/* The header's sizes are the library's: a hub of each size is set up in just so many words, a word less or more is refused and
   left all zero, and so is one peer or one vector more than the most. The last peer of the largest is there, and its table has
   a record for each peer. The lowest base is the header's, too, and the header's helpers answer 0 for what does not fit. Prints
   what is not so. */
#include <inttypes.h>
#include <stdio.h>

#include "ivshmem.h"

enum { STATE_TABLE = 4096, ROOM = IVSHMEM_HUB_WORDS(IVSHMEM_MAX_PEERS + 1, IVSHMEM_MAX_VECTORS + 1) + 1 };

static uint32_t hub[ROOM];
static uint8_t region[STATE_TABLE];
static ivshmem_delivery table[IVSHMEM_MAX_PEERS];

static int wrong(const char *what, uint64_t number, uint64_t expected)
{
    if (number == expected)
        return 0;
    printf("%s: %" PRIu64 " and not %" PRIu64 "\n", what, number, expected);
    return 1;
}

static uint32_t set_up_at(uint64_t base, size_t words, uint64_t peers, uint64_t vectors)
{
    const ivshmem_settings settings = {.peers = peers, .vectors = vectors, .state_table = STATE_TABLE, .base = base,
                                       .protocol = 1};

    return ivshmem_set_up_hub(hub, words, region, STATE_TABLE, settings).number;
}

static uint32_t set_up(size_t words, uint64_t peers, uint64_t vectors)
{
    return set_up_at(0x100000000, words, peers, vectors);
}

static uint32_t reset(size_t records, uint64_t id)
{
    return ivshmem_reset(hub, IVSHMEM_MAX_HUB_WORDS, region, STATE_TABLE, table, records, id).reply.number;
}

/* A set-up that is refused, on words that hold anything: how many of them are not zero afterwards, and of those behind not as
   they were. */
static int refused(const char *what, size_t words, uint64_t peers, uint64_t vectors, uint32_t number)
{
    int changed = 0;

    for (size_t i = 0; i < ROOM; i++)
        hub[i] = 7;
    if (wrong(what, set_up(words, peers, vectors), number))
        return 1;
    for (size_t i = 0; i < ROOM; i++)
        changed += hub[i] != (i < words ? 0 : 7);
    return wrong(what, (uint64_t)changed, 0);
}

static int size(uint64_t peers, uint64_t vectors)
{
    const size_t words = IVSHMEM_HUB_WORDS(peers, vectors);

    return refused("a word less", words - 1, peers, vectors, IVSHMEM_UNSOUND_HUB)
        || refused("a word more", words + 1, peers, vectors, IVSHMEM_UNSOUND_HUB)
        || wrong("the right words", set_up(words, peers, vectors), IVSHMEM_ACCEPTED)
        || wrong("a peer connected", ivshmem_connect(hub, words, peers - 1).number, IVSHMEM_ACCEPTED)
        || wrong("a word less at a call", ivshmem_connect(hub, words - 1, 0).number, IVSHMEM_UNSOUND_HUB)
        || wrong("a word more at a call", ivshmem_connect(hub, words + 1, 0).number, IVSHMEM_UNSOUND_HUB);
}

static int total(const char *what, uint64_t peers, uint64_t state_table, uint64_t read_write, uint64_t output, uint64_t expected)
{
    const ivshmem_settings settings = {.peers = peers, .state_table = state_table, .read_write = read_write, .output = output};

    return wrong(what, ivshmem_total(&settings), expected);
}

static int hub_words(const char *what, uint64_t peers, uint64_t vectors, uint64_t expected)
{
    const ivshmem_settings settings = {.peers = peers, .vectors = vectors};

    return wrong(what, ivshmem_hub_words(&settings), expected);
}

static int helpers(void)
{
    const uint64_t most = UINT64_MAX, page = 4096;

    return total("a total", 3, page, 2 * page, 4 * page, 15 * page)
         + total("no peers", 0, page, page, most, 2 * page)
         + total("the largest total", 2, 1, 0, (most - 1) / 2, most)
         + total("a product too large", 2, 3, 0, (most - 1) / 2, 0)
         + total("a product that comes round", 64, page, 0, (uint64_t)1 << 58, 0)
         + total("a sum that comes round", 2, 2 * page, most - page + 1, 0, 0)
         + hub_words("words", IVSHMEM_MAX_PEERS, IVSHMEM_MAX_VECTORS, IVSHMEM_MAX_HUB_WORDS)
         + hub_words("words of a peer more", IVSHMEM_MAX_PEERS + 1, 1, 0)
         + hub_words("words of a vector more", 2, IVSHMEM_MAX_VECTORS + 1, 0)
         + hub_words("words that come round", (uint64_t)1 << 61, 1, 0);
}

int main(void)
{
    const uint64_t peers = IVSHMEM_MAX_PEERS, vectors = IVSHMEM_MAX_VECTORS;
    const size_t words = IVSHMEM_MAX_HUB_WORDS;
    int faults = helpers();

    for (uint64_t p = 2; p <= peers; p++)
        for (uint64_t v = 1; v <= vectors; v++)
            faults += size(p, v);
    faults += refused("a peer more", IVSHMEM_HUB_WORDS(peers + 1, vectors), peers + 1, vectors, IVSHMEM_BAD_SETTING);
    faults += refused("a vector more", IVSHMEM_HUB_WORDS(peers, vectors + 1), peers, vectors + 1, IVSHMEM_BAD_SETTING);
    faults += refused("one peer, no words", 0, 1, vectors, IVSHMEM_BAD_SETTING);
    faults += wrong("a lower base", set_up_at(IVSHMEM_MIN_BASE - 4096, words, peers, vectors), IVSHMEM_BAD_SETTING);
    faults += wrong("the lowest base", set_up_at(IVSHMEM_MIN_BASE, words, peers, vectors), IVSHMEM_ACCEPTED);
    faults += wrong("the last base", set_up_at(UINT64_MAX - STATE_TABLE + 1, words, peers, vectors), IVSHMEM_ACCEPTED);
    faults += wrong("the most", set_up(words, peers, vectors), IVSHMEM_ACCEPTED);
    faults += wrong("the last peer", ivshmem_connect(hub, words, peers - 1).number, IVSHMEM_ACCEPTED);
    faults += wrong("a peer beyond it", ivshmem_connect(hub, words, peers).number, IVSHMEM_NO_SUCH_PEER);
    faults += wrong("a record less", reset(peers - 1, peers - 1), IVSHMEM_SHORT_TABLE);
    faults += wrong("a record for each peer", reset(peers, peers - 1), IVSHMEM_ACCEPTED);
    return faults != 0;
}
