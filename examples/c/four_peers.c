/* A host with four peers: sets up a hub, lets each peer switch its device on, and prints what the hub answers. Every exported
   function is called at least once. */
#include <inttypes.h>
#include <stdio.h>
#include <string.h>

#include "ivshmem.h"

enum { PEERS = 4, VECTORS = 2, STATE_TABLE = 4096, READ_WRITE = 4096, OUTPUT = 4096 };
enum { TOTAL = STATE_TABLE + READ_WRITE + PEERS * OUTPUT };
enum { WORDS = IVSHMEM_HUB_WORDS(PEERS, VECTORS) };

static uint32_t hub[WORDS];
static uint8_t region[TOTAL];
static ivshmem_delivery table[PEERS];

static void answered(const char *what, ivshmem_reply reply)
{
    if (reply.number == IVSHMEM_ACCEPTED)
        printf("%-44s accepted, value %08" PRIX32 "h\n", what, reply.value);
    else
        printf("%-44s refused by %" PRIu32 ": %s\n", what, reply.number, ivshmem_number_text(reply.number));
}

static void delivered(const char *what, ivshmem_counted answer)
{
    answered(what, answer.reply);
    for (size_t i = 0; i < answer.count; i++)
        printf("    interrupt for peer %" PRIu16 ": vector %" PRIu16 ", address %08" PRIX64 "h, data %" PRIX32 "h\n",
               table[i].target, table[i].vector, table[i].address, table[i].data);
}

static const ivshmem_settings four_peers = {
    .peers = PEERS,
    .vectors = VECTORS,
    .state_table = STATE_TABLE,
    .read_write = READ_WRITE,
    .output = OUTPUT,
    .base = 0x100000000,
    .protocol = 1,
    .subsystem_vendor = 0x110A,
    .subsystem_id = 0x4106,
};

static ivshmem_reply set_up(size_t words, uint64_t peers)
{
    ivshmem_settings settings = four_peers;

    settings.peers = peers;
    return ivshmem_set_up_hub(hub, words, region, TOTAL, settings);
}

/* What the settings ask for is what stands here for it. */
static int lent_as_asked(void)
{
    const size_t words = ivshmem_hub_words(&four_peers), bytes = ivshmem_total(&four_peers);

    printf("interface %" PRIu32 ": a hub of %zu words, a region of %zu bytes\n", ivshmem_interface_2(), words, bytes);
    return words == WORDS && bytes == TOTAL && ivshmem_interface_2() == IVSHMEM_INTERFACE;
}

static void sound(const char *what)
{
    printf("%-44s %s\n", what, ivshmem_is_sound(hub, WORDS) ? "a sound hub" : "not a sound hub");
}

static ivshmem_counted write_register(uint64_t id, uint64_t offset, uint32_t value)
{
    return ivshmem_register_write(hub, WORDS, region, TOTAL, table, PEERS, id, offset, 4, value);
}

/* What a guest's driver does: memory and bus master on, each vector's message set and unmasked, MSI-X on, interrupts on. */
static int switch_on(uint64_t id)
{
    uint32_t refused = ivshmem_configuration_write(hub, WORDS, id, IVSHMEM_CONFIGURATION_COMMAND, 2,
                                                   IVSHMEM_COMMAND_MEMORY | IVSHMEM_COMMAND_BUS_MASTER).number;
    for (uint64_t v = 0; v < VECTORS; v++) {
        uint64_t entry = IVSHMEM_MSIX_ENTRY_BYTES * v;
        refused |= ivshmem_msix_write(hub, WORDS, id, entry + IVSHMEM_MSIX_ADDRESS_LOW, 4, 0xFEE00000).number;
        refused |= ivshmem_msix_write(hub, WORDS, id, entry + IVSHMEM_MSIX_DATA, 4, (uint32_t)(0x40 + 16 * v + id)).number;
        refused |= ivshmem_msix_write(hub, WORDS, id, entry + IVSHMEM_MSIX_CONTROL, 4, 0).number;
    }
    refused |= ivshmem_configuration_write(hub, WORDS, id, IVSHMEM_CONFIGURATION_MESSAGE_CONTROL, 2,
                                           IVSHMEM_MESSAGE_ENABLE).number;
    refused |= write_register(id, IVSHMEM_REGISTER_INTERRUPT_CONTROL, 1).reply.number;
    return refused == IVSHMEM_ACCEPTED;
}

static void doorbell_and_state(void)
{
    delivered("peer 0 rings vector 1 at peer 2", write_register(0, IVSHMEM_REGISTER_DOORBELL, 0x00020001));
    answered("peer 2 turns one-shot on",
             ivshmem_configuration_write(hub, WORDS, 2, IVSHMEM_CONFIGURATION_PRIVILEGED_CONTROL, 1,
                                         IVSHMEM_PRIVILEGED_ONE_SHOT));
    delivered("peer 1 stores State 5", write_register(1, IVSHMEM_REGISTER_STATE, 5));
    delivered("peer 1 stores State 5 again", write_register(1, IVSHMEM_REGISTER_STATE, 5));
    delivered("peer 1 stores State 6", write_register(1, IVSHMEM_REGISTER_STATE, 6));
    answered("peer 2 reads Interrupt Control", ivshmem_register_read(hub, WORDS, 2, IVSHMEM_REGISTER_INTERRUPT_CONTROL, 4));
    answered("peer 0 reads its entry 0, data", ivshmem_msix_read(hub, WORDS, 0, IVSHMEM_MSIX_DATA, 4));
    printf("State Table entry of peer 1: %02X %02X %02X %02X\n", region[4], region[5], region[6], region[7]);
}

static void shared_memory(void)
{
    static const char *const kinds[] = {"no section", "the State Table", "the read/write section", "an output section"};
    const uint64_t output1 = STATE_TABLE + READ_WRITE + 1 * OUTPUT;
    const uint8_t text[6] = {'m', 'o', 'r', 't', 'a', 'r'};
    uint8_t buffer[6] = {0};
    ivshmem_section s = ivshmem_section_question(hub, WORDS, 0, output1, sizeof text);

    printf("peer 0 asks about offset %" PRIu64 ": %s, owner %" PRIu32 ", store %s\n", output1, kinds[s.kind], s.owner,
           s.store ? "yes" : "no");
    answered("peer 0 stores to peer 1's output section",
             ivshmem_store(hub, WORDS, region, TOTAL, 0, output1, text, sizeof text));
    answered("peer 1 stores to its own", ivshmem_store(hub, WORDS, region, TOTAL, 1, output1, text, sizeof text));
    answered("peer 3 loads what peer 1 stored",
             ivshmem_load(hub, WORDS, region, TOTAL, 3, output1, buffer, sizeof buffer));
    printf("peer 3 has: %.6s\n", (const char *)buffer);
}

int main(void)
{
    if (!lent_as_asked())
        return 1;
    answered("set-up with 65 peers", set_up(WORDS, IVSHMEM_MAX_PEERS + 1));
    answered("set-up with 4 peers, a word too few", set_up(WORDS - 1, PEERS));
    sound("the words after it");
    answered("set-up with 4 peers", set_up(WORDS, PEERS));
    sound("the words after it");
    answered("is peer 3 connected", ivshmem_is_connected(hub, WORDS, 3));
    for (uint64_t id = 0; id < PEERS; id++)
        if (ivshmem_connect(hub, WORDS, id).number != IVSHMEM_ACCEPTED || !switch_on(id))
            return 1;
    answered("is peer 3 connected", ivshmem_is_connected(hub, WORDS, 3));
    answered("is peer 4 connected", ivshmem_is_connected(hub, WORDS, 4));
    answered("peer 0 reads vendor and device id", ivshmem_configuration_read(hub, WORDS, 0, IVSHMEM_CONFIGURATION_VENDOR_ID, 4));
    answered("its protocol type", ivshmem_configuration_read(hub, WORDS, 0, IVSHMEM_CONFIGURATION_REVISION, 4));
    answered("its subsystem vendor and id",
             ivshmem_configuration_read(hub, WORDS, 0, IVSHMEM_CONFIGURATION_SUBSYSTEM_VENDOR, 4));
    doorbell_and_state();
    shared_memory();
    delivered("peer 1 is reset", ivshmem_reset(hub, WORDS, region, TOTAL, table, PEERS, 1));
    delivered("peer 3 is disconnected, the table too short",
              ivshmem_disconnect(hub, WORDS, region, TOTAL, table, PEERS - 1, 3));
    delivered("peer 3 is disconnected, its State 0", ivshmem_disconnect(hub, WORDS, region, TOTAL, table, PEERS, 3));
    answered("is peer 3 connected", ivshmem_is_connected(hub, WORDS, 3));
    answered("peer 3 reads its id", ivshmem_register_read(hub, WORDS, 3, IVSHMEM_REGISTER_ID, 4));
    memset(hub, 0xFF, sizeof hub);
    sound("a hub of noise");
    answered("connect on a hub of noise", ivshmem_connect(hub, WORDS, 0));
    return 0;
}
