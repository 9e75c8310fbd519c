/* A State Table entry changes by one instruction that stores 32 bits. Other guests read the entry through a mapping while the hub
   stores it, and must never see half of a value. Each call that stores an entry is run one instruction at a time: with the trap
   flag on, the processor raises SIGTRAP after each, and the handler looks at the whole table. Prints what is not so. x86-64 and
   Linux only. */
#define _GNU_SOURCE
#include <signal.h>
#include <stdio.h>
#include <string.h>
#include <ucontext.h>

#include "ivshmem.h"

enum { PEERS = 4, WORDS = IVSHMEM_HUB_WORDS(PEERS, 1), BYTES = 4096, TRAP_FLAG = 0x100 };

static uint32_t hub[WORDS];
static _Alignas(4096) uint8_t region[BYTES];
static ivshmem_delivery table[PEERS];

static uint8_t seen[BYTES];             /* the table after the last instruction */
static const uint8_t *instruction;      /* the one that runs next */
static volatile sig_atomic_t watching;
static volatile unsigned steps, changes, whole;

/* mov of a 32-bit register or constant to memory: 89 or C7, after at most a REX prefix without W. */
static int stores_32_bits(const uint8_t *code)
{
    if ((code[0] & 0xF8) == 0x40)
        code++;
    return (code[0] == 0x89 || code[0] == 0xC7) && code[1] >> 6 != 3;
}

static void stepped(int signal, siginfo_t *info, void *context)
{
    greg_t *const registers = ((ucontext_t *)context)->uc_mcontext.gregs;

    (void)signal;
    (void)info;
    steps++;
    if (memcmp(seen, region, BYTES) != 0) {
        changes++;
        whole += stores_32_bits(instruction);
        memcpy(seen, region, BYTES);
    }
    instruction = (const uint8_t *)registers[REG_RIP];
    if (!watching)
        registers[REG_EFL] &= ~(greg_t)TRAP_FLAG;
}

/* The flag comes on with the return from this handler. */
static void begun(int signal, siginfo_t *info, void *context)
{
    greg_t *const registers = ((ucontext_t *)context)->uc_mcontext.gregs;

    (void)signal;
    (void)info;
    instruction = (const uint8_t *)registers[REG_RIP];
    registers[REG_EFL] |= TRAP_FLAG;
}

static void watch(void)
{
    memcpy(seen, region, BYTES);
    steps = changes = whole = 0;
    watching = 1;
    raise(SIGUSR1);
}

/* The answer's number, after a call that has to store this value in the peer's entry. */
static int stored(const char *what, uint32_t number, uint64_t id, uint32_t value)
{
    uint8_t bytes[4] = {(uint8_t)value, (uint8_t)(value >> 8), (uint8_t)(value >> 16), (uint8_t)(value >> 24)};

    watching = 0;
    if (number == IVSHMEM_ACCEPTED && memcmp(region + 4 * id, bytes, 4) == 0 && steps > 50 && changes == 1 && whole == 1)
        return 0;
    printf("%s, peer %u: answer %u, %u instructions, of which %u changed the table, %u of these by 32 bits\n", what,
           (unsigned)id, number, steps, changes, whole);
    return 1;
}

/* Every byte of the entry changes each time, so that no part of a store can go unseen. */
static int entry(uint64_t id)
{
    int wrong = 0;
    uint32_t number;

    for (unsigned i = 0; i < 2; i++) {
        const uint32_t value = i == 0 ? 0x81828384 : 0x7E7D7C7B;
        watch();
        number = ivshmem_register_write(hub, WORDS, region, BYTES, table, PEERS, id, IVSHMEM_REGISTER_STATE, 4, value)
                     .reply.number;
        wrong += stored("a State store", number, id, value);
    }
    watch();
    number = ivshmem_reset(hub, WORDS, region, BYTES, table, PEERS, id).reply.number;
    wrong += stored("a reset", number, id, 0);
    if (ivshmem_configuration_write(hub, WORDS, id, IVSHMEM_CONFIGURATION_COMMAND, 2, IVSHMEM_COMMAND_MEMORY).number != 0
        || ivshmem_register_write(hub, WORDS, region, BYTES, table, PEERS, id, IVSHMEM_REGISTER_STATE, 4, ~0U).reply.number != 0)
        return wrong + 1;
    watch();
    number = ivshmem_disconnect(hub, WORDS, region, BYTES, table, PEERS, id).reply.number;
    return wrong + stored("a disconnect", number, id, 0);
}

int main(void)
{
    const ivshmem_settings settings = {.peers = PEERS, .vectors = 1, .state_table = BYTES, .base = IVSHMEM_MIN_BASE};
    struct sigaction step = {.sa_sigaction = stepped, .sa_flags = SA_SIGINFO};
    struct sigaction begin = {.sa_sigaction = begun, .sa_flags = SA_SIGINFO};
    int wrong = sigaction(SIGTRAP, &step, NULL) != 0 || sigaction(SIGUSR1, &begin, NULL) != 0
             || ivshmem_set_up_hub(hub, WORDS, region, BYTES, settings).number != IVSHMEM_ACCEPTED;

    for (uint64_t id = 0; id < PEERS; id++)
        wrong += ivshmem_connect(hub, WORDS, id).number != IVSHMEM_ACCEPTED
              || ivshmem_configuration_write(hub, WORDS, id, IVSHMEM_CONFIGURATION_COMMAND, 2, IVSHMEM_COMMAND_MEMORY).number
                 != IVSHMEM_ACCEPTED;
    for (uint64_t id = 0; id < PEERS; id++)
        wrong += entry(id);
    return wrong != 0;
}
