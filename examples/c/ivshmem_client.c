/* A client of an ivshmem server, at a terminal or at the end of a pipe: prints each message of the server and each interrupt, and
   does what it reads, one command in a line. Over client.c. Loads and stores are of one byte of the shared memory. Ends at its
   input's end, or when it is told to; where the server ends first it goes on with the peers that it knows.

       cc -Iinclude examples/c/ivshmem_client.c examples/c/client.c examples/c/descriptors.c \
           target/staticlib/libivshmem_protocol.a -o ivshmem_client
       ./ivshmem_client [-n VECTORS] SOCKET
       ring ID VECTOR
       load OFFSET
       store OFFSET BYTE
       quit */
#define _GNU_SOURCE
#include <errno.h>
#include <inttypes.h>
#include <poll.h>
#include <stdio.h>
#include <string.h>
#include <sys/mman.h>
#include <sys/stat.h>
#include <unistd.h>

#include "client.h"

/* The shared memory as it is mapped. */
struct memory {
    uint8_t *bytes;
    uint64_t length;
};

static bool map(struct memory *memory, int descriptor)
{
    struct stat status;
    void *mapped;

    if (fstat(descriptor, &status) != 0)
        return fails("fstat");
    mapped = mmap(NULL, (size_t)status.st_size, PROT_READ | PROT_WRITE, MAP_SHARED, descriptor, 0);
    if (mapped == MAP_FAILED)
        return fails("mmap");
    *memory = (struct memory){mapped, (uint64_t)status.st_size};
    printf("bytes of shared memory: %" PRIu64 "\n", memory->length);
    return true;
}

/* A message is there, or the end of the connection. */
static bool hear(struct client *client, struct memory *memory)
{
    ivshmem_protocol_answer answer;
    const ssize_t came = client_hear(client, &answer);

    if (came < 0)
        return false;
    if (came == 0) {
        printf("the server has closed the connection\n");
        return close_descriptor(&client->socket);
    }
    client_print(&answer);
    if (answer.message == IVSHMEM_PROTOCOL_MESSAGE_MEMORY)
        return map(memory, client->memory);
    return answer.message != IVSHMEM_PROTOCOL_MESSAGE_CLOSED || close_descriptor(&client->socket);
}

static void print_rung(const struct client *client, uint64_t vector)
{
    const uint64_t rings = client_rung(client, vector);

    if (rings != 0)
        printf("vector %" PRIu64 " was rung, times: %" PRIu64 "\n", vector, rings);
}

/* Others store to the memory at any time, so that each access is one load or store of the byte. */
static void load(const struct memory *memory, uint64_t offset)
{
    if (offset >= memory->length)
        printf("there is no byte %" PRIu64 "\n", offset);
    else
        printf("byte %" PRIu64 " is %u\n", offset, (unsigned)__atomic_load_n(memory->bytes + offset, __ATOMIC_ACQUIRE));
}

static void store(const struct memory *memory, uint64_t offset, uint64_t byte)
{
    if (offset >= memory->length || byte > UINT8_MAX) {
        printf("there is no byte %" PRIu64 ", or no such value\n", offset);
        return;
    }
    __atomic_store_n(memory->bytes + offset, (uint8_t)byte, __ATOMIC_RELEASE);
    printf("byte %" PRIu64 " is stored\n", offset);
}

/* Where a vector that there is cannot be rung, client_ring says why. */
static void ring(const struct client *client, uint64_t id, uint64_t vector)
{
    if (id >= IVSHMEM_PROTOCOL_IDS || vector >= client->counts[id])
        printf("there is no such vector\n");
    else if (client_ring(client, id, vector))
        printf("rung\n");
}

/* One line of the input. Gives false at the end. */
static bool obey(const struct client *client, const struct memory *memory)
{
    char line[80], name[80], one[80], other[80], more;
    uint64_t first, second;
    int words;

    if (fgets(line, sizeof line, stdin) == NULL || strcmp(line, "quit\n") == 0)
        return false;
    words = sscanf(line, "%79s %79s %79s %c", name, one, other, &more);
    if (words == 2 && strcmp(name, "load") == 0 && read_number(one, &first))
        load(memory, first);
    else if (words == 3 && strcmp(name, "ring") == 0 && read_number(one, &first) && read_number(other, &second))
        ring(client, first, second);
    else if (words == 3 && strcmp(name, "store") == 0 && read_number(one, &first) && read_number(other, &second))
        store(memory, first, second);
    else
        printf("ring ID VECTOR, load OFFSET, store OFFSET BYTE, or quit\n");
    return true;
}

/* Until the end of the input. Gives false where something fails. */
static bool go_on(struct client *client, struct memory *memory)
{
    enum { INPUT, SERVER, VECTORS, ALL = VECTORS + IVSHMEM_PROTOCOL_MAX_VECTORS };
    struct pollfd polled[ALL];

    for (;;) {
        polled[INPUT] = (struct pollfd){.fd = STDIN_FILENO, .events = POLLIN};
        polled[SERVER] = (struct pollfd){.fd = client->socket, .events = POLLIN};
        for (size_t vector = 0; vector < IVSHMEM_PROTOCOL_MAX_VECTORS; vector++) {
            const bool is_own = vector < client->counts[client->progress.own];

            polled[VECTORS + vector] = (struct pollfd){.fd = is_own ? client->vectors[client->progress.own][vector] : NONE,
                                                       .events = POLLIN};
        }
        if (poll(polled, ALL, -1) < 0 && errno != EINTR)
            return fails("poll");
        if (polled[SERVER].revents != 0 && !hear(client, memory))
            return false;
        for (size_t vector = 0; vector < IVSHMEM_PROTOCOL_MAX_VECTORS; vector++)
            if (polled[VECTORS + vector].revents != 0)
                print_rung(client, vector);
        if (polled[INPUT].revents != 0 && !obey(client, memory))
            return true;
    }
}

int main(int argc, char **argv)
{
    struct memory memory = {NULL, 0};
    struct client client;
    uint64_t vectors = 1;
    int option;
    bool done = true;

    while ((option = getopt(argc, argv, "n:")) != -1)
        done = option == 'n' && read_number(optarg, &vectors) && done;
    if (!done || optind + 1 != argc) {
        fprintf(stderr, "ivshmem_client [-n VECTORS] SOCKET\n");
        return 2;
    }
    setvbuf(stdout, NULL, _IOLBF, 0);
    setvbuf(stdin, NULL, _IONBF, 0); /* a line that has come is not hidden from poll in a buffer */
    done = client_connect(&client, argv[optind], vectors) && go_on(&client, &memory);
    if (memory.bytes != NULL && munmap(memory.bytes, (size_t)memory.length) != 0)
        done = fails("munmap");
    return client_end(&client) && done ? 0 : 1;
}
