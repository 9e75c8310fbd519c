/* A client that reads an ivshmem server's messages from its socket, over client.c: it receives the eight bytes of a message and
   the descriptor that comes with them, hands them to the library as a record, and keeps or closes the descriptor as the answer
   says. The server is played here too, at the other end of a socket pair, and sends more than a good one would; a real one is
   ivshmem_server.c. Prints the messages and what is kept, and ends with 1 where something fails or a descriptor stays open.

       cc -Iinclude examples/c/server_messages.c examples/c/client.c examples/c/descriptors.c \
           target/staticlib/libivshmem_protocol.a -o server_messages
       ./server_messages */
#define _GNU_SOURCE
#include <fcntl.h>
#include <inttypes.h>
#include <stdio.h>
#include <sys/eventfd.h>
#include <sys/mman.h>
#include <sys/stat.h>
#include <unistd.h>

#include "client.h"

/* The vectors that this client is configured with. */
enum { VECTORS = 2 };

/* Reads messages until the server closes the connection, or sends what closes it. */
static bool read_messages(struct client *client)
{
    ivshmem_protocol_answer answer;
    ssize_t came;

    while ((came = client_hear(client, &answer)) == 1) {
        client_print(&answer);
        if (answer.message == IVSHMEM_PROTOCOL_MESSAGE_CLOSED)
            return true;
    }
    if (came == 0)
        printf("the server has closed the connection\n");
    return came == 0;
}

/* What the client keeps after the close: the memory, the counts, and its own vectors, of which some may have been rung. */
static bool print_kept(const struct client *client)
{
    struct stat memory;

    if (fstat(client->memory, &memory) != 0)
        return fails("fstat");
    printf("kept: %jd bytes of shared memory\n", (intmax_t)memory.st_size);
    for (size_t id = 0; id < IVSHMEM_PROTOCOL_IDS; id++)
        if (client->counts[id] != 0)
            printf("kept: %" PRIu8 " vectors of id %zu\n", client->counts[id], id);
    for (size_t vector = 0; vector < VECTORS; vector++)
        if (client_rung(client, vector) != 0)
            printf("vector %zu was rung\n", vector);
    return true;
}

/*
 * The server, played: client 3 has come, and client 5 was there before.
 */

static bool send_part(int socket, const uint8_t *bytes, size_t length, int descriptor)
{
    return send_bytes(socket, bytes, length, descriptor) == (ssize_t)length || fails("sendmsg");
}

/* Sends a message in two parts, which the client has to put together. */
static bool send_number(int socket, int64_t number, int descriptor)
{
    uint8_t bytes[MESSAGE_BYTES];

    for (unsigned i = 0; i < MESSAGE_BYTES; i++)
        bytes[i] = (uint8_t)((uint64_t)number >> (8 * i));
    return send_part(socket, bytes, 3, descriptor) && send_part(socket, bytes + 3, MESSAGE_BYTES - 3, NONE);
}

/* The same with a descriptor, which the server then has no use for. */
static bool send_with(int socket, int64_t number, int descriptor)
{
    if (descriptor < 0)
        return fails("no descriptor to send");
    const bool sent = send_number(socket, number, descriptor);
    return close_descriptor(&descriptor) && sent;
}

static bool send_memory(int socket)
{
    int memory = memfd_create("shared", MFD_CLOEXEC);

    if (memory >= 0 && ftruncate(memory, 8192) != 0) {
        fails("ftruncate");
        close_descriptor(&memory);
        return false;
    }
    return send_with(socket, -1, memory);
}

/* Three vectors, as this server gives them to every client. The second has been rung already. */
static bool send_vectors(int socket, int64_t id)
{
    for (unsigned vector = 0; vector < 3; vector++)
        if (!send_with(socket, id, eventfd(vector == 1, EFD_CLOEXEC | EFD_NONBLOCK)))
            return false;
    return true;
}

/* Client 5 leaves and comes again; at the end comes an id that there is not, with a descriptor. */
static bool play_server(int socket)
{
    return send_number(socket, 0, NONE) && send_number(socket, 3, NONE) && send_memory(socket)
        && send_vectors(socket, 5) && send_vectors(socket, 3)
        && send_number(socket, 5, NONE) && send_vectors(socket, 5)
        && send_with(socket, 64, eventfd(0, EFD_CLOEXEC));
}

/* How many descriptors are open, of those that a small program gets. */
static int open_descriptors(void)
{
    int open = 0;

    for (int descriptor = 0; descriptor < 256; descriptor++)
        open += fcntl(descriptor, F_GETFD) != -1;
    return open;
}

int main(void)
{
    const int before = open_descriptors();
    int pair[2];
    struct client client;

    if (socketpair(AF_UNIX, SOCK_STREAM | SOCK_CLOEXEC, 0, pair) != 0) {
        fails("socketpair");
        return 1;
    }
    client_start(&client, pair[0], VECTORS);
    bool done = play_server(pair[1]);
    done = close_descriptor(&pair[1]) && done;
    done = done && read_messages(&client) && print_kept(&client);
    done = client_end(&client) && done;
    const int left = open_descriptors() - before;
    printf("descriptors left open: %d\n", left);
    return done && left == 0 ? 0 : 1;
}
