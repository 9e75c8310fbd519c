/* The functions of client.h. */
#define _GNU_SOURCE
#include "client.h"

#include <errno.h>
#include <inttypes.h>
#include <stdio.h>
#include <unistd.h>

void client_start(struct client *client, int socket, uint64_t configured)
{
    *client = (struct client){.socket = socket, .configured = configured, .memory = NONE};
    for (size_t id = 0; id < IVSHMEM_PROTOCOL_IDS; id++)
        for (size_t vector = 0; vector < IVSHMEM_PROTOCOL_MAX_VECTORS; vector++)
            client->vectors[id][vector] = NONE;
}

bool client_connect(struct client *client, const char *path, uint64_t configured)
{
    struct sockaddr_un address;

    client_start(client, NONE, configured);
    if (!socket_address(&address, path))
        return false;
    client->socket = socket(AF_UNIX, SOCK_STREAM | SOCK_CLOEXEC, 0);
    if (client->socket < 0)
        return fails("socket");
    if (connect(client->socket, (const struct sockaddr *)&address, sizeof address) == 0)
        return true;
    fails(path);
    close_descriptor(&client->socket);
    return false;
}

/* Keeps or closes the descriptor that came with a message. */
static bool keep_or_close(struct client *client, const ivshmem_protocol_answer *answer, int descriptor)
{
    switch (answer->message) {
    case IVSHMEM_PROTOCOL_MESSAGE_MEMORY:
        client->memory = descriptor;
        return true;
    case IVSHMEM_PROTOCOL_MESSAGE_VECTOR:
        client->vectors[answer->id][answer->count - 1] = descriptor;
        return true;
    case IVSHMEM_PROTOCOL_MESSAGE_DISCONNECTED:
        return client_close_vectors(client, answer->id);
    default: /* with EXTRA one came, with CLOSED perhaps, with the others none */
        return close_descriptor(&descriptor);
    }
}

/* The call gets a whole record, and so answers its message and never that more is needed. */
ssize_t client_hear(struct client *client, ivshmem_protocol_answer *answer)
{
    struct incoming message;
    const ssize_t came = receive(client->socket, &message);

    if (came != 1)
        return came;
    *answer = ivshmem_protocol_read(client->progress, client->counts, sizeof client->counts, client->configured, message.record,
                                    sizeof message.record);
    if (answer->number != IVSHMEM_PROTOCOL_ACCEPTED) {
        fprintf(stderr, "%s\n", ivshmem_protocol_number_text(answer->number));
        close_descriptor(&message.descriptor);
        return -1;
    }
    client->progress = answer->progress;
    return keep_or_close(client, answer, message.descriptor) ? 1 : -1;
}

void client_print(const ivshmem_protocol_answer *answer)
{
    printf("%s", ivshmem_protocol_message_text(answer->message));
    switch (answer->message) {
    case IVSHMEM_PROTOCOL_MESSAGE_ID:
    case IVSHMEM_PROTOCOL_MESSAGE_DISCONNECTED:
        printf(": %" PRIu32, answer->id);
        break;
    case IVSHMEM_PROTOCOL_MESSAGE_VECTOR:
    case IVSHMEM_PROTOCOL_MESSAGE_EXTRA:
        printf(": id %" PRIu32 " has %" PRIu32, answer->id, answer->count);
        break;
    }
    printf("\n");
}

/* To interrupt, the number 1 is written, 8 bytes in the machine's order. */
bool client_ring(const struct client *client, uint64_t id, uint64_t vector)
{
    const uint64_t one = 1;

    if (id >= IVSHMEM_PROTOCOL_IDS || vector >= client->counts[id])
        return false;
    return write(client->vectors[id][vector], &one, sizeof one) == (ssize_t)sizeof one || fails("ring");
}

uint64_t client_rung(const struct client *client, uint64_t vector)
{
    uint64_t rings;

    if (vector >= client->counts[client->progress.own])
        return 0;
    if (read(client->vectors[client->progress.own][vector], &rings, sizeof rings) == (ssize_t)sizeof rings)
        return rings;
    if (errno != EAGAIN)
        fails("read of a vector");
    return 0;
}

bool client_close_vectors(struct client *client, size_t id)
{
    bool done = true;

    for (size_t vector = 0; vector < IVSHMEM_PROTOCOL_MAX_VECTORS; vector++)
        done = close_descriptor(&client->vectors[id][vector]) && done;
    return done;
}

bool client_end(struct client *client)
{
    bool done = close_descriptor(&client->socket);

    done = close_descriptor(&client->memory) && done;
    for (size_t id = 0; id < IVSHMEM_PROTOCOL_IDS; id++)
        done = client_close_vectors(client, id) && done;
    return done;
}
