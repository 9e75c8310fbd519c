/* A client of an ivshmem server: connects, hands each message to the library as a record, and keeps or closes the descriptor that
   came with it as the answer says. To be copied or linked: client.c and descriptors.c, with their headers. For Linux, in C11;
   this file may also be included from C++. server_messages.c, ivshmem_client.c and server_clients.c use it. */
#ifndef CLIENT_H
#define CLIENT_H

#include "descriptors.h"

#ifdef __cplusplus
extern "C" {
#endif

/* What a client keeps of one connection. A descriptor that it does not have is NONE. */
struct client {
    int socket;
    uint64_t configured; /* the vectors that it is configured with, 1 to IVSHMEM_PROTOCOL_MAX_VECTORS */
    ivshmem_protocol_progress progress;
    uint8_t counts[IVSHMEM_PROTOCOL_IDS];
    int memory;
    int vectors[IVSHMEM_PROTOCOL_IDS][IVSHMEM_PROTOCOL_MAX_VECTORS];
};

/* A client at the start: nothing is read, and nothing kept. The socket is the client's from now on. */
void client_start(struct client *client, int socket, uint64_t configured);

/* Connects a client to the server at this path. */
bool client_connect(struct client *client, const char *path, uint64_t configured);

/* Waits for one message and does what it says. Gives 1 with the library's answer, 0 where the server has closed the connection,
   and -1 where something fails, which it says. After IVSHMEM_PROTOCOL_MESSAGE_CLOSED the connection is to be ended. */
ssize_t client_hear(struct client *client, ivshmem_protocol_answer *answer);

/* Prints the message of an answer, as a line. */
void client_print(const ivshmem_protocol_answer *answer);

/* Interrupts the peer: rings this vector of it. Gives false where it has no such vector, or where it fails, which it says. */
bool client_ring(const struct client *client, uint64_t id, uint64_t vector);

/* How often this vector of the client's own was rung since this was last asked; 0 too where it has no such vector. Does not wait
   where the server's vectors do not (EFD_NONBLOCK). */
uint64_t client_rung(const struct client *client, uint64_t vector);

/* Closes the vectors that are kept of an id. */
bool client_close_vectors(struct client *client, size_t id);

/* Closes the connection and all that is kept. */
bool client_end(struct client *client);

#ifdef __cplusplus
}
#endif

#endif
