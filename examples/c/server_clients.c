/* Clients of a real server, over client.c, which hold it to what it should send: the start of a client, joins and leaves as the
   others hear them, the shared memory, interrupts in both directions, a freed id, all ids taken, a server that can open nothing
   for a moment, a client that does not read, one that sends something, and the server's end. Every wait ends after some seconds.
   Prints what is not so. examples/c/real_server starts the server for it:

       server_clients SOCKET BYTES VECTORS PROCESS

   the bytes and vectors being those of the server, and PROCESS the one to end it by, with SIGTERM. */
#define _GNU_SOURCE
#include <inttypes.h>
#include <signal.h>
#include <stdio.h>
#include <stdlib.h>
#include <string.h>
#include <sys/mman.h>
#include <sys/resource.h>
#include <sys/stat.h>
#include <sys/time.h>
#include <unistd.h>

#include "client.h"

enum { IDS = IVSHMEM_PROTOCOL_IDS, WAIT = 20, ALL = 120 /* seconds */ };

static const char *path;
static uint64_t bytes, vectors;
static pid_t process; /* the server */
static bool joined[IDS]; /* who is there */
static bool keeps = true; /* whether clients keep the vectors; those of many clients are too many descriptors for one program */

static bool holds(bool fact, const char *what)
{
    if (!fact)
        printf("%s\n", what);
    return fact;
}

/*
 * What a client hears.
 */

static bool hears(struct client *client, uint32_t message, uint32_t id, uint32_t count)
{
    ivshmem_protocol_answer answer;
    const ssize_t came = client_hear(client, &answer);

    if (came == 1 && answer.message == message && answer.id == id && answer.count == count)
        return true;
    printf("client %" PRIu32 " does not hear '%s' of id %" PRIu32 ", count %" PRIu32, client->progress.own,
           ivshmem_protocol_message_text(message), id, count);
    if (came == 1)
        printf(", but '%s' of id %" PRIu32 ", count %" PRIu32, ivshmem_protocol_message_text(answer.message), answer.id,
               answer.count);
    printf("\n");
    return false;
}

static bool hears_vectors(struct client *client, uint32_t id)
{
    for (uint32_t count = 1; count <= vectors; count++)
        if (!hears(client, IVSHMEM_PROTOCOL_MESSAGE_VECTOR, id, count))
            return false;
    return keeps || client_close_vectors(client, id);
}

static bool hears_leave(struct client *client, uint32_t id)
{
    return hears(client, IVSHMEM_PROTOCOL_MESSAGE_DISCONNECTED, id, 0);
}

static bool hears_end(struct client *client)
{
    ivshmem_protocol_answer answer;

    return holds(client_hear(client, &answer) == 0, "the connection is not closed");
}

static bool connects(struct client *client)
{
    const struct timeval wait = {.tv_sec = WAIT};

    if (!client_connect(client, path, vectors))
        return false;
    return setsockopt(client->socket, SOL_SOCKET, SO_RCVTIMEO, &wait, sizeof wait) == 0 || fails("setsockopt");
}

/* A client comes, gets this id, and hears who is there. */
static bool comes(struct client *client, uint32_t id)
{
    if (!connects(client) || !hears(client, IVSHMEM_PROTOCOL_MESSAGE_VERSION, 0, 0)
        || !hears(client, IVSHMEM_PROTOCOL_MESSAGE_ID, id, 0) || !hears(client, IVSHMEM_PROTOCOL_MESSAGE_MEMORY, 0, 0))
        return false;
    for (uint32_t other = 0; other < IDS; other++)
        if (joined[other] && !hears_vectors(client, other))
            return false;
    joined[id] = true;
    return hears_vectors(client, id);
}

static bool goes(struct client *client)
{
    joined[client->progress.own] = false;
    return client_end(client);
}

/*
 * Memory and interrupts.
 */

static uint8_t *mapped(const struct client *client)
{
    struct stat status;
    void *memory;

    if (fstat(client->memory, &status) != 0 || !holds((uint64_t)status.st_size == bytes, "the memory has another size"))
        return NULL;
    memory = mmap(NULL, (size_t)bytes, PROT_READ | PROT_WRITE, MAP_SHARED, client->memory, 0);
    return memory == MAP_FAILED ? NULL : memory;
}

/* What one stores, the other loads, at the memory's first and last byte. Its size is not theirs to change. */
static bool share(const struct client *one, const struct client *other)
{
    uint8_t *first = mapped(one), *second = mapped(other);
    bool done = holds(first != NULL && second != NULL, "the memory cannot be mapped");

    if (done) {
        done = holds(first[0] == 0 && second[bytes - 1] == 0, "the memory is not zero at first") && done;
        first[0] = 0x5A;
        second[bytes - 1] = 0xC3;
        done = holds(second[0] == 0x5A && first[bytes - 1] == 0xC3, "the memory is not shared") && done;
        first[0] = second[bytes - 1] = 0;
        done = holds(ftruncate(one->memory, 0) != 0, "a client can take the memory away") && done;
    }
    if (first != NULL)
        munmap(first, (size_t)bytes);
    if (second != NULL)
        munmap(second, (size_t)bytes);
    return done;
}

/* Each vector of the target, rung by the source, is rung once, and no other is. */
static bool rings(const struct client *source, const struct client *target)
{
    for (uint64_t vector = 0; vector < vectors; vector++) {
        if (!client_ring(source, target->progress.own, vector))
            return holds(false, "a vector cannot be rung");
        for (uint64_t other = 0; other < vectors; other++)
            if (!holds(client_rung(target, other) == (other == vector), "an interrupt is lost, or goes elsewhere"))
                return false;
    }
    return true;
}

/*
 * The scenes. Each begins and ends with no client.
 */

/* Two clients; the second leaves, and a third gets its id and vectors of its own. */
static bool come_and_go(void)
{
    struct client first, second, third;
    uint64_t one = 1;
    int old;

    if (!comes(&first, 0) || !comes(&second, 1) || !hears_vectors(&first, 1) || !share(&first, &second)
        || !rings(&first, &second) || !rings(&second, &first))
        return false;
    old = dup(first.vectors[1][0]);
    if (!goes(&second) || !hears_leave(&first, 1) || !holds(!client_ring(&first, 1, 0), "one that has left is rung"))
        return false;
    if (!comes(&third, 1) || !hears_vectors(&first, 1) || !share(&third, &first) || !rings(&first, &third)
        || !rings(&third, &first))
        return false;
    if (!holds(write(old, &one, sizeof one) == sizeof one && client_rung(&third, 0) == 0, "a freed vector is given again"))
        return false;
    return close_descriptor(&old) && goes(&first) && hears_leave(&third, 0) && goes(&third);
}

/* A client comes, and all others hear so. */
static bool comes_to_all(struct client *clients, uint32_t id)
{
    if (!comes(&clients[id], id))
        return false;
    for (uint32_t other = 0; other < IDS; other++)
        if (other != id && joined[other] && !hears_vectors(&clients[other], id))
            return false;
    return true;
}

static bool leaves_all(struct client *clients, uint32_t id)
{
    if (!goes(&clients[id]))
        return false;
    for (uint32_t other = 0; other < IDS; other++)
        if (joined[other] && !hears_leave(&clients[other], id))
            return false;
    return true;
}

/* Connects while the server, which has all ids taken, can open nothing more for a moment. It cannot be held to less than what it
   polls. */
static bool connects_early(struct client *client)
{
    struct rlimit usual, low;
    bool done;

    if (prlimit(process, RLIMIT_NOFILE, NULL, &usual) != 0)
        return fails("prlimit");
    low = (struct rlimit){IDS + 2, usual.rlim_max};
    if (prlimit(process, RLIMIT_NOFILE, &low, NULL) != 0)
        return fails("prlimit");
    done = connects(client) && usleep(300000) == 0;
    return (prlimit(process, RLIMIT_NOFILE, &usual, NULL) == 0 || fails("prlimit")) && done;
}

/* All ids are taken, and one client more is refused; three ids are freed and taken again, the lowest first; all leave. */
static bool take_all_ids(void)
{
    static struct client clients[IDS];
    struct client more;

    keeps = false;
    for (uint32_t id = 0; id < IDS; id++)
        if (!comes_to_all(clients, id))
            return false;
    if (!connects_early(&more) || !hears_end(&more) || !client_end(&more))
        return false;
    if (!leaves_all(clients, 3) || !leaves_all(clients, 40) || !leaves_all(clients, 1) || !comes_to_all(clients, 1)
        || !comes_to_all(clients, 3) || !comes_to_all(clients, 40))
        return false;
    for (uint32_t id = 0; id < IDS; id++)
        if (!leaves_all(clients, (id + 20) % IDS))
            return false;
    keeps = true;
    return true;
}

/* Hears all up to this message, and no close. Says whether the peer `gone` has left meanwhile. */
static bool hears_up_to(struct client *client, uint32_t message, uint32_t id, uint32_t count, uint32_t gone, bool *has_left)
{
    ivshmem_protocol_answer answer;

    do {
        if (client_hear(client, &answer) != 1 || answer.message == IVSHMEM_PROTOCOL_MESSAGE_CLOSED)
            return holds(false, "a client is not told what it should be");
        if (answer.message == IVSHMEM_PROTOCOL_MESSAGE_DISCONNECTED && answer.id == gone)
            *has_left = true;
    } while (answer.message != message || answer.id != id || answer.count != count);
    return true;
}

/* Another client comes and goes, and the one that watches hears both. Its id is 2, or 1 where that has left. */
static bool pass_by(struct client *watcher, bool *has_left)
{
    struct client passer;
    ivshmem_protocol_answer answer;
    uint32_t id;
    bool ignored;

    if (!connects(&passer) || !hears(&passer, IVSHMEM_PROTOCOL_MESSAGE_VERSION, 0, 0) || client_hear(&passer, &answer) != 1)
        return false;
    id = answer.id;
    return hears_up_to(&passer, IVSHMEM_PROTOCOL_MESSAGE_VECTOR, id, (uint32_t)vectors, IDS, &ignored)
        && hears_up_to(watcher, IVSHMEM_PROTOCOL_MESSAGE_VECTOR, id, (uint32_t)vectors, 1, has_left) && client_end(&passer)
        && hears_up_to(watcher, IVSHMEM_PROTOCOL_MESSAGE_DISCONNECTED, id, 0, 1, has_left);
}

/* A client that does not read is disconnected in the end, and the others go on. What it then reads is in order up to there. */
static bool do_not_read(void)
{
    struct client watcher, stuck;
    ivshmem_protocol_answer answer;
    bool has_left = false;
    ssize_t came;

    if (!comes(&watcher, 0) || !connects(&stuck) || !hears_vectors(&watcher, 1))
        return false;
    for (unsigned passers = 0; !has_left; passers++)
        if (!holds(passers < 10000, "a client that does not read stays") || !pass_by(&watcher, &has_left))
            return false;
    while ((came = client_hear(&stuck, &answer)) == 1)
        if (answer.message == IVSHMEM_PROTOCOL_MESSAGE_CLOSED || answer.message == IVSHMEM_PROTOCOL_MESSAGE_EXTRA)
            return holds(false, "a client that reads late is told something else");
    return holds(came == 0, "a client that does not read is not disconnected") && client_end(&stuck) && goes(&watcher);
}

/* A client that sends something is disconnected. */
static bool send_something(void)
{
    struct client watcher, sender;

    if (!comes(&watcher, 0) || !comes(&sender, 1) || !hears_vectors(&watcher, 1))
        return false;
    if (write(sender.socket, "?", 1) != 1)
        return fails("write");
    if (!hears_leave(&watcher, 1))
        return false;
    joined[1] = false;
    return client_end(&sender) && goes(&watcher);
}

/* The server ends; the client's connection is closed, and its vectors and memory are there still. */
static bool end_server(void)
{
    struct client one, other;
    bool done = comes(&one, 0) && comes(&other, 1) && hears_vectors(&one, 1);

    if (kill(process, SIGTERM) != 0)
        return fails("kill");
    done = done && hears_end(&one) && hears_end(&other) && rings(&one, &other) && share(&other, &one);
    return done && goes(&one) && goes(&other);
}

int main(int argc, char **argv)
{
    if (argc != 5) {
        fprintf(stderr, "server_clients SOCKET BYTES VECTORS PROCESS\n");
        return 2;
    }
    alarm(ALL);
    path = argv[1];
    bytes = strtoull(argv[2], NULL, 10);
    vectors = strtoull(argv[3], NULL, 10);
    process = (pid_t)atol(argv[4]);
    return come_and_go() && take_all_ids() && do_not_read() && send_something() && end_server() ? 0 : 1;
}
