/* A small server for QEMU's ivshmem-doorbell and for client.c: makes the shared memory, gives each client that connects an id and
   vectors, and tells the others who comes and goes. An example, to be copied. Which message goes to whom, and in which order, is
   the library's, and is proved; the sockets, the memory and the descriptors are this file's, and are not.

       cc -Iinclude examples/c/ivshmem_server.c examples/c/descriptors.c target/staticlib/libivshmem_protocol.a -o ivshmem_server
       ./ivshmem_server [-m BYTES] [-n VECTORS] [-w MILLISECONDS] SOCKET
       qemu-system-x86_64 ... -chardev socket,path=SOCKET,id=server -device ivshmem-doorbell,chardev=server,vectors=VECTORS

   Without -m the memory has 4 MiB; it is a power of two, since it becomes a BAR. Without -n a client has one vector; it has 16 at
   most. The server prints a line for each event, and ends with SIGTERM or SIGINT. Who may connect is the matter of the file
   system: of the permissions of SOCKET and of its directory.

   - A client leaves when it closes its connection. One that sends something is disconnected: nothing is to be sent to a server.
   - Clients that do not read hold up the others' joins and leaves, and the server's end, for some time, and then no more: there
     are two seconds (-w) for all messages of a join, and as long for those of the leaves that are found together; the leaves that
     follow from these are included. Clients into whose sockets the messages have not all fitted by then are disconnected. They
     are waited for because a socket holds a few hundred messages, and the last of 64 clients with 16 vectors gets 1027 at once.
   - The system bounds the descriptors that a user's programs have sent and nobody has received by this program's limit of open
     files, unless it is privileged (ETOOMANYREFS). Clients that do not read can use all of them up, and disconnecting does not
     free those: a client frees them when it reads or ends. Until then a join disconnects whom it has a descriptor for, the new
     client and all others, though they read.
   - A 65th client is disconnected at once, without a message.
   - When the server ends, the clients get no message, and may go on with each other. */
#define _GNU_SOURCE
#include <errno.h>
#include <fcntl.h>
#include <inttypes.h>
#include <poll.h>
#include <signal.h>
#include <stdio.h>
#include <string.h>
#include <sys/eventfd.h>
#include <sys/mman.h>
#include <sys/resource.h>
#include <sys/signalfd.h>
#include <time.h>
#include <unistd.h>

#include "descriptors.h"

/* What is polled: a socket for each id, then these. */
enum { IDS = IVSHMEM_PROTOCOL_IDS, LISTENER = IDS, SIGNALS, POLLED };

/* One client's connection and vectors; NONE where the id is free. `gone` where it is to leave. */
struct connection {
    int socket;
    bool gone;
    int vectors[IVSHMEM_PROTOCOL_MAX_VECTORS];
};

struct server {
    ivshmem_protocol_server state;
    int64_t patience; /* milliseconds that there are for the messages of an event */
    int64_t deadline; /* when they are over */
    int signals;
    int listener;
    int memory;
    struct connection clients[IDS];
    uint8_t buffer[IVSHMEM_PROTOCOL_BUFFER_BYTES];
};

struct options {
    uint64_t bytes;
    uint64_t vectors;
    uint64_t patience;
    const char *path;
};

/*
 * Sending.
 */

static int64_t milliseconds(void)
{
    struct timespec time;

    clock_gettime(CLOCK_MONOTONIC, &time);
    return (int64_t)time.tv_sec * 1000 + time.tv_nsec / 1000000;
}

/* Sends a message. While the client's socket is full it waits, but not behind the deadline; also while too many descriptors have
   been sent by this user that nobody has received. */
static bool send_until(int64_t deadline, int socket, const uint8_t *bytes, int descriptor)
{
    ssize_t sent;

    while ((sent = send_bytes(socket, bytes, MESSAGE_BYTES, descriptor)) < 0 && (errno == EAGAIN || errno == ETOOMANYREFS)) {
        struct pollfd writable = {.fd = socket, .events = POLLOUT};
        const int64_t left = deadline - milliseconds();

        if (left <= 0)
            return false;
        if (errno == EAGAIN)
            poll(&writable, 1, (int)left);
        else
            poll(NULL, 0, 1);
    }
    if (sent >= 0 && sent < MESSAGE_BYTES)
        errno = EIO;
    return sent == MESSAGE_BYTES;
}

/* The descriptor that goes with a message: none, the memory, or a vector of the client that the message names. */
static int descriptor_for(const struct server *server, const ivshmem_protocol_sent *sent, size_t vector)
{
    if (sent->kind == 0)
        return NONE;
    return sent->number == -1 ? server->memory : server->clients[sent->number].vectors[vector];
}

/* Sends the messages in the buffer, in order. A client that one cannot be sent to is gone, and gets none of the others. */
static void send_messages(struct server *server, size_t messages)
{
    ivshmem_protocol_sent last = {0, 0, 0};
    size_t vector = 0;

    for (size_t place = 0; place < messages; place++) {
        const ivshmem_protocol_sent sent = ivshmem_protocol_sent_at(server->buffer, place);
        struct connection *client = &server->clients[sent.client];

        /* The messages about one client's vectors stand together, vector 0 first. */
        vector = sent.client == last.client && sent.kind == last.kind && sent.number == last.number ? vector + 1 : 0;
        last = sent;
        if (client->gone)
            continue;
        if (!send_until(server->deadline, client->socket, ivshmem_protocol_sent_record(server->buffer, place) + 1,
                        descriptor_for(server, &sent, vector))) {
            client->gone = true;
            printf("client %" PRIu32 " cannot be told: %s\n", sent.client,
                   errno == EAGAIN ? "it does not read" : strerror(errno));
        }
    }
}

/*
 * Clients that come and go.
 */

static bool close_vectors(struct connection *client)
{
    bool done = true;

    for (size_t vector = 0; vector < IVSHMEM_PROTOCOL_MAX_VECTORS; vector++)
        done = close_descriptor(&client->vectors[vector]) && done;
    return done;
}

static bool make_vectors(struct connection *client, uint64_t vectors)
{
    for (size_t vector = 0; vector < vectors; vector++) {
        client->vectors[vector] = eventfd(0, EFD_CLOEXEC | EFD_NONBLOCK);
        if (client->vectors[vector] < 0) {
            fails("eventfd");
            close_vectors(client);
            return false;
        }
    }
    return true;
}

/* A client has connected. It gets an id, or is refused; where there are no descriptors for it, its join has not been. */
static bool admit(struct server *server, int socket)
{
    const ivshmem_protocol_served served = ivshmem_protocol_join(server->state, server->buffer, sizeof server->buffer);
    struct connection *client = &server->clients[served.id];

    if (served.number != IVSHMEM_PROTOCOL_ACCEPTED) {
        printf("a client is refused: %s\n", ivshmem_protocol_server_number_text(served.number));
        return close_descriptor(&socket);
    }
    if (!make_vectors(client, server->state.vectors)) {
        printf("a client is refused: there are no descriptors for its vectors\n");
        return close_descriptor(&socket);
    }
    server->state = served.server;
    client->socket = socket;
    client->gone = false;
    printf("client %" PRIu32 " has joined, messages: %zu\n", served.id, served.messages);
    send_messages(server, served.messages);
    return true;
}

/* One client of those who have connected. Where the system lacks what it takes they wait, and it is soon tried again. */
static bool accept_client(struct server *server)
{
    const int socket = accept4(server->listener, NULL, NULL, SOCK_CLOEXEC | SOCK_NONBLOCK);

    if (socket >= 0)
        return admit(server, socket);
    if (errno == EAGAIN || errno == EINTR || errno == ECONNABORTED)
        return true;
    if (errno != EMFILE && errno != ENFILE && errno != ENOBUFS && errno != ENOMEM)
        return fails("accept");
    printf("a client has to wait: %s\n", strerror(errno));
    poll(NULL, 0, 100);
    return true;
}

static bool dismiss(struct server *server, uint32_t id)
{
    struct connection *client = &server->clients[id];
    const ivshmem_protocol_served served = ivshmem_protocol_leave(server->state, id, server->buffer, sizeof server->buffer);

    if (served.number != IVSHMEM_PROTOCOL_ACCEPTED) {
        fprintf(stderr, "%s\n", ivshmem_protocol_server_number_text(served.number));
        return false;
    }
    server->state = served.server;
    client->gone = false;
    printf("client %" PRIu32 " has left, messages: %zu\n", id, served.messages);
    send_messages(server, served.messages);
    return close_descriptor(&client->socket) && close_vectors(client);
}

/* Those who are gone leave, the lowest first. While one leaves, another may turn out to be gone. */
static bool dismiss_gone(struct server *server)
{
    for (uint32_t id = 0; id < IDS;) {
        if (!server->clients[id].gone)
            id++;
        else if (dismiss(server, id))
            id = 0;
        else
            return false;
    }
    return true;
}

/* Polls everything; who has closed the connection or sent something is gone. Nothing is polled where the descriptor is NONE. */
static bool look(struct server *server, struct pollfd *polled, int timeout)
{
    for (size_t id = 0; id < IDS; id++)
        polled[id] = (struct pollfd){.fd = server->clients[id].socket, .events = POLLIN};
    polled[LISTENER] = (struct pollfd){.fd = server->listener, .events = POLLIN};
    polled[SIGNALS] = (struct pollfd){.fd = server->signals, .events = POLLIN};
    if (poll(polled, POLLED, timeout) < 0 && errno != EINTR)
        return fails("poll");
    for (size_t id = 0; id < IDS; id++)
        server->clients[id].gone = polled[id].revents != 0;
    return true;
}

/* The messages of an event, and of the leaves that follow from it, have one deadline: many clients that do not read cost no more
   time than one. */
static void begin_event(struct server *server)
{
    server->deadline = milliseconds() + server->patience;
}

/* Until a signal comes. Where a client has connected, the others are looked at once more: poll looks at one descriptor after the
   other, and one that had closed its connection before may have been missed. Its id is to be free. */
static bool serve(struct server *server)
{
    struct pollfd polled[POLLED];

    while (look(server, polled, -1)) {
        if (polled[SIGNALS].revents != 0)
            return true;
        if (polled[LISTENER].revents != 0 && !look(server, polled, 0))
            return false;
        begin_event(server);
        if (!dismiss_gone(server))
            return false;
        begin_event(server);
        if (polled[LISTENER].revents != 0 && !(accept_client(server) && dismiss_gone(server)))
            return false;
    }
    return false;
}

/*
 * The start and the end.
 */

/* A socket and the vectors for each id, and some others. The limit that a program starts with is often 1024; it bounds the
   descriptors under way, too. Where it cannot be raised, it may be enough as it is. */
static bool raise_limit(uint64_t vectors)
{
    const rlim_t needed = IDS * (1 + vectors) + 16;
    struct rlimit limit, raised;

    if (getrlimit(RLIMIT_NOFILE, &limit) != 0)
        return fails("getrlimit");
    raised = (struct rlimit){limit.rlim_max, limit.rlim_max};
    if (setrlimit(RLIMIT_NOFILE, &raised) == 0)
        limit = raised;
    if (limit.rlim_cur >= needed)
        return true;
    fprintf(stderr, "%ju descriptors are needed, and the limit is %ju\n", (uintmax_t)needed, (uintmax_t)limit.rlim_cur);
    return false;
}

/* SIGTERM and SIGINT come as something to read; what is printed to a pipe that nobody reads does not end the server. */
static bool take_signals(struct server *server)
{
    sigset_t ends, blocked;

    sigemptyset(&ends);
    sigaddset(&ends, SIGTERM);
    sigaddset(&ends, SIGINT);
    blocked = ends;
    sigaddset(&blocked, SIGPIPE);
    if (sigprocmask(SIG_BLOCK, &blocked, NULL) != 0)
        return fails("sigprocmask");
    server->signals = signalfd(-1, &ends, SFD_CLOEXEC);
    return server->signals >= 0 || fails("signalfd");
}

/* Shared memory whose size no client can change: another's access would fail then. */
static bool make_memory(struct server *server, uint64_t bytes)
{
    server->memory = memfd_create("ivshmem", MFD_CLOEXEC | MFD_ALLOW_SEALING);
    if (server->memory < 0)
        return fails("memfd_create");
    if (ftruncate(server->memory, (off_t)bytes) != 0)
        return fails("ftruncate");
    return fcntl(server->memory, F_ADD_SEALS, F_SEAL_SHRINK | F_SEAL_GROW | F_SEAL_SEAL) == 0 || fails("seals of the memory");
}

/* Listens at the path, where nothing may be yet. A socket that cannot be listened at is removed again. */
static bool listen_at(struct server *server, const char *path)
{
    struct sockaddr_un address;
    int listener;

    if (!socket_address(&address, path))
        return false;
    listener = socket(AF_UNIX, SOCK_STREAM | SOCK_CLOEXEC | SOCK_NONBLOCK, 0);
    if (listener < 0)
        return fails("socket");
    if (bind(listener, (const struct sockaddr *)&address, sizeof address) != 0) {
        fails(path);
        close_descriptor(&listener);
        return false;
    }
    server->listener = listener;
    return listen(listener, SOMAXCONN) == 0 || fails("listen");
}

static bool set_up(struct server *server, const struct options *options)
{
    const ivshmem_protocol_started started = ivshmem_protocol_start(options->vectors);

    *server = (struct server){.state = started.server, .patience = (int64_t)options->patience,
                              .signals = NONE, .listener = NONE, .memory = NONE};
    for (size_t id = 0; id < IDS; id++) {
        server->clients[id].socket = NONE;
        for (size_t vector = 0; vector < IVSHMEM_PROTOCOL_MAX_VECTORS; vector++)
            server->clients[id].vectors[vector] = NONE;
    }
    if (started.number != IVSHMEM_PROTOCOL_ACCEPTED) {
        fprintf(stderr, "%s\n", ivshmem_protocol_server_number_text(started.number));
        return false;
    }
    return raise_limit(options->vectors) && take_signals(server) && make_memory(server, options->bytes)
        && listen_at(server, options->path);
}

/* Closes everything, and removes the socket where it is this server's. */
static bool tear_down(struct server *server, const struct options *options)
{
    bool done = server->listener == NONE || unlink(options->path) == 0 || fails(options->path);

    done = close_descriptor(&server->listener) && done;
    done = close_descriptor(&server->signals) && done;
    done = close_descriptor(&server->memory) && done;
    for (size_t id = 0; id < IDS; id++) {
        done = close_descriptor(&server->clients[id].socket) && done;
        done = close_vectors(&server->clients[id]) && done;
    }
    return done;
}

static bool read_options(int argc, char **argv, struct options *options)
{
    int option;

    while ((option = getopt(argc, argv, "m:n:w:")) != -1)
        if (option == '?' || !read_number(optarg, option == 'm' ? &options->bytes
                                                : option == 'n' ? &options->vectors : &options->patience))
            return false;
    options->path = argv[optind];
    return optind + 1 == argc;
}

static bool are_good(const struct options *options)
{
    if (options->bytes < 4096 || options->bytes > INT64_MAX || (options->bytes & (options->bytes - 1)) != 0)
        fprintf(stderr, "-m: the bytes of the memory are a power of two, 4096 or more\n");
    else if (options->patience > INT32_MAX)
        fprintf(stderr, "-w: so many milliseconds are too many\n");
    else
        return true;
    return false;
}

int main(int argc, char **argv)
{
    static struct server server;
    struct options options = {.bytes = 4 << 20, .vectors = 1, .patience = 2000};
    bool done;

    if (!read_options(argc, argv, &options)) {
        fprintf(stderr, "ivshmem_server [-m BYTES] [-n VECTORS] [-w MILLISECONDS] SOCKET\n");
        return 2;
    }
    if (!are_good(&options))
        return 2;
    setvbuf(stdout, NULL, _IOLBF, 0);
    done = set_up(&server, &options);
    if (done) {
        printf("listening at %s, bytes of shared memory: %" PRIu64 ", vectors of each client: %" PRIu64 "\n", options.path,
               options.bytes, options.vectors);
        done = serve(&server);
        printf("the server ends\n");
    }
    return tear_down(&server, &options) && done ? 0 : 1;
}
