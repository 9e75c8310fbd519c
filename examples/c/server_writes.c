/* The server's side of the library, held to its rules from C: starts, joins up to the last id and beyond, holes that are filled
   again, leaves, and each refusal. Answers are compared whole, and so is the buffer with the bytes behind the messages and around
   it. What is expected is worked out here, in plain form, an entry for each id. Then histories in which a reader for each client
   gets what is sent to it, and has to know who is there. Prints what is not so.

       cc -Iinclude examples/c/server_writes.c target/staticlib/libivshmem_protocol.a -o server_writes && ./server_writes */
#include <stdbool.h>
#include <stdio.h>
#include <string.h>

#include "ivshmem_protocol.h"

enum { IDS = IVSHMEM_PROTOCOL_IDS, SENT = IVSHMEM_PROTOCOL_SENT_BYTES, RECORD = IVSHMEM_PROTOCOL_RECORD_BYTES };
enum { BUFFER = IVSHMEM_PROTOCOL_BUFFER_BYTES, AROUND = 16, ROOM = AROUND + BUFFER + AROUND, UNTOUCHED = 0xA5 };
enum { WITHOUT = 0, WITH = 1 };

#define COUNT(list) (sizeof(list) / sizeof *(list))

/* The buffer with bytes around it that no call may touch, as a call leaves it and as it should. */
static uint8_t room[ROOM], expected[ROOM];
static size_t added;

static const uint64_t vector_numbers[] = {1, 2, 3, IVSHMEM_PROTOCOL_MAX_VECTORS};
static const uint64_t bad_vectors[] = {0, 17, 255, 256 + 1, ((uint64_t)1 << 32) + 1, (uint64_t)1 << 63, UINT64_MAX};

/* A server in plain form. */
struct model {
    bool joined[IDS];
    uint64_t vectors;
};

static ivshmem_protocol_server in_numbers(const struct model *model)
{
    ivshmem_protocol_server server = {.vectors = model->vectors};

    for (unsigned id = 0; id < IDS; id++)
        if (model->joined[id])
            server.joined += (uint64_t)1 << id;
    return server;
}

static struct model with_joined(uint64_t joined, uint64_t vectors)
{
    struct model model = {.vectors = vectors};

    for (unsigned id = 0; id < IDS; id++)
        model.joined[id] = joined >> id & 1;
    return model;
}

/*
 * What is expected.
 */

static void expect_nothing(void)
{
    memset(room, UNTOUCHED, ROOM);
    memset(expected, UNTOUCHED, ROOM);
    added = 0;
}

static void add(uint32_t client, uint8_t kind, int64_t number)
{
    uint8_t *message = expected + AROUND + SENT * added;

    message[0] = (uint8_t)client;
    message[1] = kind;
    for (unsigned i = 0; i < 8; i++)
        message[2 + i] = (uint8_t)((uint64_t)number >> (8 * i));
    added++;
}

static void add_vectors(const struct model *model, uint32_t client, uint32_t of)
{
    for (uint64_t vector = 0; vector < model->vectors; vector++)
        add(client, WITH, of);
}

static uint32_t lowest_free(const struct model *model)
{
    uint32_t id = 0;

    while (model->joined[id])
        id++;
    return id;
}

static void add_join(const struct model *model, uint32_t id)
{
    add(id, WITHOUT, 0);
    add(id, WITHOUT, id);
    add(id, WITH, -1);
    for (uint32_t other = 0; other < IDS; other++)
        if (model->joined[other])
            add_vectors(model, id, other);
    add_vectors(model, id, id);
    for (uint32_t other = 0; other < IDS; other++)
        if (model->joined[other])
            add_vectors(model, other, id);
}

static void add_leave(const struct model *model, uint32_t id)
{
    for (uint32_t other = 0; other < IDS; other++)
        if (model->joined[other] && other != id)
            add(other, WITHOUT, id);
}

/*
 * Calls. What comes back, and the whole room, have to be those expected.
 */

static bool same_server(ivshmem_protocol_server one, ivshmem_protocol_server other)
{
    return one.joined == other.joined && one.vectors == other.vectors;
}

static int compare(const char *what, ivshmem_protocol_served answer, ivshmem_protocol_served wanted)
{
    const bool bad_answer = answer.number != wanted.number || answer.id != wanted.id || answer.messages != wanted.messages
                            || !same_server(answer.server, wanted.server);
    const bool bad_room = memcmp(room, expected, ROOM) != 0;

    if (bad_answer)
        printf("%s: '%s' and not '%s', id %u (%u), %zu messages (%zu), joined %llx (%llx), %llu vectors\n", what,
               ivshmem_protocol_server_number_text(answer.number), ivshmem_protocol_server_number_text(wanted.number),
               (unsigned)answer.id, (unsigned)wanted.id, answer.messages, wanted.messages,
               (unsigned long long)answer.server.joined, (unsigned long long)wanted.server.joined,
               (unsigned long long)answer.server.vectors);
    if (bad_room)
        printf("%s: wrong messages, or bytes behind or beside them written\n", what);
    return bad_answer || bad_room;
}

/* A join that is accepted, or refused with this number. */
static int join(const char *what, struct model *model, size_t length, uint32_t number)
{
    const ivshmem_protocol_server before = in_numbers(model);
    ivshmem_protocol_served wanted = {.number = number, .server = before};

    expect_nothing();
    if (number == IVSHMEM_PROTOCOL_ACCEPTED) {
        wanted.id = lowest_free(model);
        add_join(model, wanted.id);
        model->joined[wanted.id] = true;
        wanted.server = in_numbers(model);
    }
    wanted.messages = added;
    return compare(what, ivshmem_protocol_join(before, room + AROUND, length), wanted);
}

/* The same of a leave. */
static int leave(const char *what, struct model *model, uint64_t id, size_t length, uint32_t number)
{
    const ivshmem_protocol_server before = in_numbers(model);
    ivshmem_protocol_served wanted = {.number = number, .server = before};

    expect_nothing();
    if (number == IVSHMEM_PROTOCOL_ACCEPTED) {
        wanted.id = (uint32_t)id;
        add_leave(model, wanted.id);
        model->joined[id] = false;
        wanted.server = in_numbers(model);
    }
    wanted.messages = added;
    return compare(what, ivshmem_protocol_leave(before, id, room + AROUND, length), wanted);
}

static int wrong(const char *what, uint64_t number, uint64_t wanted)
{
    if (number == wanted)
        return 0;
    printf("%s: %llu and not %llu\n", what, (unsigned long long)number, (unsigned long long)wanted);
    return 1;
}

static int joins(const char *what, struct model *model, uint32_t id)
{
    return wrong(what, lowest_free(model), id) + join(what, model, BUFFER, IVSHMEM_PROTOCOL_ACCEPTED);
}

static int leaves(const char *what, struct model *model, uint32_t id)
{
    return leave(what, model, id, BUFFER, IVSHMEM_PROTOCOL_ACCEPTED);
}

/*
 * The cases.
 */

static int starts(void)
{
    int faults = 0;

    for (uint64_t vectors = 1; vectors <= IVSHMEM_PROTOCOL_MAX_VECTORS; vectors++) {
        const ivshmem_protocol_started started = ivshmem_protocol_start(vectors);

        faults += wrong("a start", started.number, IVSHMEM_PROTOCOL_ACCEPTED);
        faults += wrong("a start's clients", started.server.joined, 0);
        faults += wrong("a start's vectors", started.server.vectors, vectors);
    }
    for (size_t i = 0; i < COUNT(bad_vectors); i++) {
        const ivshmem_protocol_started started = ivshmem_protocol_start(bad_vectors[i]);
        struct model model = with_joined(started.server.joined, started.server.vectors);

        faults += wrong("a start with bad vectors", started.number, IVSHMEM_PROTOCOL_BAD_VECTORS);
        faults += wrong("a refused start's clients", started.server.joined, 0);
        faults += wrong("a refused start's vectors", started.server.vectors, 0);
        faults += join("a join after it", &model, BUFFER, IVSHMEM_PROTOCOL_BAD_SERVER);
        faults += leave("a leave after it", &model, 0, BUFFER, IVSHMEM_PROTOCOL_BAD_SERVER);
    }
    return faults;
}

/* The first join with one vector, byte by byte. */
static int first_bytes(void)
{
    static const uint8_t bytes[] = {
        0, 0, 0,    0,    0,    0,    0,    0,    0,    0,    /* the version */
        0, 0, 0,    0,    0,    0,    0,    0,    0,    0,    /* the id */
        0, 1, 0xff, 0xff, 0xff, 0xff, 0xff, 0xff, 0xff, 0xff, /* the memory */
        0, 1, 0,    0,    0,    0,    0,    0,    0,    0,    /* its vector */
    };
    const ivshmem_protocol_served wanted = {.messages = 4, .server = {.joined = 1, .vectors = 1}};

    expect_nothing();
    memcpy(expected + AROUND, bytes, sizeof bytes);
    return compare("the first join", ivshmem_protocol_join(ivshmem_protocol_start(1).server, room + AROUND, BUFFER), wanted);
}

struct row {
    uint32_t client;
    uint8_t kind;
    int64_t number;
};

/* The messages of one call, row by row, of a server with two vectors; the header's helpers say the same of them. */
static int is_rows(const char *what, ivshmem_protocol_served answer, const struct row *rows, ivshmem_protocol_served wanted)
{
    int faults = 0;

    for (size_t i = 0; i < wanted.messages; i++)
        add(rows[i].client, rows[i].kind, rows[i].number);
    faults += compare(what, answer, wanted);
    for (size_t i = 0; i < wanted.messages; i++) {
        const ivshmem_protocol_sent sent = ivshmem_protocol_sent_at(room + AROUND, i);

        faults += wrong("a message's client", sent.client, rows[i].client);
        faults += wrong("a message's kind", sent.kind, rows[i].kind);
        faults += wrong("a message's number", (uint64_t)sent.number, (uint64_t)rows[i].number);
        faults += memcmp(ivshmem_protocol_sent_record(room + AROUND, i), expected + AROUND + SENT * i + 1, RECORD) != 0;
    }
    return faults;
}

/* Clients 0 and 2 are there; another joins, as 1, and then 0 leaves. */
static int worked_case(void)
{
    static const struct row joined[] = {
        {1, WITHOUT, 0}, {1, WITHOUT, 1}, {1, WITH, -1},
        {1, WITH, 0}, {1, WITH, 0}, {1, WITH, 2}, {1, WITH, 2}, {1, WITH, 1}, {1, WITH, 1},
        {0, WITH, 1}, {0, WITH, 1}, {2, WITH, 1}, {2, WITH, 1},
    };
    static const struct row left[] = {{1, WITHOUT, 0}, {2, WITHOUT, 0}};
    const ivshmem_protocol_server before = {.joined = 5, .vectors = 2}, between = {.joined = 7, .vectors = 2};
    int faults = 0;

    expect_nothing();
    faults += is_rows("the join of 1", ivshmem_protocol_join(before, room + AROUND, BUFFER), joined,
                      (ivshmem_protocol_served){.id = 1, .messages = COUNT(joined), .server = between});
    expect_nothing();
    faults += is_rows("the leave of 0", ivshmem_protocol_leave(between, 0, room + AROUND, BUFFER), left,
                      (ivshmem_protocol_served){.messages = COUNT(left), .server = {.joined = 6, .vectors = 2}});
    return faults;
}

/* All ids are taken one by one, and one more client comes; holes are filled from below; then all leave. */
static int fill_and_empty(uint64_t vectors)
{
    struct model model = {.vectors = vectors};
    int faults = 0;

    for (uint32_t id = 0; id < IDS; id++)
        faults += joins("a join", &model, id);
    faults += wrong("the last join's messages", added, 3 + 127 * vectors);
    faults += join("one client too many", &model, BUFFER, IVSHMEM_PROTOCOL_FULL);
    faults += leaves("3 leaves", &model, 3);
    faults += leaves("1 leaves", &model, 1);
    faults += leave("3 leaves again", &model, 3, BUFFER, IVSHMEM_PROTOCOL_NOT_JOINED);
    faults += joins("the lowest hole", &model, 1);
    faults += joins("the next hole", &model, 3);
    faults += join("no hole", &model, BUFFER, IVSHMEM_PROTOCOL_FULL);
    for (uint32_t id = 0; id < IDS; id++) {
        faults += leaves("each leaves a full server", &model, id);
        faults += joins("each comes again", &model, id);
    }
    for (uint32_t id = 0; id < IDS; id++) {
        faults += leaves("all leave", &model, id);
        faults += wrong("how many hear it", added, IDS - 1 - id);
        faults += leave("it leaves twice", &model, id, BUFFER, IVSHMEM_PROTOCOL_NOT_JOINED);
    }
    return faults + joins("the first again", &model, 0);
}

/* The largest join of all fills the buffer to its last byte. */
static int largest_join(void)
{
    struct model model = with_joined(UINT64_MAX >> 1, IVSHMEM_PROTOCOL_MAX_VECTORS);
    int faults = joins("the largest join", &model, IDS - 1);

    return faults + wrong("its messages", added, IVSHMEM_PROTOCOL_MAX_SENT) + wrong("its bytes", SENT * added, BUFFER);
}

/* Ids that are not joined: those that are free, and those that are no ids. */
static int not_joined(uint64_t joined, uint64_t vectors)
{
    const uint64_t no_ids[] = {64, 65, 127, 128, 255, 256, 256 + 1, (uint64_t)1 << 32, ((uint64_t)1 << 32) + 1,
                               (uint64_t)1 << 63, UINT64_MAX - 63, UINT64_MAX};
    struct model model = with_joined(joined, vectors);
    int faults = 0;

    for (uint32_t id = 0; id < IDS; id++)
        if (!model.joined[id])
            faults += leave("an id that is free", &model, id, BUFFER, IVSHMEM_PROTOCOL_NOT_JOINED);
    for (size_t i = 0; i < COUNT(no_ids); i++)
        faults += leave("an id that is none", &model, no_ids[i], BUFFER, IVSHMEM_PROTOCOL_NOT_JOINED);
    return faults;
}

/* Any set of clients may be handed in: a join, the leave of each that is there, and of those that are not. */
static int any_clients(uint64_t vectors)
{
    const uint64_t sets[] = {0, 1, 2, 3, 0x8000000000000000, 0x7fffffffffffffff, 0xfffffffffffffffe, 0x5555555555555555,
                             0xaaaaaaaaaaaaaaaa, 0xffffffff, 0xffffffff00000000, 0x123456789abcdef, UINT64_MAX};
    int faults = 0;

    for (size_t i = 0; i < COUNT(sets); i++) {
        struct model model = with_joined(sets[i], vectors);

        faults += join("a join to any clients", &model, BUFFER,
                       sets[i] == UINT64_MAX ? IVSHMEM_PROTOCOL_FULL : IVSHMEM_PROTOCOL_ACCEPTED);
        for (uint32_t id = 0; id < IDS; id++) {
            model = with_joined(sets[i], vectors);
            if (model.joined[id])
                faults += leaves("a leave of any clients", &model, id);
        }
        faults += not_joined(sets[i], vectors);
    }
    return faults;
}

/* Buffers just long enough, and longer. */
static int long_buffers(uint64_t vectors)
{
    const size_t lengths[] = {BUFFER, BUFFER + 1, BUFFER + AROUND};
    struct model model = {.vectors = vectors};
    int faults = 0;

    for (size_t i = 0; i < COUNT(lengths); i++) {
        faults += join("a join in a long buffer", &model, lengths[i], IVSHMEM_PROTOCOL_ACCEPTED);
        faults += join("another", &model, lengths[i], IVSHMEM_PROTOCOL_ACCEPTED);
        faults += leave("a leave in a long buffer", &model, i, lengths[i], IVSHMEM_PROTOCOL_ACCEPTED);
    }
    return faults;
}

/* Calls that are refused with this number whatever comes after it: a join, and leaves of ids that are there and that are not. */
static int refuses(const char *what, uint64_t vectors, size_t length, uint32_t number)
{
    const uint64_t sets[] = {0, 1, 0xfffffffffffffffe, UINT64_MAX}, ids[] = {0, 1, 63, 64, UINT64_MAX};
    int faults = 0;

    for (size_t i = 0; i < COUNT(sets); i++) {
        struct model model = with_joined(sets[i], vectors);

        faults += join(what, &model, length, number);
        for (size_t j = 0; j < COUNT(ids); j++)
            faults += leave(what, &model, ids[j], length, number);
    }
    return faults;
}

static int refusals_in_order(void)
{
    const size_t lengths[] = {0, 1, SENT, 4 * SENT, BUFFER - SENT, BUFFER - 1};
    int faults = 0;

    for (size_t i = 0; i < COUNT(bad_vectors); i++) {
        faults += refuses("bad vectors", bad_vectors[i], BUFFER, IVSHMEM_PROTOCOL_BAD_SERVER);
        faults += refuses("bad vectors and a short buffer", bad_vectors[i], BUFFER - 1, IVSHMEM_PROTOCOL_BAD_SERVER);
        faults += refuses("bad vectors and no buffer", bad_vectors[i], 0, IVSHMEM_PROTOCOL_BAD_SERVER);
    }
    for (uint64_t vectors = 1; vectors <= IVSHMEM_PROTOCOL_MAX_VECTORS; vectors++)
        for (size_t i = 0; i < COUNT(lengths); i++)
            faults += refuses("a short buffer", vectors, lengths[i], IVSHMEM_PROTOCOL_SHORT_BUFFER);
    return faults;
}

/*
 * Histories. Each client has a reader, which gets the records that are sent to it, cut anywhere.
 */

struct reader {
    ivshmem_protocol_progress progress;
    uint8_t counts[IDS];
};

struct history {
    struct model model;
    struct reader readers[IDS];
    bool known[IDS][IDS]; /* whom a reader should know: for a client that has left those who were there just before */
    bool has_been[IDS];
    unsigned cut;
};

/* A record in two pieces, of which the first may be empty. It is never extra, and never closes. */
static int hears(struct history *history, uint32_t client, const uint8_t *record)
{
    struct reader *reader = &history->readers[client];
    const size_t cut = history->cut++ % RECORD;
    const ivshmem_protocol_answer first = ivshmem_protocol_read(reader->progress, reader->counts, IDS, history->model.vectors,
                                                                record, cut);
    const ivshmem_protocol_answer last = ivshmem_protocol_read(first.progress, reader->counts, IDS, history->model.vectors,
                                                               record + cut, RECORD - cut);

    reader->progress = last.progress;
    return wrong("the first piece", first.number, IVSHMEM_PROTOCOL_ACCEPTED)
         + wrong("the first piece's message", first.message, IVSHMEM_PROTOCOL_MESSAGE_MORE)
         + wrong("the last piece", last.number, IVSHMEM_PROTOCOL_ACCEPTED)
         + wrong("an extra vector", last.message == IVSHMEM_PROTOCOL_MESSAGE_EXTRA, false)
         + wrong("a close", last.message == IVSHMEM_PROTOCOL_MESSAGE_CLOSED, false)
         + wrong("a record that is not whole", last.message == IVSHMEM_PROTOCOL_MESSAGE_MORE, false);
}

/* What the last call has left in the room goes to the readers; none is for a client that is not there. */
static int hand_out(struct history *history, size_t messages)
{
    int faults = 0;

    for (size_t i = 0; i < messages; i++) {
        const uint32_t client = room[AROUND + SENT * i];

        if (wrong("a client that is not there", client < IDS && history->model.joined[client], true))
            return 1;
        faults += hears(history, client, room + AROUND + SENT * i + 1);
    }
    return faults;
}

/* Every reader knows itself and those that it should, each with all vectors. */
static int all_know(struct history *history)
{
    int faults = 0;

    for (uint32_t client = 0; client < IDS; client++) {
        const struct reader *reader = &history->readers[client];

        if (history->model.joined[client])
            memcpy(history->known[client], history->model.joined, sizeof history->model.joined);
        if (!history->has_been[client])
            continue;
        faults += wrong("a reader's id", reader->progress.own, client);
        faults += wrong("a reader's step", reader->progress.due, IVSHMEM_PROTOCOL_DUE_PEERS);
        faults += wrong("bytes held", reader->progress.held, 0);
        for (uint32_t id = 0; id < IDS; id++)
            faults += wrong("a count", reader->counts[id], history->known[client][id] ? history->model.vectors : 0);
    }
    return faults;
}

static int next_join(struct history *history)
{
    const uint32_t id = lowest_free(&history->model);
    int faults = joins("a join in a history", &history->model, id);

    history->readers[id] = (struct reader){.counts = {0}};
    history->has_been[id] = true;
    return faults + hand_out(history, added) + all_know(history);
}

static int next_leave(struct history *history, uint32_t id)
{
    int faults = leaves("a leave in a history", &history->model, id);

    return faults + hand_out(history, added) + all_know(history);
}

/* A long history: clients come more often than they leave until all ids are taken, then less often until none is, and so on. */
static int long_history(uint64_t vectors)
{
    static struct history history;
    uint64_t chance = 0x9e3779b97f4a7c15;
    bool growing = true;
    int faults = 0;

    history = (struct history){.model = {.vectors = vectors}};
    for (unsigned calls = 0; calls < 1500 && faults == 0; calls++) {
        const uint64_t joined = in_numbers(&history.model).joined;
        uint32_t id;

        chance ^= chance << 13;
        chance ^= chance >> 7;
        chance ^= chance << 17;
        id = (uint32_t)(chance >> 40) % IDS;
        growing = joined == 0 || (growing && joined != UINT64_MAX);
        if (joined == 0 || (joined != UINT64_MAX && (chance % 4 == 0) != growing)) {
            faults += next_join(&history);
        } else {
            while (!history.model.joined[id])
                id = (id + 1) % IDS;
            faults += next_leave(&history, id);
        }
    }
    return faults;
}

/* The header's texts of a server's numbers: one for each that it names, and no other is known. */
static int texts(void)
{
    int faults = 0;

    for (uint32_t number = 0; number < 20; number++) {
        const bool is_known = number <= IVSHMEM_PROTOCOL_BAD_VECTORS || number == IVSHMEM_PROTOCOL_NOT_JOINED
                              || (number >= IVSHMEM_PROTOCOL_BAD_SERVER && number <= IVSHMEM_PROTOCOL_FULL);

        faults += wrong("a text", strcmp(ivshmem_protocol_server_number_text(number), "an unknown number") != 0, is_known);
    }
    return faults;
}

int main(void)
{
    int faults = starts() + first_bytes() + worked_case() + largest_join() + refusals_in_order() + texts();

    for (uint64_t vectors = 1; vectors <= IVSHMEM_PROTOCOL_MAX_VECTORS; vectors++)
        faults += fill_and_empty(vectors);
    for (size_t i = 0; i < COUNT(vector_numbers); i++)
        faults += any_clients(vector_numbers[i]) + long_buffers(vector_numbers[i]) + long_history(vector_numbers[i]);
    return faults != 0;
}
