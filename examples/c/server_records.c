/* The reader of a server's records, held to its rules from C: good starts, each wrong record at each step, vectors above the
   configured number, records that are cut, and each refusal. Answers are compared whole, with the counts and the bytes around
   them. Prints what is not so. */
#include <stdio.h>
#include <string.h>

#include "ivshmem_protocol.h"

enum { IDS = IVSHMEM_PROTOCOL_IDS, RECORD = IVSHMEM_PROTOCOL_RECORD_BYTES, AROUND = 16, ROOM = AROUND + IDS + AROUND };
enum { WITHOUT = 0, WITH = 1 };
enum { OWN = 3, PEER = 5, ABSENT = 63 }; /* ABSENT is an id without vectors */

/* What is handed in: a progress, the counts with bytes around them that no call may touch, and the configured number. */
struct reader {
    ivshmem_protocol_progress progress;
    uint8_t room[ROOM];
    uint64_t vectors;
};

static uint8_t *counts(struct reader *reader)
{
    return reader->room + AROUND;
}

static struct reader fresh(uint64_t vectors)
{
    struct reader reader = {.vectors = vectors};

    memset(reader.room, 0xA5, ROOM);
    memset(counts(&reader), 0, IDS);
    return reader;
}

static void write_record(uint8_t *record, uint8_t kind, uint64_t number)
{
    record[0] = kind;
    for (unsigned i = 0; i < 8; i++)
        record[1 + i] = (uint8_t)(number >> (8 * i));
}

/* One call. What comes back, and the reader after it, have to be those expected. */
static int call(const char *what, struct reader *reader, size_t length_of_counts, const uint8_t *input, size_t length,
                const ivshmem_protocol_answer *expected, const uint8_t *room)
{
    const ivshmem_protocol_answer answer = ivshmem_protocol_read(reader->progress, counts(reader), length_of_counts,
                                                                 reader->vectors, input, length);
    const int bad_answer = memcmp(&answer, expected, sizeof answer) != 0;
    const int bad_room = memcmp(reader->room, room, ROOM) != 0;

    reader->progress = answer.progress;
    if (bad_answer)
        printf("%s: number %u, '%s', id %u, count %u, %zu taken, %u due, own id %u, %zu held\n", what, (unsigned)answer.number,
               ivshmem_protocol_message_text(answer.message), (unsigned)answer.id, (unsigned)answer.count, answer.taken,
               (unsigned)answer.progress.due, (unsigned)answer.progress.own, answer.progress.held);
    if (bad_room)
        printf("%s: wrong counts, or bytes beside them written\n", what);
    return bad_answer || bad_room;
}

/* A whole record, in one call, that leaves these steps and counts. */
static int says(const char *what, struct reader *reader, uint8_t kind, uint64_t number, ivshmem_protocol_answer expected)
{
    struct reader after = *reader;
    uint8_t record[RECORD];

    write_record(record, kind, number);
    expected.taken = RECORD;
    if (expected.message == IVSHMEM_PROTOCOL_MESSAGE_VECTOR || expected.message == IVSHMEM_PROTOCOL_MESSAGE_DISCONNECTED)
        counts(&after)[expected.id] = (uint8_t)expected.count;
    return call(what, reader, IDS, record, RECORD, &expected, after.room);
}

static int says_version(struct reader *reader)
{
    return says("the version", reader, WITHOUT, 0, (ivshmem_protocol_answer){
        .message = IVSHMEM_PROTOCOL_MESSAGE_VERSION, .progress = {.due = IVSHMEM_PROTOCOL_DUE_ID}});
}

static int says_id(struct reader *reader, uint32_t own)
{
    return says("the own id", reader, WITHOUT, own, (ivshmem_protocol_answer){
        .message = IVSHMEM_PROTOCOL_MESSAGE_ID, .id = own, .progress = {.due = IVSHMEM_PROTOCOL_DUE_MEMORY, .own = own}});
}

static int says_memory(struct reader *reader)
{
    return says("the memory", reader, WITH, UINT64_MAX, (ivshmem_protocol_answer){
        .message = IVSHMEM_PROTOCOL_MESSAGE_MEMORY,
        .progress = {.due = IVSHMEM_PROTOCOL_DUE_PEERS, .own = reader->progress.own}});
}

/* A record while peers come and go. */
static int says_of(struct reader *reader, uint8_t kind, uint32_t id, uint32_t message, uint32_t count)
{
    return says(ivshmem_protocol_message_text(message), reader, kind, id, (ivshmem_protocol_answer){
        .message = message, .id = id, .count = count,
        .progress = {.due = IVSHMEM_PROTOCOL_DUE_PEERS, .own = reader->progress.own}});
}

static int says_vectors(struct reader *reader, uint32_t id, uint32_t first, uint32_t last)
{
    int faults = 0;

    for (uint32_t count = first; count <= last; count++)
        faults += says_of(reader, WITH, id, IVSHMEM_PROTOCOL_MESSAGE_VECTOR, count);
    return faults;
}

/* The whole good start. */
static int begin(struct reader *reader, uint64_t vectors, uint32_t own)
{
    int faults = 0;

    *reader = fresh(vectors);
    faults += says_version(reader);
    faults += says_id(reader, own);
    faults += says_memory(reader);
    return faults;
}

/* The good start up to a step; where peers are due, two ids have vectors: the own and another. */
static int start(struct reader *reader, uint64_t vectors, uint32_t due)
{
    int faults = 0;

    *reader = fresh(vectors);
    if (due > IVSHMEM_PROTOCOL_DUE_VERSION)
        faults += says_version(reader);
    if (due > IVSHMEM_PROTOCOL_DUE_ID)
        faults += says_id(reader, OWN);
    if (due > IVSHMEM_PROTOCOL_DUE_MEMORY) {
        faults += says_memory(reader);
        faults += says_vectors(reader, OWN, 1, 1);
        faults += says_vectors(reader, PEER, 1, (uint32_t)vectors);
    }
    if (due > IVSHMEM_PROTOCOL_DUE_PEERS)
        faults += says("a close", reader, WITH, IDS, (ivshmem_protocol_answer){
            .message = IVSHMEM_PROTOCOL_MESSAGE_CLOSED, .progress = {.due = IVSHMEM_PROTOCOL_DUE_CLOSED, .own = OWN}});
    return faults;
}

/* The record closes, and own id and counts stay. */
static int closes_at(const char *what, struct reader *reader, uint8_t kind, uint64_t number)
{
    return says(what, reader, kind, number, (ivshmem_protocol_answer){
        .message = IVSHMEM_PROTOCOL_MESSAGE_CLOSED,
        .progress = {.due = IVSHMEM_PROTOCOL_DUE_CLOSED, .own = reader->progress.own}});
}

/* The same after a good start; what would be good at any of the steps is then answered so too. */
static int closes(const char *what, uint32_t due, uint8_t kind, uint64_t number)
{
    struct reader reader;
    int faults = start(&reader, 2, due);

    faults += closes_at(what, &reader, kind, number);
    faults += closes_at("a version after the close", &reader, WITHOUT, 0);
    faults += closes_at("a memory after the close", &reader, WITH, UINT64_MAX);
    faults += closes_at("a vector after the close", &reader, WITH, OWN);
    faults += closes_at("a peer that leaves after the close", &reader, WITHOUT, PEER);
    return faults;
}

/* The whole good start, with every id as the own one, and every id as a peer. */
static int good_starts(uint64_t vectors)
{
    struct reader reader;
    int faults = 0;

    for (uint32_t own = 0; own < IDS; own++) {
        faults += begin(&reader, vectors, own);
        for (uint32_t id = 0; id < IDS; id++)
            faults += says_vectors(&reader, id, 1, (uint32_t)vectors);
        for (uint32_t id = 0; id < IDS; id++)
            faults += id == own ? 0 : says_of(&reader, WITHOUT, id, IVSHMEM_PROTOCOL_MESSAGE_DISCONNECTED, 0);
        faults += closes_at("the own id that leaves", &reader, WITHOUT, own);
    }
    return faults;
}

/* Vectors above the configured number, of a peer and of the own id; after it has left, a peer begins again. */
static int extra_vectors(uint64_t vectors)
{
    const uint32_t ids[] = {OWN, PEER, ABSENT}, most = (uint32_t)vectors;
    struct reader reader;
    int faults = begin(&reader, vectors, OWN);

    for (size_t i = 0; i < sizeof ids / sizeof *ids; i++) {
        faults += says_vectors(&reader, ids[i], 1, most);
        faults += says_of(&reader, WITH, ids[i], IVSHMEM_PROTOCOL_MESSAGE_EXTRA, most);
        faults += says_of(&reader, WITH, ids[i], IVSHMEM_PROTOCOL_MESSAGE_EXTRA, most);
    }
    faults += says_of(&reader, WITHOUT, PEER, IVSHMEM_PROTOCOL_MESSAGE_DISCONNECTED, 0);
    faults += says_vectors(&reader, PEER, 1, most);
    faults += says_of(&reader, WITH, PEER, IVSHMEM_PROTOCOL_MESSAGE_EXTRA, most);
    return faults;
}

static const struct {
    const char *what;
    uint32_t due;
    uint8_t kind;
    int64_t number;
} wrong[] = {
    {"version 1", IVSHMEM_PROTOCOL_DUE_VERSION, WITHOUT, 1},
    {"version -1", IVSHMEM_PROTOCOL_DUE_VERSION, WITHOUT, -1},
    {"a version with a descriptor", IVSHMEM_PROTOCOL_DUE_VERSION, WITH, 0},
    {"a version of kind 2", IVSHMEM_PROTOCOL_DUE_VERSION, 2, 0},
    {"a version of kind 255", IVSHMEM_PROTOCOL_DUE_VERSION, 255, 0},
    {"the memory before the version", IVSHMEM_PROTOCOL_DUE_VERSION, WITH, -1},
    {"own id 64", IVSHMEM_PROTOCOL_DUE_ID, WITHOUT, 64},
    {"own id -1", IVSHMEM_PROTOCOL_DUE_ID, WITHOUT, -1},
    {"an own id with a descriptor", IVSHMEM_PROTOCOL_DUE_ID, WITH, OWN},
    {"an own id of kind 2", IVSHMEM_PROTOCOL_DUE_ID, 2, OWN},
    {"an own id of kind 128", IVSHMEM_PROTOCOL_DUE_ID, 128, OWN},
    {"the memory before the own id", IVSHMEM_PROTOCOL_DUE_ID, WITH, -1},
    {"a memory without a descriptor", IVSHMEM_PROTOCOL_DUE_MEMORY, WITHOUT, -1},
    {"a memory of kind 2", IVSHMEM_PROTOCOL_DUE_MEMORY, 2, -1},
    {"a memory of kind 129", IVSHMEM_PROTOCOL_DUE_MEMORY, 129, -1},
    {"a memory of number 0", IVSHMEM_PROTOCOL_DUE_MEMORY, WITH, 0},
    {"the own vector before the memory", IVSHMEM_PROTOCOL_DUE_MEMORY, WITH, OWN},
    {"the own id again before the memory", IVSHMEM_PROTOCOL_DUE_MEMORY, WITHOUT, OWN},
    {"the own id that leaves", IVSHMEM_PROTOCOL_DUE_PEERS, WITHOUT, OWN},
    {"a peer without vectors that leaves", IVSHMEM_PROTOCOL_DUE_PEERS, WITHOUT, ABSENT},
    {"id 64 with a descriptor", IVSHMEM_PROTOCOL_DUE_PEERS, WITH, 64},
    {"id 64 that leaves", IVSHMEM_PROTOCOL_DUE_PEERS, WITHOUT, 64},
    {"a memory again", IVSHMEM_PROTOCOL_DUE_PEERS, WITH, -1},
    {"-1 that leaves", IVSHMEM_PROTOCOL_DUE_PEERS, WITHOUT, -1},
    {"a vector of kind 2", IVSHMEM_PROTOCOL_DUE_PEERS, 2, ABSENT},
    {"a peer that leaves with kind 2", IVSHMEM_PROTOCOL_DUE_PEERS, 2, PEER},
    {"a vector of kind 255", IVSHMEM_PROTOCOL_DUE_PEERS, 255, ABSENT},
    {"a peer that leaves with kind 128", IVSHMEM_PROTOCOL_DUE_PEERS, 128, PEER},
};

/* The records above; at each step the numbers that are never good there, and the good ones with one bit of the number wrong, of
   those bits that make no other good number. */
static int wrong_records(void)
{
    const int64_t never[] = {64, 255, 256, INT64_MAX, -2, INT64_MIN};
    int faults = 0;

    for (size_t i = 0; i < sizeof wrong / sizeof *wrong; i++)
        faults += closes(wrong[i].what, wrong[i].due, wrong[i].kind, (uint64_t)wrong[i].number);
    for (uint32_t due = IVSHMEM_PROTOCOL_DUE_VERSION; due <= IVSHMEM_PROTOCOL_DUE_CLOSED; due++)
        for (size_t i = 0; i < sizeof never / sizeof *never; i++)
            for (unsigned kind = 0; kind < 4; kind++)
                faults += closes("a number that is never good", due, (uint8_t)kind, (uint64_t)never[i]);
    for (unsigned bit = 0; bit < 64; bit++) {
        const uint64_t one = (uint64_t)1 << bit;

        faults += closes("a bit of the version", IVSHMEM_PROTOCOL_DUE_VERSION, WITHOUT, one);
        faults += closes("a bit of the memory", IVSHMEM_PROTOCOL_DUE_MEMORY, WITH, ~one);
        if (one < IDS)
            continue;
        faults += closes("a bit of the own id", IVSHMEM_PROTOCOL_DUE_ID, WITHOUT, OWN | one);
        faults += closes("a bit of a vector's id", IVSHMEM_PROTOCOL_DUE_PEERS, WITH, ABSENT | one);
        faults += closes("a bit of the id of a peer that leaves", IVSHMEM_PROTOCOL_DUE_PEERS, WITHOUT, PEER | one);
    }
    return faults;
}

/* A call that makes no whole record: all its bytes are held, behind those held before, and nothing else changes. */
static int holds(const char *what, struct reader *reader, const uint8_t *input, size_t length)
{
    const struct reader before = *reader;
    ivshmem_protocol_answer expected = {.taken = length, .progress = before.progress};

    memcpy(expected.progress.bytes + before.progress.held, input, length);
    expected.progress.held += length;
    return call(what, reader, IDS, input, length, &expected, before.room);
}

/* The record of a step, cut in three anywhere. The bytes behind those held are not 0 before, and the last piece has another
   record behind it. */
static int cut_record(uint32_t due, uint8_t kind, uint64_t number, ivshmem_protocol_answer expected)
{
    uint8_t input[2 * RECORD];
    int faults = 0;

    write_record(input, kind, number);
    memset(input + RECORD, 0x77, RECORD);
    for (size_t first = 0; first < RECORD; first++)
        for (size_t second = first; second < RECORD; second++) {
            struct reader reader, after;

            faults += start(&reader, 2, due);
            memset(reader.progress.bytes, 0xEE, sizeof reader.progress.bytes);
            after = reader;
            if (expected.message == IVSHMEM_PROTOCOL_MESSAGE_VECTOR)
                counts(&after)[expected.id] = (uint8_t)expected.count;
            expected.taken = RECORD - second;
            faults += holds("the first piece", &reader, input, first);
            faults += holds("the second piece", &reader, input + first, second - first);
            faults += call("the last piece", &reader, IDS, input + second, 2 * RECORD - second, &expected, after.room);
        }
    return faults;
}

static int cut_records(void)
{
    const uint32_t version = IVSHMEM_PROTOCOL_DUE_VERSION, id = IVSHMEM_PROTOCOL_DUE_ID, memory = IVSHMEM_PROTOCOL_DUE_MEMORY,
                   peers = IVSHMEM_PROTOCOL_DUE_PEERS, closed = IVSHMEM_PROTOCOL_DUE_CLOSED;

    return cut_record(version, WITHOUT, 0, (ivshmem_protocol_answer){
               .message = IVSHMEM_PROTOCOL_MESSAGE_VERSION, .progress = {.due = id}})
         + cut_record(id, WITHOUT, OWN, (ivshmem_protocol_answer){
               .message = IVSHMEM_PROTOCOL_MESSAGE_ID, .id = OWN, .progress = {.due = memory, .own = OWN}})
         + cut_record(memory, WITH, UINT64_MAX, (ivshmem_protocol_answer){
               .message = IVSHMEM_PROTOCOL_MESSAGE_MEMORY, .progress = {.due = peers, .own = OWN}})
         + cut_record(peers, WITH, OWN, (ivshmem_protocol_answer){
               .message = IVSHMEM_PROTOCOL_MESSAGE_VECTOR, .id = OWN, .count = 2, .progress = {.due = peers, .own = OWN}})
         + cut_record(peers, WITH, PEER, (ivshmem_protocol_answer){
               .message = IVSHMEM_PROTOCOL_MESSAGE_EXTRA, .id = PEER, .count = 2, .progress = {.due = peers, .own = OWN}})
         + cut_record(peers, 0xC3, 0x8877665544332211, (ivshmem_protocol_answer){
               .message = IVSHMEM_PROTOCOL_MESSAGE_CLOSED, .progress = {.due = closed, .own = OWN}})
         + cut_record(closed, WITH, OWN, (ivshmem_protocol_answer){
               .message = IVSHMEM_PROTOCOL_MESSAGE_CLOSED, .progress = {.due = closed, .own = OWN}});
}

/* An empty input is answered with 'more' at each step, however many bytes are held, and changes nothing. */
static int empty_inputs(void)
{
    const uint8_t input[1] = {0x77};
    int faults = 0;

    for (uint32_t due = IVSHMEM_PROTOCOL_DUE_VERSION; due <= IVSHMEM_PROTOCOL_DUE_CLOSED; due++)
        for (size_t held = 0; held <= IVSHMEM_PROTOCOL_HELD_BYTES; held++) {
            struct reader reader;

            faults += start(&reader, 2, due);
            reader.progress.held = held;
            memset(reader.progress.bytes, 0xEE, sizeof reader.progress.bytes);
            faults += holds("an empty input", &reader, input, 0);
        }
    return faults;
}

/* A stream in pieces of one length, each gone through until 'more', as the header says: the messages come in order. */
static int piecewise(const uint8_t *stream, size_t length, size_t most)
{
    struct reader reader = fresh(1);
    ivshmem_protocol_answer answer;
    uint32_t expected = IVSHMEM_PROTOCOL_MESSAGE_VERSION;
    int faults = 0;

    for (size_t at = 0; at < length; at += most) {
        const uint8_t *piece = stream + at;
        size_t left = length - at < most ? length - at : most;

        do {
            answer = ivshmem_protocol_read(reader.progress, counts(&reader), IDS, reader.vectors, piece, left);
            reader.progress = answer.progress;
            if (answer.message != IVSHMEM_PROTOCOL_MESSAGE_MORE)
                faults += answer.message != expected++;
            if (answer.number != IVSHMEM_PROTOCOL_ACCEPTED || answer.taken > left)
                break;
            piece += answer.taken;
            left -= answer.taken;
        } while (answer.message != IVSHMEM_PROTOCOL_MESSAGE_MORE);
        faults += left != 0;
    }
    faults += expected != IVSHMEM_PROTOCOL_MESSAGE_CLOSED + 1;
    if (faults != 0)
        printf("pieces of %zu bytes: %d faults\n", most, faults);
    return faults;
}

/* A stream with each message once, in the order of their numbers. */
static int streams(void)
{
    uint8_t stream[7 * RECORD];
    int faults = 0;

    write_record(stream, WITHOUT, 0);
    write_record(stream + RECORD, WITHOUT, OWN);
    write_record(stream + 2 * RECORD, WITH, UINT64_MAX);
    write_record(stream + 3 * RECORD, WITH, PEER);
    write_record(stream + 4 * RECORD, WITH, PEER);
    write_record(stream + 5 * RECORD, WITHOUT, PEER);
    write_record(stream + 6 * RECORD, WITHOUT, PEER);
    for (size_t most = 1; most <= sizeof stream; most++)
        faults += piecewise(stream, sizeof stream, most);
    return faults;
}

/* The call is refused with this number, whatever the input is, and changes nothing. */
static int refuses_with(const char *what, struct reader reader, size_t length_of_counts, uint32_t number)
{
    const ivshmem_protocol_answer expected = {.number = number, .progress = reader.progress};
    const uint8_t good_version[RECORD] = {0};
    const struct reader before = reader;
    int faults = 0;

    for (size_t length = 0; length <= RECORD; length++)
        faults += call(what, &reader, length_of_counts, good_version, length, &expected, before.room);
    return faults;
}

/* The order of the refusals: each is tried with everything wrong that comes after it. */
static int refusals_in_order(void)
{
    const uint64_t vectors[] = {0, 17, 255, 256 + 1, ((uint64_t)1 << 32) + 1, UINT64_MAX};
    const size_t lengths[] = {0, 1, IDS - 1, IDS + 1, IDS + AROUND};
    struct reader good, bad = fresh(16);
    int faults = start(&good, 16, IVSHMEM_PROTOCOL_DUE_PEERS);

    bad.progress.due = 5;
    for (size_t i = 0; i < sizeof vectors / sizeof *vectors; i++) {
        good.vectors = bad.vectors = vectors[i];
        faults += refuses_with("a configured number", good, IDS, IVSHMEM_PROTOCOL_BAD_VECTORS);
        faults += refuses_with("a configured number and a length", good, IDS - 1, IVSHMEM_PROTOCOL_BAD_VECTORS);
        faults += refuses_with("a configured number and a progress", bad, IDS, IVSHMEM_PROTOCOL_BAD_VECTORS);
        faults += refuses_with("all three", bad, IDS + 1, IVSHMEM_PROTOCOL_BAD_VECTORS);
    }
    good.vectors = bad.vectors = 16;
    for (size_t i = 0; i < sizeof lengths / sizeof *lengths; i++) {
        faults += refuses_with("a length", good, lengths[i], IVSHMEM_PROTOCOL_BAD_COUNTS);
        faults += refuses_with("a length and a progress", bad, lengths[i], IVSHMEM_PROTOCOL_BAD_COUNTS);
    }
    return faults + refuses_with("a progress", bad, IDS, IVSHMEM_PROTOCOL_BAD_PROGRESS);
}

/* A reader with these numbers and one count, at this id, that may be not 0: refused with 10, or accepted with an empty input. */
static int progress(const char *what, ivshmem_protocol_progress numbers, size_t id, uint8_t count, uint32_t number)
{
    const uint8_t nothing[1] = {0};
    struct reader reader = fresh(4);

    reader.progress = numbers;
    for (size_t i = 0; i < sizeof numbers.bytes; i++)
        reader.progress.bytes[i] = (uint8_t)(0x90 + i);
    counts(&reader)[id] = count;
    if (number != IVSHMEM_PROTOCOL_ACCEPTED)
        return refuses_with(what, reader, IDS, number);
    return holds(what, &reader, nothing, 0);
}

/* Steps and bytes held, alone out of range and at the end of it; own ids at each step. */
static int progress_numbers(void)
{
    const uint32_t accepted = IVSHMEM_PROTOCOL_ACCEPTED, refused = IVSHMEM_PROTOCOL_BAD_PROGRESS;
    int faults = progress("step 5", (ivshmem_protocol_progress){.due = 5}, 0, 0, refused)
               + progress("the last step", (ivshmem_protocol_progress){.due = UINT32_MAX}, 0, 0, refused)
               + progress("step 256", (ivshmem_protocol_progress){.due = 256}, 0, 0, refused);

    for (uint32_t due = 0; due <= IVSHMEM_PROTOCOL_DUE_CLOSED; due++) {
        const uint32_t known = due < IVSHMEM_PROTOCOL_DUE_MEMORY ? refused : accepted;

        faults += progress("no id", (ivshmem_protocol_progress){.due = due}, 0, 0, accepted);
        faults += progress("id 1", (ivshmem_protocol_progress){.due = due, .own = 1}, 0, 0, known);
        faults += progress("id 63", (ivshmem_protocol_progress){.due = due, .own = 63}, 0, 0, known);
        faults += progress("id 64", (ivshmem_protocol_progress){.due = due, .own = 64}, 0, 0, refused);
        faults += progress("id 256", (ivshmem_protocol_progress){.due = due, .own = 256}, 0, 0, refused);
        faults += progress("the last id", (ivshmem_protocol_progress){.due = due, .own = UINT32_MAX}, 0, 0, refused);
        faults += progress("8 bytes", (ivshmem_protocol_progress){.due = due, .held = 8}, 0, 0, accepted);
        faults += progress("9 bytes", (ivshmem_protocol_progress){.due = due, .held = 9}, 0, 0, refused);
        faults += progress("256 bytes", (ivshmem_protocol_progress){.due = due, .held = 256}, 0, 0, refused);
        faults += progress("2^32 bytes", (ivshmem_protocol_progress){.due = due, .held = (size_t)1 << 32}, 0, 0, refused);
        faults += progress("the most bytes", (ivshmem_protocol_progress){.due = due, .held = SIZE_MAX}, 0, 0, refused);
    }
    return faults;
}

/* Each count above the configured number, which is 4, and not 0, at each step. */
static int progress_counts(void)
{
    int faults = 0;

    for (uint32_t due = 0; due <= IVSHMEM_PROTOCOL_DUE_CLOSED; due++)
        for (size_t id = 0; id < IDS; id++) {
            const ivshmem_protocol_progress numbers = {.due = due};
            const uint32_t known = due < IVSHMEM_PROTOCOL_DUE_PEERS ? IVSHMEM_PROTOCOL_BAD_PROGRESS : IVSHMEM_PROTOCOL_ACCEPTED;

            faults += progress("a count of 1", numbers, id, 1, known);
            faults += progress("a count of 4", numbers, id, 4, known);
            faults += progress("a count of 5", numbers, id, 5, IVSHMEM_PROTOCOL_BAD_PROGRESS);
            faults += progress("a count of 255", numbers, id, 255, IVSHMEM_PROTOCOL_BAD_PROGRESS);
        }
    return faults;
}

/* The header's texts: one for each number that it names, and no number above is known. */
static int texts(void)
{
    int faults = 0;

    for (uint32_t number = 0; number < 20; number++) {
        const int is_message = number <= IVSHMEM_PROTOCOL_MESSAGE_CLOSED;
        const int is_number = number <= IVSHMEM_PROTOCOL_BAD_COUNTS || number == IVSHMEM_PROTOCOL_BAD_PROGRESS;

        faults += (strcmp(ivshmem_protocol_message_text(number), "an unknown message") == 0) == is_message;
        faults += (strcmp(ivshmem_protocol_number_text(number), "an unknown number") == 0) == is_number;
    }
    if (faults != 0)
        printf("the texts of %d numbers\n", faults);
    return faults;
}

int main(void)
{
    const uint64_t vectors[] = {1, 2, IVSHMEM_PROTOCOL_MAX_VECTORS};
    int faults = wrong_records() + cut_records() + empty_inputs() + streams() + refusals_in_order()
               + progress_numbers() + progress_counts() + texts();

    for (size_t i = 0; i < sizeof vectors / sizeof *vectors; i++)
        faults += good_starts(vectors[i]) + extra_vectors(vectors[i]);
    return faults != 0;
}
