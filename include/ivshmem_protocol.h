/*
 * The messages that the server of the older ivshmem device sends to its clients: its version, the client's id, the shared memory,
 * and the vectors of the peers as they come and go. The library reads them for a client, and it writes the server's side: what is
 * to be sent to whom as clients join and leave. For x86-64. A library of its own: it needs nothing of ivshmem.h, and both headers
 * may be included.
 *
 * Each message of the server is 8 bytes on a UNIX domain socket, a signed little-endian number, and may come with one file
 * descriptor (SCM_RIGHTS). Here it is a record of IVSHMEM_PROTOCOL_RECORD_BYTES bytes: one byte of kind, 00 without a descriptor
 * and 01 with one, then the 8 bytes. The descriptors themselves stay with the host, the program that makes the calls; it also
 * receives and sends.
 *
 * Reading. The host receives the messages and makes the records. They go to ivshmem_protocol_read as a stream of bytes that may
 * be cut anywhere, and each call answers one message. What the library knows of a stream is an ivshmem_protocol_progress, which
 * goes into a call and comes back in its answer, and IVSHMEM_PROTOCOL_IDS counts, one byte for each id, that the host lends to
 * each call. Both start with all bytes 0. They are plain numbers, which the host may read, store and hand in again: counts[id] is
 * how many vectors the id has.
 *
 * Writing. ivshmem_protocol_start answers an ivshmem_protocol_server without clients, which goes into each ivshmem_protocol_join
 * and ivshmem_protocol_leave and comes back in its answer; it is two plain numbers, too. The messages that a join or leave has to
 * send are written to the front of a buffer that the host lends, each as one byte, the id of the client that it goes to, and its
 * record.
 *
 * What every call has in common:
 * - Any numbers are answered. The answer's `number` is 0, or tells why the call was refused.
 * - A refused call changes nothing: the progress or the server comes back as it went in, no count and no byte of the buffer
 *   changes, no byte is taken, and the answer's other numbers are 0.
 * - Nothing is allocated, and nothing is kept between calls. Nothing of the host's is called; a later build may use memcpy,
 *   memmove and memset.
 * - Pointers are not null, also where the length beside them is 0, and point to as many bytes as the length says. The counts
 *   do not overlap with the input.
 * - Calls that are lent different counts and buffers may run at the same time.
 */
#ifndef IVSHMEM_PROTOCOL_H
#define IVSHMEM_PROTOCOL_H

#include <stddef.h>
#include <stdint.h>

#ifdef __cplusplus
extern "C" {
#endif

/* The compiler warns of an answer that nobody looks at. */
#if defined(__GNUC__)
#define IVSHMEM_PROTOCOL_MUST_USE __attribute__((warn_unused_result))
#if defined(__has_attribute)
#if __has_attribute(retain)
#define IVSHMEM_PROTOCOL_KEPT __attribute__((used, retain)) /* also by a linker that leaves out what nothing refers to */
#endif
#endif
#ifndef IVSHMEM_PROTOCOL_KEPT
#define IVSHMEM_PROTOCOL_KEPT __attribute__((used))
#endif
#else
#define IVSHMEM_PROTOCOL_MUST_USE
#define IVSHMEM_PROTOCOL_KEPT
#endif

/* The version of this library, and of its interface: the types and the calls of this header. They are not those of ivshmem.h.
   docs/CHANGES.md says what changed for callers. Version 0.2.0 has the server's side in addition. What 0.1.0 had stays as it was,
   so that the interface keeps its number: a program that was compiled with the header of 0.1.0 links with this archive. */
#define IVSHMEM_PROTOCOL_VERSION "0.2.0"
#define IVSHMEM_PROTOCOL_VERSION_MAJOR 0
#define IVSHMEM_PROTOCOL_VERSION_MINOR 2
#define IVSHMEM_PROTOCOL_VERSION_PATCH 0
#define IVSHMEM_PROTOCOL_INTERFACE 1

/* Answers IVSHMEM_PROTOCOL_INTERFACE. The number stands in the name, and whatever is compiled with this header asks for the
   name: a program does not link with an archive of another interface. */
uint32_t ivshmem_protocol_interface_1(void);
static uint32_t (*const ivshmem_protocol_interface_wanted)(void) IVSHMEM_PROTOCOL_KEPT = ivshmem_protocol_interface_1;

/* The ids are 0 to IVSHMEM_PROTOCOL_IDS - 1, and each has a count. The most vectors that a client or a server can be configured
   with. */
#define IVSHMEM_PROTOCOL_IDS 64
#define IVSHMEM_PROTOCOL_MAX_VECTORS 16

/* Bytes of a record, and the most bytes that are held of a record that is not whole. */
#define IVSHMEM_PROTOCOL_RECORD_BYTES 9
#define IVSHMEM_PROTOCOL_HELD_BYTES 8

/* Bytes of a message that is to be sent: the client's id, then the record. The most messages that a call writes, those of
   the 64th client's join with the most vectors, and the bytes of a buffer with room for them: every join and leave wants a
   buffer of so many bytes or more. */
#define IVSHMEM_PROTOCOL_SENT_BYTES 10
#define IVSHMEM_PROTOCOL_MAX_SENT 2035
#define IVSHMEM_PROTOCOL_BUFFER_BYTES 20350

/* What the next record has to be. */
enum ivshmem_protocol_due {
    IVSHMEM_PROTOCOL_DUE_VERSION = 0, /* the version, which is 0, without a descriptor */
    IVSHMEM_PROTOCOL_DUE_ID = 1,      /* the host's own id, without a descriptor */
    IVSHMEM_PROTOCOL_DUE_MEMORY = 2,  /* -1, with the shared memory's descriptor */
    IVSHMEM_PROTOCOL_DUE_PEERS = 3,   /* an id with the descriptor of a vector, or the id of a peer that leaves, without one */
    IVSHMEM_PROTOCOL_DUE_CLOSED = 4   /* nothing: a record came that may not come */
};

/* What a record says. */
enum ivshmem_protocol_message {
    IVSHMEM_PROTOCOL_MESSAGE_MORE = 0,         /* there is no whole record yet; all bytes are taken, and held */
    IVSHMEM_PROTOCOL_MESSAGE_VERSION = 1,      /* the version is the one that is known */
    IVSHMEM_PROTOCOL_MESSAGE_ID = 2,           /* the host's own id is `id` */
    IVSHMEM_PROTOCOL_MESSAGE_MEMORY = 3,       /* the shared memory */
    IVSHMEM_PROTOCOL_MESSAGE_VECTOR = 4,       /* a vector of `id`, which has `count` of them now */
    IVSHMEM_PROTOCOL_MESSAGE_EXTRA = 5,        /* a vector of `id`, which has the configured `count` and no more */
    IVSHMEM_PROTOCOL_MESSAGE_DISCONNECTED = 6, /* the peer `id` has left, and has no vectors now */
    IVSHMEM_PROTOCOL_MESSAGE_CLOSED = 7        /* this record, or one before it, may not come there */
};

/* Why a call was refused. Where several apply, the first in this order is given. A server's calls have numbers of their own,
   below. */
enum ivshmem_protocol_number {
    IVSHMEM_PROTOCOL_ACCEPTED = 0,
    IVSHMEM_PROTOCOL_BAD_VECTORS = 1,  /* the configured number of vectors is not 1 to IVSHMEM_PROTOCOL_MAX_VECTORS */
    IVSHMEM_PROTOCOL_BAD_COUNTS = 2,   /* there are not IVSHMEM_PROTOCOL_IDS counts */
    IVSHMEM_PROTOCOL_BAD_PROGRESS = 10 /* no stream with so many vectors leaves this progress and these counts */
};

/* Why a server's call was refused: IVSHMEM_PROTOCOL_BAD_VECTORS for a start; for a join and a leave the first of these that
   applies. */
enum ivshmem_protocol_server_number {
    IVSHMEM_PROTOCOL_BAD_SERVER = 10,   /* the server's number of vectors is not 1 to IVSHMEM_PROTOCOL_MAX_VECTORS */
    IVSHMEM_PROTOCOL_SHORT_BUFFER = 11, /* the buffer has fewer than IVSHMEM_PROTOCOL_BUFFER_BYTES bytes */
    IVSHMEM_PROTOCOL_FULL = 12,         /* a join: all IVSHMEM_PROTOCOL_IDS ids are taken */
    IVSHMEM_PROTOCOL_NOT_JOINED = 4     /* a leave: the id is not joined */
};

/* How far the reading of a stream has come. All zero is the start. */
typedef struct ivshmem_protocol_progress {
    uint32_t due;                               /* an ivshmem_protocol_due */
    uint32_t own;                               /* the host's own id; 0 until it is known, and after a close before that */
    size_t held;                                /* how many bytes of a record that is not whole are held */
    uint8_t bytes[IVSHMEM_PROTOCOL_HELD_BYTES]; /* those bytes, from the front */
} ivshmem_protocol_progress;

/* An answer: 0 or the refusal's number, the message (an ivshmem_protocol_message) with the id and the count that it names, both 0
   where it names none, the bytes that are taken of this call's input, and the progress for the next call. */
typedef struct ivshmem_protocol_answer {
    uint32_t number;
    uint32_t message;
    uint32_t id;
    uint32_t count;
    size_t taken;
    ivshmem_protocol_progress progress;
} ivshmem_protocol_answer;

/* What a server knows: which clients have joined, and how many vectors each has. Any `joined` may be handed in. */
typedef struct ivshmem_protocol_server {
    uint64_t joined; /* bit i is 1 where id i is joined */
    uint64_t vectors;
} ivshmem_protocol_server;

/* The answer to a start: 0 or the refusal's number, and the server for the next call. */
typedef struct ivshmem_protocol_started {
    uint32_t number;
    ivshmem_protocol_server server;
} ivshmem_protocol_started;

/* The answer to a join or a leave: 0 or the refusal's number, the id that has joined or left, how many messages are in the
   buffer, and the server for the next call. */
typedef struct ivshmem_protocol_served {
    uint32_t number;
    uint32_t id;
    size_t messages;
    ivshmem_protocol_server server;
} ivshmem_protocol_served;

/*
 * Takes the input's bytes through the end of the first whole record, to which the bytes held belong, and answers its message.
 * Where they do not make a record, all of them are taken and held, and the message is MORE. `vectors` is the number of vectors
 * that the host is configured with, the same in all calls of a stream.
 *
 * A host goes through a piece of the stream until it has nothing more:
 *
 *     do {
 *         answer = ivshmem_protocol_read(progress, counts, sizeof counts, vectors, piece, length);
 *         if (answer.number != IVSHMEM_PROTOCOL_ACCEPTED)
 *             return answer.number;
 *         progress = answer.progress;
 *         piece += answer.taken;
 *         length -= answer.taken;
 *         (do what the message says)
 *     } while (answer.message != IVSHMEM_PROTOCOL_MESSAGE_MORE);
 *
 * What the host does with the descriptor that came with the record, and with those that it keeps:
 * - VERSION, ID: none came.
 * - MEMORY: keeps it. It is the shared memory, to be mapped.
 * - VECTOR: keeps it as vector `count` - 1 of `id`. Of another peer it is for sending interrupts, of the own id for receiving.
 * - EXTRA: closes it.
 * - DISCONNECTED: none came; closes those that it keeps of the vectors of `id`.
 * - CLOSED: closes it, where one came, and the connection. Own id and counts stay, and so may the descriptors that are kept.
 *   Each later record is answered with CLOSED too.
 * The descriptors belong to the records of kind 01, in order. For a message that came with several of them the host makes a
 * record of kind 02, which closes.
 *
 * Refused with 1; then with 2; then with 10 where `due` is above 4, `own` above 63, `held` above 8, or a count above `vectors`;
 * where `own` is not 0 and the version or the id is due; and where a count is not 0 and the version, the id or the memory is due.
 * What the bytes hold is not looked at before the record is whole.
 */
IVSHMEM_PROTOCOL_MUST_USE
ivshmem_protocol_answer ivshmem_protocol_read(ivshmem_protocol_progress progress, uint8_t *counts, size_t counts_length,
                                              uint64_t vectors, const uint8_t *input, size_t input_length);

/*
 * Answers a server without clients. Each of its clients will have `vectors` vectors.
 *
 * Refused with 1 where that is not 1 to IVSHMEM_PROTOCOL_MAX_VECTORS. The server is then all zero, and its calls are refused
 * with 10.
 */
IVSHMEM_PROTOCOL_MUST_USE
ivshmem_protocol_started ivshmem_protocol_start(uint64_t vectors);

/*
 * A client has come. It gets the lowest id that is free, also where a client before it had it, and these messages are to be sent,
 * V standing for the server's number of vectors:
 * - to the new client: the version, 0; its id; -1 with the shared memory; for each other client, by ascending id, its id V times,
 *   each time with a vector of that client; then its own id V times, each time with a vector of its own;
 * - then to each other client, by ascending id: the new id V times, each time with a vector of the new client.
 * They stand at the front of the buffer, IVSHMEM_PROTOCOL_SENT_BYTES bytes each. All bytes behind them stay as they were.
 *
 * A host makes V descriptors for the new client (eventfd), and sends the messages in the order in which they stand:
 *
 *     for (size_t place = 0; place < served.messages; place++) {
 *         const ivshmem_protocol_sent sent = ivshmem_protocol_sent_at(buffer, place);
 *         (send the 8 bytes from ivshmem_protocol_sent_record(buffer, place) + 1 on to the client sent.client, and with them,
 *          where sent.kind is 1, a descriptor: that of the shared memory where sent.number is -1, else a vector of the client
 *          sent.number: of a call's messages to one client about one id the first goes with vector 0, the next with vector 1)
 *     }
 *
 * A client that a message cannot be sent to is gone, like one that closes its connection: after the loop it leaves.
 * examples/c/ivshmem_server.c is such a host.
 *
 * Refused with 10; then with 11, however many messages there would be; then with 12.
 */
IVSHMEM_PROTOCOL_MUST_USE
ivshmem_protocol_served ivshmem_protocol_join(ivshmem_protocol_server server, uint8_t *buffer, size_t buffer_length);

/*
 * The client `id` has gone. To each client that stays, by ascending id, one message is to be sent: the id, without a descriptor.
 * They stand at the front of the buffer, as those of a join. The host then closes the vectors of the client that left; the id is
 * free.
 *
 * Refused with 10; then with 11, however many messages there would be; then with 4, also where the id is no id.
 */
IVSHMEM_PROTOCOL_MUST_USE
ivshmem_protocol_served ivshmem_protocol_leave(ivshmem_protocol_server server, uint64_t id, uint8_t *buffer,
                                               size_t buffer_length);

/*
 * Helpers, without a call into the library.
 */

/* The record of the message at this place in a buffer, the first being at 0, as ivshmem_protocol_read takes it. The 8 bytes that
   go to the client stand behind its first byte. */
static inline const uint8_t *ivshmem_protocol_sent_record(const uint8_t *buffer, size_t place)
{
    return buffer + IVSHMEM_PROTOCOL_SENT_BYTES * place + 1;
}

/* What the message at this place says: the client that it goes to, 1 where it goes with a descriptor and 0 where not, and the
   number. */
typedef struct ivshmem_protocol_sent {
    uint32_t client;
    uint32_t kind;
    int64_t number;
} ivshmem_protocol_sent;

static inline ivshmem_protocol_sent ivshmem_protocol_sent_at(const uint8_t *buffer, size_t place)
{
    const uint8_t *record = ivshmem_protocol_sent_record(buffer, place);
    uint64_t number = 0;
    ivshmem_protocol_sent sent;

    for (unsigned i = 0; i < 8; i++)
        number |= (uint64_t)record[1 + i] << (8 * i);
    sent.client = *(record - 1);
    sent.kind = *record;
    sent.number = (int64_t)number;
    return sent;
}

/* An answer's message in words. One that this header does not know is called unknown, and nothing else. */
static inline const char *ivshmem_protocol_message_text(uint32_t message)
{
    switch (message) {
    case IVSHMEM_PROTOCOL_MESSAGE_MORE: return "no whole record yet";
    case IVSHMEM_PROTOCOL_MESSAGE_VERSION: return "the version";
    case IVSHMEM_PROTOCOL_MESSAGE_ID: return "the host's own id";
    case IVSHMEM_PROTOCOL_MESSAGE_MEMORY: return "the shared memory";
    case IVSHMEM_PROTOCOL_MESSAGE_VECTOR: return "a vector";
    case IVSHMEM_PROTOCOL_MESSAGE_EXTRA: return "a vector above the configured number";
    case IVSHMEM_PROTOCOL_MESSAGE_DISCONNECTED: return "a peer has left";
    case IVSHMEM_PROTOCOL_MESSAGE_CLOSED: return "closed";
    default: return "an unknown message";
    }
}

/* The number of a reader's answer in words. One that this header does not know is called unknown, and nothing else. */
static inline const char *ivshmem_protocol_number_text(uint32_t number)
{
    switch (number) {
    case IVSHMEM_PROTOCOL_ACCEPTED: return "accepted";
    case IVSHMEM_PROTOCOL_BAD_VECTORS: return "the configured number of vectors is outside its range";
    case IVSHMEM_PROTOCOL_BAD_COUNTS: return "there is not one count for each id";
    case IVSHMEM_PROTOCOL_BAD_PROGRESS: return "no stream with so many vectors leaves this progress and these counts";
    default: return "an unknown number";
    }
}

/* The number of an answer of a server's call in words; 10 is another one here. */
static inline const char *ivshmem_protocol_server_number_text(uint32_t number)
{
    switch (number) {
    case IVSHMEM_PROTOCOL_ACCEPTED: return "accepted";
    case IVSHMEM_PROTOCOL_BAD_VECTORS: return "the configured number of vectors is outside its range";
    case IVSHMEM_PROTOCOL_NOT_JOINED: return "the id is not joined";
    case IVSHMEM_PROTOCOL_BAD_SERVER: return "no server has this number of vectors";
    case IVSHMEM_PROTOCOL_SHORT_BUFFER: return "the buffer is shorter than the longest list of messages";
    case IVSHMEM_PROTOCOL_FULL: return "all ids are joined";
    default: return "an unknown number";
    }
}

/* The layout that the library was built with. */
#if defined(__cplusplus) && __cplusplus >= 201103L
#define IVSHMEM_PROTOCOL_HOLDS(fact) static_assert(fact, #fact)
#elif defined(__STDC_VERSION__) && __STDC_VERSION__ >= 201112L
#define IVSHMEM_PROTOCOL_HOLDS(fact) _Static_assert(fact, #fact)
#endif
#ifdef IVSHMEM_PROTOCOL_HOLDS
IVSHMEM_PROTOCOL_HOLDS(sizeof(size_t) == 8);
IVSHMEM_PROTOCOL_HOLDS(sizeof(ivshmem_protocol_progress) == 24);
IVSHMEM_PROTOCOL_HOLDS(offsetof(ivshmem_protocol_progress, due) == 0);
IVSHMEM_PROTOCOL_HOLDS(offsetof(ivshmem_protocol_progress, own) == 4);
IVSHMEM_PROTOCOL_HOLDS(offsetof(ivshmem_protocol_progress, held) == 8);
IVSHMEM_PROTOCOL_HOLDS(offsetof(ivshmem_protocol_progress, bytes) == 16);
IVSHMEM_PROTOCOL_HOLDS(sizeof(ivshmem_protocol_answer) == 48);
IVSHMEM_PROTOCOL_HOLDS(offsetof(ivshmem_protocol_answer, number) == 0);
IVSHMEM_PROTOCOL_HOLDS(offsetof(ivshmem_protocol_answer, message) == 4);
IVSHMEM_PROTOCOL_HOLDS(offsetof(ivshmem_protocol_answer, id) == 8);
IVSHMEM_PROTOCOL_HOLDS(offsetof(ivshmem_protocol_answer, count) == 12);
IVSHMEM_PROTOCOL_HOLDS(offsetof(ivshmem_protocol_answer, taken) == 16);
IVSHMEM_PROTOCOL_HOLDS(offsetof(ivshmem_protocol_answer, progress) == 24);
IVSHMEM_PROTOCOL_HOLDS(sizeof(ivshmem_protocol_server) == 16);
IVSHMEM_PROTOCOL_HOLDS(offsetof(ivshmem_protocol_server, joined) == 0);
IVSHMEM_PROTOCOL_HOLDS(offsetof(ivshmem_protocol_server, vectors) == 8);
IVSHMEM_PROTOCOL_HOLDS(sizeof(ivshmem_protocol_started) == 24);
IVSHMEM_PROTOCOL_HOLDS(offsetof(ivshmem_protocol_started, number) == 0);
IVSHMEM_PROTOCOL_HOLDS(offsetof(ivshmem_protocol_started, server) == 8);
IVSHMEM_PROTOCOL_HOLDS(sizeof(ivshmem_protocol_served) == 32);
IVSHMEM_PROTOCOL_HOLDS(offsetof(ivshmem_protocol_served, number) == 0);
IVSHMEM_PROTOCOL_HOLDS(offsetof(ivshmem_protocol_served, id) == 4);
IVSHMEM_PROTOCOL_HOLDS(offsetof(ivshmem_protocol_served, messages) == 8);
IVSHMEM_PROTOCOL_HOLDS(offsetof(ivshmem_protocol_served, server) == 16);
IVSHMEM_PROTOCOL_HOLDS(IVSHMEM_PROTOCOL_SENT_BYTES == 1 + IVSHMEM_PROTOCOL_RECORD_BYTES);
IVSHMEM_PROTOCOL_HOLDS(IVSHMEM_PROTOCOL_MAX_SENT == 3 + (2 * IVSHMEM_PROTOCOL_IDS - 1) * IVSHMEM_PROTOCOL_MAX_VECTORS);
IVSHMEM_PROTOCOL_HOLDS(IVSHMEM_PROTOCOL_BUFFER_BYTES == IVSHMEM_PROTOCOL_SENT_BYTES * IVSHMEM_PROTOCOL_MAX_SENT);
#undef IVSHMEM_PROTOCOL_HOLDS
#endif

#ifdef __cplusplus
}
#endif

#endif
