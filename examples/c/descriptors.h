/* Bytes on a UNIX domain socket and the file descriptor that may go with them (SCM_RIGHTS), for a client of an ivshmem server and
   for a server, and what else both need: to be copied or linked, with descriptors.c. For Linux, in C11; this file may also be
   included from C++. */
#ifndef DESCRIPTORS_H
#define DESCRIPTORS_H

#include <stdbool.h>
#include <sys/socket.h>
#include <sys/types.h>
#include <sys/un.h>

#include "ivshmem_protocol.h"

#ifdef __cplusplus
extern "C" {
#endif

/* The bytes of a message on the socket, and what stands where there is no descriptor. */
enum { MESSAGE_BYTES = IVSHMEM_PROTOCOL_RECORD_BYTES - 1, NONE = -1 };

/* Says on stderr what fails, with errno's text. Gives false. */
bool fails(const char *what);

/* Closes a descriptor, if there is one. There is none then. */
bool close_descriptor(int *descriptor);

/* The address of a socket in the file system. Gives false, and says so, where the path is too long; or empty, which would be an
   address outside the file system. */
bool socket_address(struct sockaddr_un *address, const char *path);

/* Sends bytes, with a descriptor where there is one. Gives what sendmsg gives, and says nothing. */
ssize_t send_bytes(int socket, const uint8_t *bytes, size_t length, int descriptor);

/* A message as it comes in: the byte of kind, which counts its descriptors, then the bytes received so far. */
struct incoming {
    uint8_t record[IVSHMEM_PROTOCOL_RECORD_BYTES];
    size_t received;
    int descriptor;
};

/* Receives a whole message. Gives 1, 0 where the server has closed the connection, and -1 where it fails, which it says; also
   where the connection ends within a message. */
ssize_t receive(int socket, struct incoming *message);

/* The number that a word is: decimal digits and nothing else, below 2^64. Gives false where it is none. */
bool read_number(const char *word, uint64_t *number);

#ifdef __cplusplus
}
#endif

#endif
