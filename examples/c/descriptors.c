/* The functions of descriptors.h. */
#define _GNU_SOURCE
#include "descriptors.h"

#include <errno.h>
#include <stdio.h>
#include <stdlib.h>
#include <string.h>
#include <unistd.h>

/* Room for one descriptor beside the bytes, aligned for its header. The padding behind it could hold a second one, so that only
   CMSG_LEN of it is lent for receiving. */
union control {
    struct cmsghdr header;
    char bytes[CMSG_SPACE(sizeof(int))];
};

bool fails(const char *what)
{
    perror(what);
    return false;
}

bool close_descriptor(int *descriptor)
{
    const int closing = *descriptor;

    *descriptor = NONE;
    return closing == NONE || close(closing) == 0 || fails("close");
}

bool socket_address(struct sockaddr_un *address, const char *path)
{
    const size_t length = strlen(path);

    *address = (struct sockaddr_un){.sun_family = AF_UNIX};
    if (length == 0) {
        fprintf(stderr, "the socket's path is empty\n");
        return false;
    }
    if (length >= sizeof address->sun_path) {
        errno = ENAMETOOLONG;
        return fails(path);
    }
    memcpy(address->sun_path, path, length);
    return true;
}

ssize_t send_bytes(int socket, const uint8_t *bytes, size_t length, int descriptor)
{
    union control control = {.bytes = {0}};
    struct iovec part = {(void *)bytes, length};
    struct msghdr header = {.msg_iov = &part, .msg_iovlen = 1};
    ssize_t sent;

    if (descriptor != NONE) {
        header.msg_control = &control;
        header.msg_controllen = sizeof control.bytes;
        control.header.cmsg_level = SOL_SOCKET;
        control.header.cmsg_type = SCM_RIGHTS;
        control.header.cmsg_len = CMSG_LEN(sizeof descriptor);
        memcpy(CMSG_DATA(&control.header), &descriptor, sizeof descriptor);
    }
    do
        sent = sendmsg(socket, &header, MSG_NOSIGNAL);
    while (sent < 0 && errno == EINTR);
    return sent;
}

/* The descriptor of what was just received, if there is one. A second one for the same message makes the kind one that the
   library closes at; so does one that did not fit, which the system has closed. */
static bool take_descriptor(struct msghdr *header, struct incoming *message)
{
    struct cmsghdr *part = CMSG_FIRSTHDR(header);
    bool done = true;

    if (part != NULL && part->cmsg_level == SOL_SOCKET && part->cmsg_type == SCM_RIGHTS
        && part->cmsg_len == CMSG_LEN(sizeof message->descriptor)) {
        done = close_descriptor(&message->descriptor);
        memcpy(&message->descriptor, CMSG_DATA(part), sizeof message->descriptor);
        message->record[0]++;
    }
    if (header->msg_flags & MSG_CTRUNC)
        message->record[0] = 2;
    return done;
}

/* Receives some of the bytes that the message still lacks, and none behind them: a descriptor that comes with them is this
   message's. Gives their number, 0 where the server has closed the connection, and -1 where receiving fails. */
static ssize_t receive_part(int socket, struct incoming *message)
{
    union control control;
    struct iovec rest = {message->record + 1 + message->received, MESSAGE_BYTES - message->received};
    struct msghdr header = {.msg_iov = &rest, .msg_iovlen = 1, .msg_control = &control, .msg_controllen = CMSG_LEN(sizeof(int))};
    ssize_t bytes;

    do
        bytes = recvmsg(socket, &header, MSG_CMSG_CLOEXEC);
    while (bytes < 0 && errno == EINTR);
    if (bytes < 0)
        perror("recvmsg");
    if (bytes > 0 && !take_descriptor(&header, message))
        return -1;
    return bytes;
}

ssize_t receive(int socket, struct incoming *message)
{
    *message = (struct incoming){.descriptor = NONE};
    while (message->received < MESSAGE_BYTES) {
        ssize_t bytes = receive_part(socket, message);

        if (bytes == 0 && message->received != 0) {
            fprintf(stderr, "the connection ends within a message\n");
            bytes = -1;
        }
        if (bytes <= 0)
            return close_descriptor(&message->descriptor) ? bytes : -1;
        message->received += (size_t)bytes;
    }
    return 1;
}

bool read_number(const char *word, uint64_t *number)
{
    char *end;

    errno = 0;
    *number = strtoull(word, &end, 10);
    return errno == 0 && *word >= '0' && *word <= '9' && *end == '\0';
}
