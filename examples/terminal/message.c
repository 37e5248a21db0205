#include <errno.h>
#include <string.h>
#include <sys/socket.h>
#include <sys/uio.h>

#include "message.h"

static bool send_whole(int socket, const struct msghdr *whole, size_t length)
{
    ssize_t sent;
    do {
        sent = sendmsg(socket, whole, MSG_DONTWAIT | MSG_NOSIGNAL);
    } while (sent < 0 && errno == EINTR);
    return sent == (ssize_t)length;
}

bool message_send(int socket, enum message_kind kind, uint32_t number, const void *body, size_t length)
{
    uint32_t head[2] = {(uint32_t)kind, number};
    struct iovec parts[2] = {{head, sizeof head}, {(void *)(uintptr_t)body, length}};
    struct msghdr whole = {.msg_iov = parts, .msg_iovlen = 2};
    return send_whole(socket, &whole, sizeof head + length);
}

bool message_send_descriptor(int socket, enum message_kind kind, int descriptor)
{
    _Alignas(struct cmsghdr) uint8_t control[CMSG_SPACE(sizeof descriptor)] = {0};
    uint32_t head[2] = {(uint32_t)kind, 0};
    struct iovec part = {head, sizeof head};
    struct msghdr whole = {.msg_iov = &part, .msg_iovlen = 1, .msg_control = control, .msg_controllen = sizeof control};
    struct cmsghdr *rights = CMSG_FIRSTHDR(&whole);
    *rights = (struct cmsghdr){CMSG_LEN(sizeof descriptor), SOL_SOCKET, SCM_RIGHTS};
    memcpy(CMSG_DATA(rights), &descriptor, sizeof descriptor);
    return send_whole(socket, &whole, sizeof head);
}

/* The descriptor that came with a message, or -1: there is room for one. */
static int descriptor_of(struct msghdr *whole)
{
    struct cmsghdr *rights = CMSG_FIRSTHDR(whole);
    int descriptor = -1;
    if (rights != NULL && rights->cmsg_level == SOL_SOCKET && rights->cmsg_type == SCM_RIGHTS &&
        rights->cmsg_len == CMSG_LEN(sizeof descriptor)) {
        memcpy(&descriptor, CMSG_DATA(rights), sizeof descriptor);
    }
    return descriptor;
}

enum message_came message_take(int socket, struct message *m, bool descriptors)
{
    _Alignas(struct cmsghdr) uint8_t control[CMSG_SPACE(sizeof(int))];
    struct iovec part = {m, MESSAGE_HEAD + MESSAGE_BODY};
    struct msghdr whole = {.msg_iov = &part,
                           .msg_iovlen = 1,
                           .msg_control = descriptors ? control : NULL,
                           .msg_controllen = descriptors ? sizeof control : 0};
    ssize_t many;
    do {
        many = recvmsg(socket, &whole, MSG_DONTWAIT | MSG_CMSG_CLOEXEC);
    } while (many < 0 && errno == EINTR);
    if (many < 0 && (errno == EAGAIN || errno == EWOULDBLOCK)) {
        return MESSAGE_NONE;
    }
    if (many < MESSAGE_HEAD || whole.msg_flags & MSG_TRUNC) {
        return MESSAGE_OVER;
    }
    m->length = (size_t)many - MESSAGE_HEAD;
    m->descriptor = descriptors ? descriptor_of(&whole) : -1;
    return MESSAGE_CAME;
}
