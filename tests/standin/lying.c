// Makes the program lie that it is preloaded to, in the way that the environment's LIE names; lying.sh starts it so, and test_lying.py says which
// tests notice.
#define _GNU_SOURCE
#include <ctype.h>
#include <dlfcn.h>
#include <pthread.h>
#include <stdatomic.h>
#include <stdlib.h>
#include <string.h>
#include <sys/socket.h>
#include <sys/uio.h>
#include <unistd.h>

enum { EACH = 499, LATE = 1000, SECONDS = 2, LOST = 256, WORKERS = 8 };

static _Atomic long threads, sends;
static char lie[64];
static void *volatile lost;

#define NEXT(name) __typeof__(&name) next = (__typeof__(&name))dlsym(RTLD_NEXT, #name)

__attribute__((constructor)) static void start(void) {
    const char *found = getenv("LIE");
    strncpy(lie, found ? found : "", sizeof lie - 1);
}

static int lies(const char *how) {
    return strcmp(lie, how) == 0;
}

// Changes a digit of the number behind a name, if it has so many digits: the last, or the first.
static void tell_other(char *page, const char *name, int digits, int is_first) {
    char *at = strstr(page, name);
    if (!at)
        return;
    char *first = at + strlen(name), *end = first;
    while (isdigit((unsigned char)*end))
        end++;
    char *digit = is_first ? first : end - 1;
    if (end - first >= digits && *first != '0')
        *digit = *digit == '9' ? '1' : *digit + 1;
}

static void lie_of_page(char *page) {
    char name[128] = "{reason=\"";
    if (lies("tells thousands wrong"))
        tell_other(page, "\nmemcached_current_items ", 4, 0);
    if (lies("tells another uptime"))
        tell_other(page, "\nmemcached_uptime_seconds ", 5, 1);
    if (strncmp(lie, "miscounts ", 10) == 0) {
        strncat(name, lie + 10, 40);
        strcat(name, "\"} ");
        tell_other(page, name, 1, 0);
    }
}

// Changes bytes that are to be sent, or waits before it.
static void lie_of_bytes(char *bytes, size_t size) {
    long nth = atomic_fetch_add(&sends, 1) + 1;
    if (lies("answers late") && nth % LATE == 0)
        sleep(SECONDS);
    if (lies("garbles from 8 workers") && threads > WORKERS && nth % EACH == 0 && size)
        bytes[size / 2] ^= 1;
    if (size > 8 && memcmp(bytes, "HTTP/1.1", 8) == 0)
        lie_of_page(bytes);
}

ssize_t send(int fd, const void *bytes, size_t size, int flags) {
    NEXT(send);
    char *copy = malloc(size + 1);
    memcpy(copy, bytes, size);
    copy[size] = 0;
    lie_of_bytes(copy, size);
    ssize_t sent = next(fd, copy, size, flags);
    free(copy);
    return sent;
}

ssize_t sendmsg(int fd, const struct msghdr *message, int flags) {
    size_t size = 0;
    for (size_t part = 0; part < message->msg_iovlen; part++)
        size += message->msg_iov[part].iov_len;
    char *copy = malloc(size + 1), *end = copy;
    for (size_t part = 0; part < message->msg_iovlen; part++) {
        memcpy(end, message->msg_iov[part].iov_base, message->msg_iov[part].iov_len);
        end += message->msg_iov[part].iov_len;
    }
    *end = 0;
    lie_of_bytes(copy, size);
    NEXT(sendmsg);
    struct iovec whole = {copy, size};
    struct msghdr other = *message;
    other.msg_iov = &whole;
    other.msg_iovlen = 1;
    ssize_t sent = next(fd, &other, flags);
    free(copy);
    return sent;
}

ssize_t recv(int fd, void *bytes, size_t size, int flags) {
    NEXT(recv);
    // (what a client of `--quit` receives; a server has workers)
    while (lies("waits for ever to quit") && threads == 0)
        sleep(1);
    return next(fd, bytes, size, flags);
}

int accept4(int fd, struct sockaddr *address, socklen_t *size, int flags) {
    NEXT(accept4);
    int found = next(fd, address, size, flags);
    if (found >= 0 && lies("loses 256 bytes a connection")) {
        lost = malloc(LOST);
        memset(lost, 1, LOST);
    }
    return found;
}

int pthread_create(pthread_t *thread, const pthread_attr_t *how, void *(*run)(void *), void *with) {
    NEXT(pthread_create);
    threads++;
    return next(thread, how, run, with);
}
