// Makes calls of the program fail that it is preloaded to, and sets its clocks; faults.py compiles it and says when.
//
// What fails is read from the file that FAULTS names, which stays mapped: a test changes it while the program runs. It holds 64-bit
// words: the seconds that are added to the system's clock, whether each peer seems to be another machine's, the seconds that are added to
// the monotonic clock, the millisecond after 1970 at which both clocks stand (0: they go on), four that nobody reads, and then a row of 16 for
// each call of CALLS in that order: each Kth call fails (0: none), how many may fail still (negative: no end), how many calls there were, how
// many failed, how many errors follow, and the errors in turn. An error 0 stands for an answer of 0, as of a
// send that takes nothing; 1000 and more for a call that is made after so many milliseconds less 1000; 1000000 and more for an epoll_wait
// whose answer comes so many milliseconds less 1000000 later. A call that fails isn't made, but for close, whose descriptor is gone on Linux
// whatever it answers.
#define _GNU_SOURCE
#include <arpa/inet.h>
#include <dlfcn.h>
#include <errno.h>
#include <fcntl.h>
#include <netinet/in.h>
#include <pthread.h>
#include <stdatomic.h>
#include <stdint.h>
#include <stdlib.h>
#include <sys/epoll.h>
#include <sys/mman.h>
#include <sys/socket.h>
#include <sys/syscall.h>
#include <sys/types.h>
#include <time.h>
#include <unistd.h>

enum call { ACCEPT4, RECV, SEND, SENDMSG, EPOLL_WAIT, EPOLL_CTL, CLOSE, WRITE, PTHREAD_CREATE, STDIN, STDOUT, CALLS };
enum column { EVERY, LEFT, MADE, FAILED, ERRORS, FIRST, WIDTH = 16 };
enum { CLOCK, ELSEWHERE, MONOTONIC, STILL, FRONT = 8, DELAY = 1000, LATE = 1000000 };
// By so many milliseconds a clock that stands is ahead of the monotonic one; they are no whole seconds.
#define AHEAD 1600000000123LL

typedef _Atomic int64_t word;

static word nothing[FRONT + CALLS * WIDTH];
static word *told = nothing;

__attribute__((constructor)) static void start(void) {
    const char *path = getenv("FAULTS");
    int file = path ? open(path, O_RDWR | O_CLOEXEC) : -1;
    if (file < 0)
        return;
    void *found = mmap(NULL, sizeof nothing, PROT_READ | PROT_WRITE, MAP_SHARED, file, 0);
    if (found != MAP_FAILED)
        told = found;
    syscall(SYS_close, file); // (close is another here)
}

// The error with which this call is to fail, 0 for an answer of 0, or -1 where it is to be made.
static int fault(enum call call) {
    word *row = told + FRONT + call * WIDTH;
    int64_t every = row[EVERY], made = atomic_fetch_add(row + MADE, 1) + 1, count = row[ERRORS];
    if (every <= 0 || count <= 0 || made % every)
        return -1;
    int64_t left = row[LEFT];
    do {
        if (left == 0)
            return -1;
    } while (left > 0 && !atomic_compare_exchange_weak(row + LEFT, &left, left - 1));
    int64_t nth = atomic_fetch_add(row + FAILED, 1);
    return (int)row[FIRST + nth % count];
}

static void rest(int milliseconds) {
    struct timespec time = {milliseconds / 1000, milliseconds % 1000 * 1000000L};
    nanosleep(&time, NULL);
}

// The same, after the time for which this call is to wait.
static int fault_or_delay(enum call call) {
    int error = fault(call);
    if (error < DELAY)
        return error;
    rest(error - DELAY);
    return -1;
}

#define NEXT(name) __typeof__(&name) next = (__typeof__(&name))dlsym(RTLD_NEXT, #name)
#define FAIL(call) int error = fault_or_delay(call); if (error >= 0) return error ? (errno = error, -1) : 0

int accept4(int fd, struct sockaddr *address, socklen_t *size, int flags) {
    FAIL(ACCEPT4);
    NEXT(accept4);
    int answer = next(fd, address, size, flags);
    if (answer >= 0 && told[ELSEWHERE] && address && address->sa_family == AF_INET)
        ((struct sockaddr_in *)address)->sin_addr.s_addr = inet_addr("192.0.2.1");
    return answer;
}

ssize_t recv(int fd, void *bytes, size_t size, int flags) {
    FAIL(RECV);
    NEXT(recv);
    return next(fd, bytes, size, flags);
}

ssize_t send(int fd, const void *bytes, size_t size, int flags) {
    FAIL(SEND);
    NEXT(send);
    return next(fd, bytes, size, flags);
}

ssize_t sendmsg(int fd, const struct msghdr *message, int flags) {
    FAIL(SENDMSG);
    NEXT(sendmsg);
    return next(fd, message, flags);
}

int epoll_wait(int fd, struct epoll_event *events, int most, int timeout) {
    NEXT(epoll_wait);
    int error = fault(EPOLL_WAIT);
    if (error >= 0 && error < DELAY)
        return error ? (errno = error, -1) : 0;
    if (error >= DELAY && error < LATE)
        rest(error - DELAY);
    int answer = next(fd, events, most, timeout);
    if (error >= LATE)
        rest(error - LATE);
    return answer;
}

int epoll_ctl(int fd, int what, int of, struct epoll_event *event) {
    FAIL(EPOLL_CTL);
    NEXT(epoll_ctl);
    return next(fd, what, of, event);
}

int close(int fd) {
    NEXT(close);
    int error = fault_or_delay(CLOSE), answer = next(fd);
    return error > 0 ? (errno = error, -1) : answer;
}

ssize_t read(int fd, void *bytes, size_t size) {
    NEXT(read);
    if (fd == 0) {
        FAIL(STDIN);
    }
    return next(fd, bytes, size);
}

ssize_t write(int fd, const void *bytes, size_t size) {
    NEXT(write);
    if (fd == 1 || fd == 2) {
        FAIL(fd == 1 ? STDOUT : WRITE);
    }
    return next(fd, bytes, size);
}

int pthread_create(pthread_t *thread, const pthread_attr_t *how, void *(*run)(void *), void *with) {
    int error = fault_or_delay(PTHREAD_CREATE);
    if (error > 0)
        return error;
    NEXT(pthread_create);
    return next(thread, how, run, with);
}

int clock_gettime(clockid_t clock, struct timespec *time) {
    NEXT(clock_gettime);
    int answer = next(clock, time);
    int64_t still = told[STILL];
    if (answer == 0 && still && (clock == CLOCK_REALTIME || clock == CLOCK_MONOTONIC)) {
        int64_t millis = clock == CLOCK_REALTIME ? still : still - AHEAD;
        time->tv_sec = millis / 1000;
        time->tv_nsec = millis % 1000 * 1000000L;
    }
    if (answer == 0 && clock == CLOCK_REALTIME)
        time->tv_sec += told[CLOCK];
    if (answer == 0 && clock == CLOCK_MONOTONIC)
        time->tv_sec += told[MONOTONIC];
    return answer;
}
