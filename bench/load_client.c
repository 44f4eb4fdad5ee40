/* Connections of the load generator: what they ask, and what they are answered. See load.c and load.h. */
#define _GNU_SOURCE
#include "load.h"

#include <arpa/inet.h>
#include <errno.h>
#include <fcntl.h>
#include <netinet/tcp.h>
#include <stdio.h>
#include <string.h>
#include <sys/epoll.h>
#include <sys/socket.h>
#include <unistd.h>

enum {
    KEY_BYTES = 32,
    STAMP_BYTES = 8,
    /* values differ in where they begin in the pool, too */
    STARTS = 1 << 16,
    POOL_BYTES = GREATEST_VALUE + STARTS,
    /* a value above this is sent from the pool, where it lies, and not copied */
    COPIED_VALUE = 4096,
    EVENTS = 256,
    /* connections that are opened before any of them is asked */
    OPENED_AT_ONCE = 200,
    TICK_MILLISECONDS = 50,
};

static struct zipf law;
static char pool[POOL_BYTES];

/* Text of a reply for a message: what can't be printed is written as its code. */
static const char *shown(const char *bytes, size_t count, char *into, size_t room) {
    size_t at = 0;
    for (size_t i = 0; i < count && at + 5 < room; i++) {
        unsigned char byte = (unsigned char)bytes[i];
        at += (size_t)snprintf(into + at, room - at, byte >= 32 && byte < 127 ? "%c" : "\\x%02x", byte);
    }
    into[at] = 0;
    return into;
}

/* ---- keys and what is stored under them */

void prepare(void) {
    uint64_t state = 42;
    if (settings.zipf_exponent > 0) {
        law = zipf_of(settings.keys, settings.zipf_exponent);
    }
    for (size_t at = 0; at + sizeof state <= sizeof pool; at += sizeof state) {
        uint64_t word = drawn(&state);
        memcpy(pool + at, &word, sizeof word);
    }
}

static void write_key(char *into, uint64_t key) {
    memset(into, '0', KEY_BYTES);
    memcpy(into, "key-", 4);
    for (char *at = into + KEY_BYTES - 1; key > 0; key /= 10) {
        *at-- = (char)('0' + key % 10);
    }
}

/* A value is a stamp of its key, cut to the value's bytes, and then a part of the pool that the key chooses. */
static uint64_t stamp_of(uint64_t key) {
    return mixed(key + 0x1234567);
}

static const char *pool_part(uint64_t key) {
    return pool + stamp_of(key) % STARTS;
}

static size_t stamp_bytes(void) {
    return settings.value_bytes < STAMP_BYTES ? settings.value_bytes : STAMP_BYTES;
}

/* Whether these bytes of a block are the ones from `from` on of the block under the key, with its end of line. */
static bool is_part_of_block(uint64_t key, uint64_t from, const char *bytes, size_t count) {
    uint64_t stamp = stamp_of(key);
    const struct { const char *bytes; size_t start, end; } parts[] = {
        {(const char *)&stamp, 0, stamp_bytes()},
        {pool_part(key), stamp_bytes(), settings.value_bytes},
        {"\r\n", settings.value_bytes, settings.value_bytes + 2},
    };
    for (int part = 0; part < 3; part++) {
        size_t start = from > parts[part].start ? from : parts[part].start;
        size_t end = from + count < parts[part].end ? from + count : parts[part].end;
        if (start < end && memcmp(bytes + (start - from), parts[part].bytes + (start - parts[part].start), end - start)) {
            return false;
        }
    }
    return true;
}

/* ---- connections */

static unsigned greatest_keys_of_batch(void) {
    return settings.depth * settings.keys_a_get;
}

int connected(void) {
    struct sockaddr_in address = {.sin_family = AF_INET, .sin_port = htons((uint16_t)settings.port)};
    address.sin_addr.s_addr = htonl(INADDR_LOOPBACK);
    struct timeval patience = {.tv_sec = (time_t)settings.patience + 1};
    int one = 1, made = socket(AF_INET, SOCK_STREAM | SOCK_CLOEXEC, 0);
    if (made < 0) {
        fail("no socket: %s", strerror(errno));
        return -1;
    }
    setsockopt(made, SOL_SOCKET, SO_RCVTIMEO, &patience, sizeof patience);
    setsockopt(made, SOL_SOCKET, SO_SNDTIMEO, &patience, sizeof patience);
    setsockopt(made, IPPROTO_TCP, TCP_NODELAY, &one, sizeof one);
    if (connect(made, (struct sockaddr *)&address, sizeof address) != 0) {
        fail("port %d takes no connection: %s", settings.port, strerror(errno));
        close(made);
        return -1;
    }
    return made;
}

bool told(int socket, const char *text) {
    size_t length = strlen(text);
    if (send(socket, text, length, MSG_NOSIGNAL) == (ssize_t)length) {
        return true;
    }
    fail("could not send `%.40s`: %s", text, strerror(errno));
    return false;
}

bool heard(int socket, char *into, size_t room, const char *ending) {
    size_t length = 0, wanted = strlen(ending);
    while (length + 1 < room) {
        ssize_t count = recv(socket, into + length, room - 1 - length, 0);
        if (count <= 0) {
            fail("no reply that ends as it should: %s", count == 0 ? "the connection was closed" : strerror(errno));
            return false;
        }
        length += (size_t)count;
        into[length] = 0;
        if (length >= wanted && strcmp(into + length - wanted, ending) == 0) {
            return true;
        }
    }
    fail("a reply is too long: %.60s", into);
    return false;
}

bool open_idle(void) {
    int opened[OPENED_AT_ONCE];
    char reply[LINE_BYTES];
    for (unsigned done = 0; done < settings.idle;) {
        unsigned count = settings.idle - done < OPENED_AT_ONCE ? settings.idle - done : OPENED_AT_ONCE;
        for (unsigned i = 0; i < count; i++) {
            opened[i] = connected();
            if (opened[i] < 0 || !told(opened[i], "version\r\n")) {
                return false;
            }
        }
        for (unsigned i = 0; i < count; i++) {
            if (!heard(opened[i], reply, sizeof reply, "\r\n")) {
                return false;
            }
            if (strncmp(reply, "VERSION ", 8) != 0) {
                fail("idle connection %u: `%.60s` is no version", done + i, reply);
                return false;
            }
        }
        done += count;
    }
    return true;
}

bool open_connection(struct worker *worker, struct connection *it) {
    it->socket = connected();
    if (it->socket < 0) {
        return false;
    }
    fcntl(it->socket, F_SETFL, O_NONBLOCK);
    size_t keys = greatest_keys_of_batch();
    it->keys = memory_of(keys, sizeof *it->keys);
    it->pieces = memory_of(2 * settings.depth + 1, sizeof *it->pieces);
    it->text = memory_of(keys, KEY_BYTES + 64 + (settings.value_bytes <= COPIED_VALUE ? settings.value_bytes : 0));
    struct epoll_event event = {.events = EPOLLIN, .data.ptr = it};
    if (epoll_ctl(worker->epoll, EPOLL_CTL_ADD, it->socket, &event) != 0) {
        fail("epoll_ctl: %s", strerror(errno));
        return false;
    }
    return true;
}

/* ---- writing a batch */

static void put(struct connection *it, const char *bytes, size_t count) {
    memcpy(it->text + it->text_length, bytes, count);
    it->text_length += count;
}

static void put_number(struct connection *it, uint64_t number) {
    char digits[20];
    size_t at = sizeof digits;
    do {
        digits[--at] = (char)('0' + number % 10);
        number /= 10;
    } while (number > 0);
    put(it, digits + at, sizeof digits - at);
}

static void put_key(struct connection *it, uint64_t key) {
    write_key(it->text + it->text_length, key);
    it->text_length += KEY_BYTES;
}

/* Makes a piece of the text since the last one. */
static void end_piece(struct connection *it) {
    if (it->text_length > it->text_start) {
        it->pieces[it->piece_count++] =
            (struct iovec){.iov_base = it->text + it->text_start, .iov_len = it->text_length - it->text_start};
        it->text_start = it->text_length;
    }
}

static void put_block(struct connection *it, uint64_t key) {
    uint64_t stamp = stamp_of(key);
    size_t stamped = stamp_bytes(), rest = settings.value_bytes - stamped;
    put(it, (const char *)&stamp, stamped);
    if (settings.value_bytes <= COPIED_VALUE) {
        put(it, pool_part(key), rest);
    } else {
        end_piece(it);
        it->pieces[it->piece_count++] = (struct iovec){.iov_base = (char *)pool_part(key), .iov_len = rest};
    }
    put(it, "\r\n", 2);
}

static void put_store(struct connection *it, uint64_t key, bool quiet) {
    put(it, "set ", 4);
    put_key(it, key);
    put(it, " 0 0 ", 5);
    put_number(it, settings.value_bytes);
    put(it, quiet ? " noreply\r\n" : "\r\n", quiet ? 10 : 2);
    put_block(it, key);
}

static void put_retrieval(struct connection *it, const uint64_t *keys, unsigned count) {
    put(it, "get", 3);
    for (unsigned i = 0; i < count; i++) {
        put(it, " ", 1);
        put_key(it, keys[i]);
    }
    put(it, "\r\n", 2);
}

/* A key by the law that was asked for. The most frequent ranks are strewn over all keys. */
static uint64_t drawn_key(struct worker *worker) {
    uint64_t number = settings.zipf_exponent > 0 ? zipf_drawn(&law, &worker->luck) * 7368787 : drawn(&worker->luck);
    return settings.first_key + number % settings.keys;
}

static enum request drawn_request(struct worker *worker, unsigned at) {
    switch (settings.operation) {
    case GET:
        return RETRIEVE;
    case INCREMENT:
        return COUNT;
    case MIX:
        return drawn(&worker->luck) % 100 < settings.gets_percent ? RETRIEVE : STORE;
    default:
        break;
    }
    if (!settings.noreply) {
        return STORE;
    }
    return at + 1 < settings.depth ? STORE_QUIETLY : RETRIEVE;
}

/* The key of a request: of a batch of quiet stores the last is read again. */
static uint64_t key_for(struct worker *worker, const struct connection *it, enum request kind, unsigned keys) {
    if (settings.operation == INSERT) {
        return atomic_fetch_add(&round_state.next_key, 1);
    }
    return settings.noreply && kind == RETRIEVE ? it->keys[keys - 1] : drawn_key(worker);
}

/* Writes one request after `keys` keys of the batch, and gives the number of its own; none where no key is left. */
static unsigned put_request(struct worker *worker, struct connection *it, enum request kind, unsigned keys) {
    if (kind == COUNT) {
        put(it, "incr counter 1\r\n", 16);
        return 1;
    }
    unsigned count = kind == RETRIEVE && !settings.noreply ? settings.keys_a_get : 1;
    for (unsigned i = 0; i < count; i++) {
        it->keys[keys + i] = key_for(worker, it, kind, keys + i);
    }
    if (settings.operation == INSERT && it->keys[keys] >= round_state.end_key) {
        return 0;
    }
    if (kind == RETRIEVE) {
        put_retrieval(it, it->keys + keys, count);
    } else {
        put_store(it, it->keys[keys], kind == STORE_QUIETLY);
    }
    return count;
}

/* Writes the next batch; false where no request is left. */
static bool write_batch(struct worker *worker, struct connection *it) {
    unsigned keys = 0;
    it->requests = it->request = it->key = it->keys_before = 0;
    it->text_length = it->text_start = it->piece = it->piece_count = 0;
    while (it->requests < settings.depth) {
        enum request kind = drawn_request(worker, it->requests);
        unsigned more = put_request(worker, it, kind, keys);
        if (more == 0) {
            break;
        }
        keys += more;
        it->kinds[it->requests++] = kind;
    }
    end_piece(it);
    return it->requests > 0;
}

/* ---- sending */

static void wait_for(struct worker *worker, struct connection *it, bool room) {
    if (it->wants_room != room) {
        struct epoll_event event = {.events = room ? EPOLLIN | EPOLLOUT : EPOLLIN, .data.ptr = it};
        if (epoll_ctl(worker->epoll, EPOLL_CTL_MOD, it->socket, &event) != 0) {
            fail("epoll_ctl: %s", strerror(errno));
        }
        it->wants_room = room;
    }
}

static void drop_sent(struct connection *it, size_t count) {
    while (count > 0) {
        struct iovec *piece = &it->pieces[it->piece];
        size_t part = count < piece->iov_len ? count : piece->iov_len;
        piece->iov_base = (char *)piece->iov_base + part;
        piece->iov_len -= part;
        count -= part;
        it->piece += piece->iov_len == 0;
    }
}

static void send_pieces(struct worker *worker, struct connection *it) {
    while (it->piece < it->piece_count) {
        struct msghdr message = {.msg_iov = it->pieces + it->piece, .msg_iovlen = it->piece_count - it->piece};
        ssize_t count = sendmsg(it->socket, &message, MSG_NOSIGNAL);
        if (count < 0 && (errno == EAGAIN || errno == EWOULDBLOCK)) {
            wait_for(worker, it, true);
            return;
        }
        if (count < 0 && errno != EINTR) {
            fail("a request could not be sent: %s", strerror(errno));
            return;
        }
        drop_sent(it, count > 0 ? (size_t)count : 0);
    }
    wait_for(worker, it, false);
}

/* Sends the next batch, or leaves the connection at rest where the round ends. */
static void go_on(struct worker *worker, struct connection *it) {
    if (round_state.stopping || !write_batch(worker, it)) {
        worker->busy--;
        return;
    }
    it->sent_at = now();
    send_pieces(worker, it);
}

/* ---- replies */

void note_wrong(struct worker *worker, const char *reply, size_t length) {
    if (worker->first_wrong[0] == 0) {
        shown(reply, length < 60 ? length : 60, worker->first_wrong, sizeof worker->first_wrong);
    }
}

static void mark_wrong(struct worker *worker, struct connection *it, const char *reply, size_t length) {
    note_wrong(worker, reply, length);
    it->wrong = true;
}

/* Counts what needed no reply, up to the next request that does. */
static void pass_quiet(struct worker *worker, struct connection *it) {
    while (it->request < it->requests && it->kinds[it->request] == STORE_QUIETLY) {
        it->request++;
        it->keys_before++;
        worker->answered++;
    }
}

static unsigned keys_of_request(const struct connection *it) {
    return it->kinds[it->request] == RETRIEVE && !settings.noreply ? settings.keys_a_get : 1;
}

static void end_reply(struct worker *worker, struct connection *it, uint64_t moment) {
    if (round_state.measuring) {
        histogram_add(&worker->latencies, moment - it->sent_at);
    }
    worker->wrong += it->wrong;
    worker->answered++;
    it->wrong = false;
    it->keys_before += keys_of_request(it);
    it->key = 0;
    it->request++;
    atomic_store_explicit(&worker->operations, worker->answered, memory_order_relaxed);
}

/* Whether a line is a whole reply that the protocol knows, though not the wanted one. */
static bool is_whole_reply(const char *line, size_t length) {
    static const char *const starts[] = {
        "END\r\n", "ERROR\r\n", "STORED\r\n", "NOT_STORED\r\n", "NOT_FOUND\r\n", "SERVER_ERROR ", "CLIENT_ERROR ",
    };
    for (size_t i = 0; i < sizeof starts / sizeof *starts; i++) {
        size_t start = strlen(starts[i]);
        if (length >= start && memcmp(line, starts[i], start) == 0) {
            return true;
        }
    }
    return false;
}

static void take_unwanted(struct worker *worker, struct connection *it, const char *line, size_t length, uint64_t moment) {
    char text[256];
    if (!is_whole_reply(line, length)) {
        fail("a reply that can't be followed: `%s`", shown(line, length < 100 ? length : 100, text, sizeof text));
        return;
    }
    mark_wrong(worker, it, line, length);
    end_reply(worker, it, moment);
}

static bool is_text(const char *line, size_t length, const char *text, size_t wanted) {
    return length == wanted && memcmp(line, text, wanted) == 0;
}

/* The numbers that one connection is told of a counter that only grows must grow. */
static void take_number(struct worker *worker, struct connection *it, const char *line, size_t length, uint64_t moment) {
    uint64_t number = 0;
    size_t at = 0;
    while (at < length && line[at] >= '0' && line[at] <= '9' && at < 20) {
        number = number * 10 + (uint64_t)(line[at++] - '0');
    }
    if (at == 0 || !is_text(line + at, length - at, "\r\n", 2)) {
        take_unwanted(worker, it, line, length, moment);
        return;
    }
    if (number <= it->last_number) {
        mark_wrong(worker, it, line, length);
    }
    it->last_number = number;
    end_reply(worker, it, moment);
}

static void take_value_line(struct worker *worker, struct connection *it, const char *line, size_t length, uint64_t moment) {
    unsigned values = settings.nothing ? 0 : keys_of_request(it);
    if (it->key == values && is_text(line, length, "END\r\n", 5)) {
        end_reply(worker, it, moment);
        return;
    }
    char wanted[KEY_BYTES + 40] = "VALUE ";
    size_t at = 6;
    if (it->key < values) {
        write_key(wanted + at, it->keys[it->keys_before + it->key]);
        at += KEY_BYTES;
        at += (size_t)sprintf(wanted + at, " 0 %llu\r\n", (unsigned long long)settings.value_bytes);
    }
    if (!is_text(line, length, wanted, at)) {
        take_unwanted(worker, it, line, length, moment);
        return;
    }
    it->in_block = true;
    it->block_at = 0;
}

static void take_line(struct worker *worker, struct connection *it, const char *line, size_t length, uint64_t moment) {
    pass_quiet(worker, it);
    if (it->request >= it->requests) {
        char text[256];
        fail("a reply that nothing asked for: `%s`", shown(line, length < 60 ? length : 60, text, sizeof text));
        return;
    }
    switch (it->kinds[it->request]) {
    case RETRIEVE:
        take_value_line(worker, it, line, length, moment);
        break;
    case COUNT:
        take_number(worker, it, line, length, moment);
        break;
    default:
        if (is_text(line, length, "STORED\r\n", 8)) {
            end_reply(worker, it, moment);
        } else {
            take_unwanted(worker, it, line, length, moment);
        }
    }
}

/* Compares what came of a block, and gives how many bytes were of it. */
static size_t take_block(struct worker *worker, struct connection *it, const char *bytes, size_t count) {
    uint64_t left = settings.value_bytes + 2 - it->block_at;
    size_t part = count < left ? count : (size_t)left;
    if (!is_part_of_block(it->keys[it->keys_before + it->key], it->block_at, bytes, part)) {
        mark_wrong(worker, it, bytes, part);
    }
    it->block_at += part;
    if (it->block_at == settings.value_bytes + 2) {
        it->in_block = false;
        it->key++;
    }
    return part;
}

static void end_batch(struct worker *worker, struct connection *it) {
    char text[256];
    if (it->held_length > 0) {
        fail("a reply that nothing asked for: `%s`", shown(it->held, it->held_length < 60 ? it->held_length : 60, text, sizeof text));
        return;
    }
    go_on(worker, it);
}

static void take(struct worker *worker, struct connection *it, const char *bytes, size_t count, uint64_t moment) {
    while (count > 0 && !round_state.failed) {
        size_t part;
        if (it->in_block) {
            part = take_block(worker, it, bytes, count);
        } else {
            const char *end = memchr(bytes, '\n', count);
            if (end == NULL) {
                break;
            }
            part = (size_t)(end + 1 - bytes);
            take_line(worker, it, bytes, part, moment);
        }
        bytes += part;
        count -= part;
    }
    if (count >= LINE_BYTES) {
        fail("a line of a reply is longer than %d bytes", LINE_BYTES);
        return;
    }
    memcpy(it->held, bytes, count);
    it->held_length = count;
    if (it->request == it->requests && !round_state.failed) {
        end_batch(worker, it);
    }
}

/* Receives once; where more has come, the next wait says so. */
static void receive(struct worker *worker, struct connection *it) {
    ssize_t count = recv(it->socket, worker->received + it->held_length, RECEIVED_BYTES, 0);
    if (count > 0) {
        memcpy(worker->received, it->held, it->held_length);
        take(worker, it, worker->received, it->held_length + (size_t)count, now());
        return;
    }
    if (count == 0) {
        fail("the server closed a connection");
    } else if (errno != EAGAIN && errno != EWOULDBLOCK && errno != EINTR) {
        fail("a reply could not be received: %s", strerror(errno));
    }
}

/* ---- events */

static void take_events(struct worker *worker) {
    struct epoll_event events[EVENTS];
    int count = epoll_wait(worker->epoll, events, EVENTS, TICK_MILLISECONDS);
    if (count < 0 && errno != EINTR) {
        fail("epoll_wait: %s", strerror(errno));
    }
    for (int i = 0; i < count && !round_state.failed; i++) {
        struct connection *it = events[i].data.ptr;
        if (events[i].events & EPOLLOUT) {
            send_pieces(worker, it);
        }
        if (events[i].events & (EPOLLIN | EPOLLERR | EPOLLHUP)) {
            receive(worker, it);
        }
    }
    if (count > 0) {
        worker->last_event = now();
    } else if ((double)(now() - worker->last_event) > settings.patience * 1e9) {
        fail("no reply for %.0f seconds, and %u of %u connections wait", settings.patience, worker->busy,
             worker->connection_count);
    }
}

void *work(void *given) {
    struct worker *worker = given;
    worker->busy = worker->connection_count;
    worker->last_event = now();
    for (unsigned i = 0; i < worker->connection_count; i++) {
        go_on(worker, &worker->connections[i]);
    }
    while (worker->busy > 0 && !round_state.failed) {
        take_events(worker);
    }
    return NULL;
}
