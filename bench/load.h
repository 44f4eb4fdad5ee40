/* What the parts of the load generator share: what is asked for, a round, and connections with their threads. */
#ifndef LOAD_H
#define LOAD_H

#include <pthread.h>
#include <stdatomic.h>
#include <stdbool.h>
#include <stddef.h>
#include <stdint.h>
#include <sys/uio.h>

#include "load_figures.h"

enum {
    GREATEST_VALUE = 8 << 20,
    RECEIVED_BYTES = 1 << 18,
    LINE_BYTES = 512,
    /* a call that sends takes 1,024 pieces, and a request is two of them */
    GREATEST_DEPTH = 500,
    GREATEST_KEYS = 1000,
    GREATEST_THREADS = 64,
};

enum operation { GET, SET, MIX, INCREMENT, INSERT };

struct settings {
    enum operation operation;
    int port, server;
    unsigned threads, connections, idle, depth, keys_a_get, gets_percent;
    uint64_t keys, first_key, value_bytes, seed;
    double zipf_exponent, patience;
    bool noreply, nothing;
};

extern struct settings settings;

/* What all threads of a round share. */
struct round {
    atomic_bool stopping, measuring, failed;
    /* the next key that is inserted, and the one after the last */
    atomic_uint_fast64_t next_key;
    uint64_t end_key;
    pthread_mutex_t lock;
    char fault[1024];
};

extern struct round round_state;

/* Keeps the first fault of a run, and has all threads end. */
__attribute__((format(printf, 1, 2))) void fail(const char *format, ...);

/* Memory that is zero; where there is none the program ends. */
void *memory_of(size_t count, size_t size);

enum request { RETRIEVE, STORE, STORE_QUIETLY, COUNT };

struct connection {
    int socket;
    bool wants_room;
    uint64_t sent_at;
    /* the batch in flight: its requests, and the keys of all of them in order */
    unsigned requests;
    enum request kinds[GREATEST_DEPTH];
    uint64_t *keys;
    /* what is still to be sent: pieces from `piece` on */
    struct iovec *pieces;
    unsigned piece, piece_count;
    char *text;
    size_t text_length, text_start;
    /* where in the batch the replies are: a request, its key, and in a block how many bytes have come */
    unsigned request, key, keys_before;
    bool in_block, wrong;
    uint64_t block_at;
    /* the start of a line whose end hasn't come */
    char held[LINE_BYTES];
    size_t held_length;
    uint64_t last_number;
};

struct worker {
    pthread_t thread;
    int epoll;
    struct connection *connections;
    unsigned connection_count, busy;
    uint64_t luck, last_event;
    char received[LINE_BYTES + RECEIVED_BYTES];
    _Alignas(64) atomic_uint_fast64_t operations;
    uint64_t answered, wrong;
    char first_wrong[256];
    struct histogram latencies;
};

/* Makes the bytes that values are parts of, and the law by which keys are drawn. */
void prepare(void);

/* A connection that blocks; below 0 where there is none, which is a fault. */
int connected(void);

/* Sends a text on a connection that blocks. */
bool told(int socket, const char *text);

/* Receives until the text ends as wanted, on a connection that blocks. */
bool heard(int socket, char *into, size_t room, const char *ending);

/* Opens connections that stay idle. Each is asked for the version once, so that it has been accepted. */
bool open_idle(void);

/* Opens a connection whose replies the worker takes. */
bool open_connection(struct worker *worker, struct connection *it);

/* Keeps the first wrong reply of a round. */
void note_wrong(struct worker *worker, const char *reply, size_t length);

/* What a thread does in a round: asks on all its connections until the round ends and all replies have come. */
void *work(void *worker);

#endif
