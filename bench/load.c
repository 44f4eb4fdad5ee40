/*
 * A load generator for the text protocol of memcached: closed loop, each reply compared byte for byte.
 *
 *     cc -O2 -std=c11 -o load bench/load.c bench/load_client.c bench/load_figures.c -lpthread -lm
 *     load --port PORT --pid SERVER [options] < rounds
 *
 * It opens its connections, and then reads one round a line from standard input: how many seconds to warm up and how
 * many to measure. For each it writes one line of JSON. `load --help` names the options.
 *
 * Each connection sends a batch of --depth requests, waits for all the replies, and sends the next. What is stored
 * under a key is a function of the key, so a reply that belongs to another key is seen as wrong. A latency is the time
 * from the sending of a batch to the receipt of the last byte of the reply. Latencies are counted in a log-linear
 * histogram, whose cells are at most 1/128 of their value wide.
 *
 * The exit status is 0 where every round ended, even with wrong replies, which are counted; 1 where one could not go
 * on, and 2 where the options are wrong.
 */
#define _GNU_SOURCE
#include "load.h"

#include <getopt.h>
#include <poll.h>
#include <stdarg.h>
#include <stdio.h>
#include <stdlib.h>
#include <string.h>
#include <sys/epoll.h>
#include <unistd.h>

static const char *const operation_names[] = {"get", "set", "mix", "incr", "insert", NULL};

struct settings settings = {
    .threads = 4,
    .connections = 50,
    .depth = 1,
    .keys_a_get = 1,
    .gets_percent = 90,
    .keys = 100000,
    .value_bytes = 100,
    .seed = 1,
    .patience = 10,
};

struct round round_state = {.lock = PTHREAD_MUTEX_INITIALIZER};

void fail(const char *format, ...) {
    pthread_mutex_lock(&round_state.lock);
    if (!round_state.failed) {
        va_list words;
        va_start(words, format);
        vsnprintf(round_state.fault, sizeof round_state.fault, format, words);
        va_end(words);
    }
    round_state.failed = true;
    round_state.stopping = true;
    pthread_mutex_unlock(&round_state.lock);
}

void *memory_of(size_t count, size_t size) {
    void *made = calloc(count, size);
    if (made == NULL) {
        fprintf(stderr, "load: no memory\n");
        exit(1);
    }
    return made;
}

/* ---- rounds */

struct snapshot {
    uint64_t moment, operations, server, client, user_ticks, system_ticks;
};

/* How many ticks of the clock the server's threads were seen in its own code, and in the kernel. */
static void read_ticks(struct snapshot *into) {
    char path[64], text[1024];
    unsigned long user = 0, kernel = 0;
    snprintf(path, sizeof path, "/proc/%d/stat", settings.server);
    FILE *file = fopen(path, "r");
    if (file == NULL) {
        return;
    }
    size_t length = fread(text, 1, sizeof text - 1, file);
    fclose(file);
    text[length] = 0;
    const char *after = strrchr(text, ')');
    if (after != NULL && sscanf(after + 2, "%*c %*d %*d %*d %*d %*d %*u %*u %*u %*u %*u %lu %lu", &user, &kernel) == 2) {
        into->user_ticks = user;
        into->system_ticks = kernel;
    }
}

static struct snapshot snapshot_of(struct worker *workers) {
    struct snapshot taken = {.moment = now(), .client = nanoseconds(CLOCK_PROCESS_CPUTIME_ID)};
    clockid_t clock;
    if (settings.server > 0 && clock_getcpuclockid(settings.server, &clock) == 0) {
        taken.server = nanoseconds(clock);
        read_ticks(&taken);
    }
    for (unsigned i = 0; i < settings.threads; i++) {
        taken.operations += atomic_load_explicit(&workers[i].operations, memory_order_relaxed);
    }
    return taken;
}

static void print_round(struct worker *workers, const struct snapshot *from, const struct snapshot *to) {
    static struct histogram all;
    uint64_t wrong = 0;
    const char *first_wrong = "";
    memset(&all, 0, sizeof all);
    for (unsigned i = 0; i < settings.threads; i++) {
        histogram_join(&all, &workers[i].latencies);
        wrong += workers[i].wrong;
        first_wrong = first_wrong[0] ? first_wrong : workers[i].first_wrong;
    }
    printf("{\"operations\": %llu, \"seconds\": %.6f, ", (unsigned long long)(to->operations - from->operations),
           (double)(to->moment - from->moment) / 1e9);
    printf("\"server_ns\": %llu, \"client_ns\": %llu, ", (unsigned long long)(to->server - from->server),
           (unsigned long long)(to->client - from->client));
    printf("\"user_ticks\": %llu, \"system_ticks\": %llu, ", (unsigned long long)(to->user_ticks - from->user_ticks),
           (unsigned long long)(to->system_ticks - from->system_ticks));
    printf("\"latencies\": %llu, \"p50\": %.3f, \"p99\": %.3f, \"p999\": %.3f, \"longest\": %.3f, ",
           (unsigned long long)all.count, percentile(&all, 0.5), percentile(&all, 0.99), percentile(&all, 0.999),
           (double)all.longest / 1000);
    printf("\"wrong\": %llu, \"first_wrong\": \"", (unsigned long long)wrong);
    for (const char *at = first_wrong; *at; at++) {
        printf(*at == '"' || *at == '\\' ? "\\%c" : "%c", *at);
    }
    printf("\"}\n");
    fflush(stdout);
}

/* What all increments of a run came to must be how many were answered. */
static void check_counter(struct worker *workers) {
    char reply[LINE_BYTES], wanted[LINE_BYTES], digits[24];
    uint64_t answered = 0;
    for (unsigned i = 0; i < settings.threads; i++) {
        answered += workers[i].answered;
    }
    snprintf(digits, sizeof digits, "%llu", (unsigned long long)answered);
    snprintf(wanted, sizeof wanted, "VALUE counter 0 %zu\r\n%s\r\nEND\r\n", strlen(digits), digits);
    int control = connected();
    if (control >= 0 && told(control, "get counter\r\n") && heard(control, reply, sizeof reply, "END\r\n") &&
        strcmp(reply, wanted) != 0) {
        note_wrong(&workers[0], reply, strlen(reply));
        workers[0].wrong++;
    }
    close(control);
}

static void start_round(struct worker *workers) {
    round_state.stopping = false;
    round_state.measuring = settings.operation == INSERT;
    for (unsigned i = 0; i < settings.threads; i++) {
        memset(&workers[i].latencies, 0, sizeof workers[i].latencies);
        workers[i].wrong = 0;
        workers[i].first_wrong[0] = 0;
        int fault = pthread_create(&workers[i].thread, NULL, work, &workers[i]);
        if (fault != 0) {
            fprintf(stderr, "load: no thread: %s\n", strerror(fault));
            exit(1);
        }
    }
}

static void end_round(struct worker *workers) {
    for (unsigned i = 0; i < settings.threads; i++) {
        pthread_join(workers[i].thread, NULL);
    }
    if (settings.operation == INCREMENT && !round_state.failed) {
        check_counter(workers);
    }
}

/* Inserting takes from the first key to the last, and every other round its seconds. */
static bool run_round(struct worker *workers, double warm, double seconds) {
    struct snapshot from, to;
    round_state.next_key = settings.first_key;
    round_state.end_key = settings.first_key + settings.keys;
    from = snapshot_of(workers);
    start_round(workers);
    if (settings.operation == INSERT) {
        end_round(workers);
        to = snapshot_of(workers);
    } else {
        sleep_until(now() + (uint64_t)(warm * 1e9));
        from = snapshot_of(workers);
        round_state.measuring = true;
        sleep_until(now() + (uint64_t)(seconds * 1e9));
        to = snapshot_of(workers);
        round_state.measuring = false;
        round_state.stopping = true;
        end_round(workers);
    }
    if (!round_state.failed) {
        print_round(workers, &from, &to);
    }
    return !round_state.failed;
}

/* ---- the command line */

static void usage(FILE *to) {
    fprintf(to, "load --port PORT [--pid SERVER] [--operation get|set|mix|incr|insert] [--threads N] [--connections N]\n"
                "     [--idle N] [--depth N] [--keys-a-get N] [--gets PERCENT] [--keys N] [--first-key N] [--value BYTES]\n"
                "     [--zipf EXPONENT] [--noreply] [--nothing] [--patience SECONDS] [--seed N]\n"
                "Standard input: a round a line, `WARM-SECONDS SECONDS`.\n"
                "With --noreply the last request of a batch is a get of the key before it; with --nothing no key that is got stands.\n");
}

static double number_between(const char *name, const char *text, double least, double most) {
    char *end;
    double number = strtod(text, &end);
    if (*text == 0 || *end != 0 || !(number >= least && number <= most)) {
        fprintf(stderr, "load: --%s is a number from %.15g to %.15g, not %s\n", name, least, most, text);
        exit(2);
    }
    return number;
}

static enum operation operation_of(const char *name) {
    for (int i = 0; operation_names[i] != NULL; i++) {
        if (strcmp(name, operation_names[i]) == 0) {
            return (enum operation)i;
        }
    }
    fprintf(stderr, "load: there is no operation %s\n", name);
    exit(2);
}

static const struct option options[] = {
    {"port", required_argument, NULL, 'p'},        {"pid", required_argument, NULL, 'P'},
    {"operation", required_argument, NULL, 'o'},   {"threads", required_argument, NULL, 't'},
    {"connections", required_argument, NULL, 'c'}, {"idle", required_argument, NULL, 'i'},
    {"depth", required_argument, NULL, 'd'},       {"keys-a-get", required_argument, NULL, 'm'},
    {"gets", required_argument, NULL, 'g'},        {"keys", required_argument, NULL, 'k'},
    {"first-key", required_argument, NULL, 'f'},   {"value", required_argument, NULL, 'v'},
    {"zipf", required_argument, NULL, 'z'},        {"noreply", no_argument, NULL, 'n'},
    {"patience", required_argument, NULL, 'w'},    {"seed", required_argument, NULL, 's'},
    {"nothing", no_argument, NULL, 'N'},           {"help", no_argument, NULL, 'h'},
    {0},
};

static void take_option(int letter, const char *name, const char *text) {
    switch (letter) {
    case 'p': settings.port = (int)number_between(name, text, 1, 65535); break;
    case 'P': settings.server = (int)number_between(name, text, 1, 1 << 30); break;
    case 'o': settings.operation = operation_of(text); break;
    case 't': settings.threads = (unsigned)number_between(name, text, 1, GREATEST_THREADS); break;
    case 'c': settings.connections = (unsigned)number_between(name, text, 1, 100000); break;
    case 'i': settings.idle = (unsigned)number_between(name, text, 0, 100000); break;
    case 'd': settings.depth = (unsigned)number_between(name, text, 1, GREATEST_DEPTH); break;
    case 'm': settings.keys_a_get = (unsigned)number_between(name, text, 1, GREATEST_KEYS); break;
    case 'g': settings.gets_percent = (unsigned)number_between(name, text, 0, 100); break;
    case 'k': settings.keys = (uint64_t)number_between(name, text, 1, 1e12); break;
    case 'f': settings.first_key = (uint64_t)number_between(name, text, 0, 1e12); break;
    case 'v': settings.value_bytes = (uint64_t)number_between(name, text, 1, GREATEST_VALUE); break;
    case 'z': settings.zipf_exponent = number_between(name, text, 0.01, 10); break;
    case 'n': settings.noreply = true; break;
    case 'N': settings.nothing = true; break;
    case 'w': settings.patience = number_between(name, text, 0.1, 1000); break;
    case 's': settings.seed = (uint64_t)number_between(name, text, 0, 1e15); break;
    case 'h': usage(stdout); exit(0);
    default: usage(stderr); exit(2);
    }
}

static void read_options(int count, char **words) {
    int letter, index = 0;
    while ((letter = getopt_long(count, words, "", options, &index)) != -1) {
        take_option(letter, letter == '?' ? "" : options[index].name, optarg);
    }
    if (settings.port == 0 || optind < count || (settings.noreply && (settings.operation != SET || settings.depth < 2))) {
        fprintf(stderr, "load: --port is needed, words without an option aren't known, and --noreply goes with set and a "
                        "depth of 2 or more\n");
        exit(2);
    }
    settings.threads = settings.threads < settings.connections ? settings.threads : settings.connections;
}

static struct worker *make_workers(void) {
    struct worker *workers = aligned_alloc(64, settings.threads * sizeof *workers);
    if (workers == NULL) {
        fprintf(stderr, "load: no memory\n");
        exit(1);
    }
    memset(workers, 0, settings.threads * sizeof *workers);
    for (unsigned i = 0; i < settings.threads; i++) {
        struct worker *worker = &workers[i];
        worker->luck = mixed(settings.seed * GREATEST_THREADS + i + 1);
        worker->epoll = epoll_create1(EPOLL_CLOEXEC);
        worker->connection_count = settings.connections / settings.threads + (i < settings.connections % settings.threads);
        worker->connections = memory_of(worker->connection_count, sizeof *worker->connections);
        for (unsigned j = 0; j < worker->connection_count; j++) {
            if (!open_connection(worker, &worker->connections[j])) {
                return workers;
            }
        }
    }
    return workers;
}

static bool make_counter(void) {
    char reply[LINE_BYTES];
    int control = connected();
    bool made = control >= 0 && told(control, "set counter 0 0 1\r\n0\r\n") && heard(control, reply, sizeof reply, "\r\n");
    if (made && strcmp(reply, "STORED\r\n") != 0) {
        fail("the counter was not stored: %.60s", reply);
    }
    close(control);
    return !round_state.failed;
}

/* Reads the next round; false at the end of input, or where none is asked for in two minutes. */
static bool next_round(double *warm, double *seconds) {
    char line[LINE_BYTES];
    struct pollfd input = {.fd = STDIN_FILENO, .events = POLLIN};
    if (poll(&input, 1, 120000) <= 0 || fgets(line, sizeof line, stdin) == NULL) {
        return false;
    }
    if (sscanf(line, "%lf %lf", warm, seconds) != 2 || *warm < 0 || *seconds <= 0 || *warm + *seconds > 3600) {
        fprintf(stderr, "load: a round is two numbers of seconds, not %s", line);
        exit(2);
    }
    return true;
}

int main(int count, char **words) {
    double warm, seconds;
    read_options(count, words);
    setvbuf(stdin, NULL, _IONBF, 0);
    prepare();
    bool ready = open_idle() && (settings.operation != INCREMENT || make_counter());
    struct worker *workers = ready ? make_workers() : NULL;
    while (!round_state.failed && next_round(&warm, &seconds) && run_round(workers, warm, seconds)) {
    }
    if (round_state.failed) {
        fprintf(stderr, "load: %s\n", round_state.fault);
        return 1;
    }
    return 0;
}
