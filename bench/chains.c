// What a find costs in the hash table of memcached 1.6 (its assoc.c), for bench/bench.py, which compiles it and runs it beside
// `mc_bench finds index`. Both have the same items and draw the same keys in the same order.
//
//     chains ITEMS WINDOWS
//
// A window is 1024 keys, drawn and hashed before its time is taken. For each of so many windows of each kind it prints the kind, how
// many keys were found, and the processor's nanoseconds. The kinds are `hits`, of keys that have an item, `turns`, which are such hits
// one at a time, none begun before the one before has ended, and `misses`, of keys that have none.
#include <inttypes.h>
#include <stdio.h>
#include <stdlib.h>
#include <string.h>
#include <time.h>

enum { KEY = 32, BLOCK = 100, WINDOW = 1024, PAGE = 1 << 20, CHUNK = 192, FIRST_POWER = 16 };

// Its fields, their order and widths are memcached's. Behind it come 8 bytes of a unique number, the key with a zero byte, and the
// block with a line's end: 191 bytes, in the chunks of 192 of its slab class 4.
typedef struct item {
    struct item *next, *prev, *h_next;
    uint32_t time, exptime;
    int nbytes;
    uint16_t refcount, it_flags;
    uint8_t slabs_clsid, nkey;
    uint64_t cas[];
} item;

static item **table;
static unsigned power;

static char *item_key(item *it) { return (char *)it->cas + 8; }

// MurmurHash3 of 32 bits for x86, by Austin Appleby, which memcached hashes keys by. A key's length is a multiple of 4 here.
static uint32_t hash_of(const char *key, size_t length) {
    uint32_t hash = 0;
    for (size_t at = 0; at < length; at += 4) {
        uint32_t part;
        memcpy(&part, key + at, 4);
        part *= 0xcc9e2d51;
        part = (part << 15 | part >> 17) * 0x1b873593;
        hash ^= part;
        hash = (hash << 13 | hash >> 19) * 5 + 0xe6546b64;
    }
    hash ^= (uint32_t)length;
    hash = (hash ^ hash >> 16) * 0x85ebca6b;
    hash = (hash ^ hash >> 13) * 0xc2b2ae35;
    return hash ^ hash >> 16;
}

static item **bucket_of(uint32_t hash) { return &table[hash & ((1u << power) - 1)]; }

// memcached has this in a file of its own, so it isn't inlined there either.
__attribute__((noinline)) static item *find(const char *key, size_t nkey, uint32_t hash) {
    for (item *it = *bucket_of(hash); it; it = it->h_next)
        if (nkey == it->nkey && memcmp(key, item_key(it), nkey) == 0)
            return it;
    return NULL;
}

static void *zeroed(size_t count, size_t size) {
    void *memory = calloc(count, size);
    if (!memory)
        exit(1);
    return memory;
}

static void put_key(char *onto, uint64_t number) {
    char text[KEY + 1];
    snprintf(text, sizeof text, "key-%028" PRIu64, number);
    memcpy(onto, text, KEY);
}

// Chunks are cut from pages, and a page's last one comes first, as from memcached's free lists.
static item *chunk_of(uint64_t number) {
    static char *page;
    uint64_t chunks = PAGE / CHUNK, at = number % chunks;
    if (at == 0)
        page = zeroed(1, PAGE);
    return (item *)(page + CHUNK * (chunks - 1 - at));
}

static void insert(uint64_t number) {
    item *it = chunk_of(number);
    it->nkey = KEY;
    it->nbytes = BLOCK + 2;
    put_key(item_key(it), number);
    memset(item_key(it) + KEY + 1, 'x', BLOCK);
    item **bucket = bucket_of(hash_of(item_key(it), KEY));
    it->h_next = *bucket;
    *bucket = it;
}

// The same dice as those of mc_testing.
static uint64_t roll(uint64_t sides) {
    static uint64_t state = 1;
    state = state * 6364136223846793005u + 1442695040888963407u;
    return (state >> 33) % sides;
}

static uint64_t now(void) {
    struct timespec time;
    clock_gettime(CLOCK_PROCESS_CPUTIME_ID, &time);
    return (uint64_t)time.tv_sec * 1000000000 + (uint64_t)time.tv_nsec;
}

static char keys[WINDOW][KEY];
static uint32_t hashes[WINDOW];

static uint64_t found_at_once(void) {
    uint64_t found = 0;
    for (int at = 0; at < WINDOW; at++) {
        item *it = find(keys[at], KEY, hashes[at]);
        found += it && !it->exptime;
    }
    return found;
}

// Which key comes next follows from the item that was found: its exptime is 0.
static uint64_t found_in_turn(void) {
    uint64_t found = 0;
    for (unsigned at = 0; at < WINDOW; found++) {
        item *it = find(keys[at], KEY, hashes[at]);
        if (!it)
            break;
        at += 1 + it->exptime;
    }
    return found;
}

static void take_time(const char *name, uint64_t (*found_of)(void), uint64_t first, uint64_t items, uint64_t windows) {
    for (uint64_t window = 0; window < windows; window++) {
        for (int at = 0; at < WINDOW; at++) {
            put_key(keys[at], first + roll(items));
            hashes[at] = hash_of(keys[at], KEY);
        }
        uint64_t began = now(), found = found_of(), took = now() - began;
        printf("%s %" PRIu64 " %" PRIu64 "\n", name, found, took);
    }
}

int main(int count, char **words) {
    uint64_t items = count == 3 ? strtoull(words[1], NULL, 10) : 0, windows = count == 3 ? strtoull(words[2], NULL, 10) : 0;
    if (!items || items > 100000000)
        return 2;
    // it doubles where there are more than three items for two buckets
    for (power = FIRST_POWER; items > (UINT64_C(3) << power) / 2;)
        power++;
    table = zeroed((size_t)1 << power, sizeof *table);
    for (uint64_t number = 0; number < items; number++)
        insert(number);
    take_time("hits", found_at_once, 0, items, windows);
    take_time("turns", found_in_turn, 0, items, windows);
    take_time("misses", found_at_once, items, items, windows);
    return 0;
}
