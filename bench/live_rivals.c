/* What a live file is measured against: the same calls by LMDB's and gdbm's own ways for several callers.
 *
 *   live_rivals lmdb FOLDER CALLERS CALLS WRITEMAP
 *   live_rivals gdbm FILE CALLERS CALLS CACHE BLOCK MAP
 *
 * The base is made anew and filled with every other one of 100,000 keys; then CALLERS threads make CALLS calls
 * together, as crates/bench_threads/src/calls.rt draws them: half of them gets, a quarter each puts and deletes. Keys and
 * values have 8 bytes. Each call is a transaction of its own, and nothing is synchronized to the disk.
 * - LMDB: readers have a transaction each, which is renewed for each get; writers wait for one another. WRITEMAP is 1
 *   where its map may be written to.
 * - gdbm: one mutex round each call. CACHE is the number of buckets that gdbm keeps and BLOCK its block size, 0 for what
 *   gdbm chooses itself; MAP is 1 where it may map the file to memory.
 *
 * It prints how many calls were made, the nanoseconds of the caller that needed the most, and how many gets found the
 * right value. */
#define _DEFAULT_SOURCE
#include <gdbm.h>
#include <lmdb.h>
#include <pthread.h>
#include <stdint.h>
#include <stdio.h>
#include <stdlib.h>
#include <string.h>
#include <time.h>

#define BYTES 8
#define KEYS 100000
#define FIRST_WORD (UINT64_C(1) << 32)
#define MOST_CALLERS 64

enum kind { GET, PUT, DEL };

static uint64_t mixed(uint64_t i) {
    uint64_t z = (i + 1) * UINT64_C(0x9e3779b97f4a7c15);
    z = (z ^ (z >> 30)) * UINT64_C(0xbf58476d1ce4e5b9);
    z = (z ^ (z >> 27)) * UINT64_C(0x94d049bb133111eb);
    return z ^ (z >> 31);
}

static void make_pair(uint64_t i, char key[BYTES], char value[BYTES]) {
    uint64_t bits = mixed(i);
    for (int at = 0; at < BYTES; at++) {
        key[at] = (char)(bits >> (8 * (BYTES - 1 - at)));
        value[BYTES - 1 - at] = key[at];
    }
}

static uint64_t nanoseconds(void) {
    struct timespec now;
    clock_gettime(CLOCK_MONOTONIC, &now);
    return (uint64_t)now.tv_sec * UINT64_C(1000000000) + (uint64_t)now.tv_nsec;
}

static void die(const char *what, const char *why) {
    fprintf(stderr, "live_rivals: %s: %s\n", what, why);
    exit(2);
}

/* A call by a caller, whose own things stand behind `mine`. It tells whether a get found the right value. */
typedef int call(void *mine, enum kind kind, char key[BYTES], char value[BYTES]);

struct caller {
    call *make;
    void *mine;
    uint64_t first, step, calls;
    uint64_t nanoseconds, found;
    pthread_t thread;
};

static void *make_calls(void *arg) {
    struct caller *caller = arg;
    uint64_t begun = nanoseconds();
    for (uint64_t i = 0; i < caller->calls; i++) {
        char key[BYTES], value[BYTES];
        uint64_t word = mixed(FIRST_WORD + caller->first + i * caller->step);
        enum kind kind = word >> 63 == 0 ? GET : word >> 62 == 2 ? PUT : DEL;
        make_pair(word % KEYS, key, value);
        caller->found += (uint64_t)caller->make(caller->mine, kind, key, value);
    }
    caller->nanoseconds = nanoseconds() - begun;
    return NULL;
}

static void fill(call *make, void *mine) {
    for (uint64_t i = 0; i < KEYS; i += 2) {
        char key[BYTES], value[BYTES];
        make_pair(i, key, value);
        make(mine, PUT, key, value);
    }
}

/* Lets all callers make their calls, and prints the line. */
static void run(call *make, void *mine[], unsigned callers, uint64_t calls) {
    static struct caller all[MOST_CALLERS];
    uint64_t slowest = 0, found = 0;
    for (unsigned at = 0; at < callers; at++) {
        struct caller caller = {.make = make, .mine = mine[at], .first = at, .step = callers, .calls = calls / callers};
        all[at] = caller;
        if (pthread_create(&all[at].thread, NULL, make_calls, &all[at]) != 0) die("thread", "none can be made");
    }
    for (unsigned at = 0; at < callers; at++) {
        pthread_join(all[at].thread, NULL);
        if (all[at].nanoseconds > slowest) slowest = all[at].nanoseconds;
        found += all[at].found;
    }
    printf("%llu %llu %llu\n", (unsigned long long)(calls / callers * callers), (unsigned long long)slowest,
           (unsigned long long)found);
}

/* ---- LMDB */

struct lmdb {
    MDB_env *env;
    MDB_dbi base;
    MDB_txn *reader;
};

static void must(const char *what, int code) {
    if (code != 0) die(what, mdb_strerror(code));
}

static int lmdb_get(struct lmdb *mine, MDB_val *key, const char value[BYTES]) {
    MDB_val found;
    if (mine->reader == NULL) {
        must("reader", mdb_txn_begin(mine->env, NULL, MDB_RDONLY, &mine->reader));
    } else {
        must("renew", mdb_txn_renew(mine->reader));
    }
    int code = mdb_get(mine->reader, mine->base, key, &found);
    int is_right = code == 0 && found.mv_size == BYTES && memcmp(found.mv_data, value, BYTES) == 0;
    if (code != MDB_NOTFOUND) must("get", code);
    mdb_txn_reset(mine->reader);
    return is_right;
}

static int lmdb_call(void *mine_, enum kind kind, char key_bytes[BYTES], char value_bytes[BYTES]) {
    struct lmdb *mine = mine_;
    MDB_val key = {BYTES, key_bytes}, value = {BYTES, value_bytes};
    MDB_txn *writer;
    if (kind == GET) return lmdb_get(mine, &key, value_bytes);
    must("writer", mdb_txn_begin(mine->env, NULL, 0, &writer));
    int code = kind == PUT ? mdb_put(writer, mine->base, &key, &value, 0) : mdb_del(writer, mine->base, &key, NULL);
    if (code != MDB_NOTFOUND) must("write", code);
    must("commit", mdb_txn_commit(writer));
    return 0;
}

static void run_lmdb(const char *folder, unsigned callers, uint64_t calls, int is_writemap) {
    static struct lmdb each[MOST_CALLERS];
    void *mine[MOST_CALLERS];
    MDB_env *env;
    MDB_dbi base;
    MDB_txn *opener;
    must("environment", mdb_env_create(&env));
    must("size", mdb_env_set_mapsize(env, (size_t)1 << 28));
    must("open", mdb_env_open(env, folder, MDB_NOSYNC | MDB_NOMETASYNC | (is_writemap ? MDB_WRITEMAP : 0), 0600));
    must("opener", mdb_txn_begin(env, NULL, 0, &opener));
    must("base", mdb_dbi_open(opener, NULL, MDB_CREATE, &base));
    must("empty", mdb_drop(opener, base, 0));
    must("commit", mdb_txn_commit(opener));
    for (unsigned at = 0; at < callers; at++) {
        struct lmdb one = {env, base, NULL};
        each[at] = one;
        mine[at] = &each[at];
    }
    fill(lmdb_call, mine[0]);
    run(lmdb_call, mine, callers, calls);
}

/* ---- gdbm */

static pthread_mutex_t one_at_a_time = PTHREAD_MUTEX_INITIALIZER;

static int gdbm_get(GDBM_FILE file, datum key, const char value[BYTES]) {
    datum found = gdbm_fetch(file, key);
    if (found.dptr == NULL) return 0;
    int is_right = found.dsize == BYTES && memcmp(found.dptr, value, BYTES) == 0;
    free(found.dptr);
    return is_right;
}

static int gdbm_call(void *mine, enum kind kind, char key_bytes[BYTES], char value_bytes[BYTES]) {
    GDBM_FILE file = mine;
    datum key = {key_bytes, BYTES}, value = {value_bytes, BYTES};
    int found = 0;
    pthread_mutex_lock(&one_at_a_time);
    if (kind == GET) {
        found = gdbm_get(file, key, value_bytes);
    } else if (kind == PUT) {
        if (gdbm_store(file, key, value, GDBM_REPLACE) != 0) die("store", gdbm_strerror(gdbm_errno));
    } else if (gdbm_delete(file, key) != 0 && gdbm_errno != GDBM_ITEM_NOT_FOUND) {
        die("delete", gdbm_strerror(gdbm_errno));
    }
    pthread_mutex_unlock(&one_at_a_time);
    return found;
}

static void run_gdbm(const char *name, unsigned callers, uint64_t calls, int cache, int block, int map) {
    void *mine[MOST_CALLERS];
    GDBM_FILE file = gdbm_open(name, block, GDBM_NEWDB | GDBM_NOLOCK | (map ? 0 : GDBM_NOMMAP), 0600, NULL);
    if (file == NULL) die("open", gdbm_strerror(gdbm_errno));
    if (cache != 0) {
        size_t size = (size_t)cache;
        if (gdbm_setopt(file, GDBM_SETCACHESIZE, &size, sizeof size) != 0) die("cache size", gdbm_strerror(gdbm_errno));
    }
    for (unsigned at = 0; at < callers; at++) mine[at] = file;
    fill(gdbm_call, file);
    run(gdbm_call, mine, callers, calls);
    if (gdbm_close(file) != 0) die("close", gdbm_strerror(gdbm_errno));
}

int main(int argc, char **argv) {
    unsigned callers = argc > 4 ? (unsigned)atoi(argv[3]) : 0;
    if (callers == 0 || callers > MOST_CALLERS) die("words", "see the head of live_rivals.c");
    uint64_t calls = strtoull(argv[4], NULL, 10);
    if (argc == 6 && strcmp(argv[1], "lmdb") == 0) {
        run_lmdb(argv[2], callers, calls, atoi(argv[5]));
    } else if (argc == 8 && strcmp(argv[1], "gdbm") == 0) {
        run_gdbm(argv[2], callers, calls, atoi(argv[5]), atoi(argv[6]), atoi(argv[7]));
    } else {
        die("words", "see the head of live_rivals.c");
    }
    return 0;
}
