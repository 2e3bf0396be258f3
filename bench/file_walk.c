/* What page files are measured beside: walks over all records by the libraries of gdbm and LMDB.
 *
 *   file_walk gdbm|lmdb FILE RECORDS     makes the file anew
 *   file_walk gdbm|lmdb FILE             opens the file, reads each of its records once, in its own order, closes it
 *
 * Keys and values have 8 bytes. Key i is the i-th number of splitmix64, the highest byte first, and its value the bytes
 * of the key in reverse. Neither library takes a lock, and neither synchronizes what it writes. A walk prints how many
 * records have the right value, and its nanoseconds. */
#include <gdbm.h>
#include <lmdb.h>
#include <stdint.h>
#include <stdio.h>
#include <stdlib.h>
#include <string.h>
#include <time.h>

#define BYTES 8
/* More bytes than a file here has. */
#define MAP_SIZE ((size_t)1 << 30)

static void make_pair(uint64_t i, char key[BYTES], char value[BYTES]) {
    uint64_t bits = (i + 1) * UINT64_C(0x9e3779b97f4a7c15);
    bits = (bits ^ (bits >> 30)) * UINT64_C(0xbf58476d1ce4e5b9);
    bits = (bits ^ (bits >> 27)) * UINT64_C(0x94d049bb133111eb);
    bits ^= bits >> 31;
    for (int at = 0; at < BYTES; at++) {
        key[at] = (char)(bits >> (8 * (BYTES - 1 - at)));
        value[BYTES - 1 - at] = key[at];
    }
}

static int is_right(const char *key, size_t key_len, const char *value, size_t value_len) {
    if (key_len != BYTES || value_len != BYTES) return 0;
    for (int at = 0; at < BYTES; at++) {
        if (key[at] != value[BYTES - 1 - at]) return 0;
    }
    return 1;
}

static uint64_t nanoseconds(void) {
    struct timespec now;
    clock_gettime(CLOCK_MONOTONIC, &now);
    return (uint64_t)now.tv_sec * UINT64_C(1000000000) + (uint64_t)now.tv_nsec;
}

static void die(const char *what, const char *why) {
    fprintf(stderr, "file_walk: %s: %s\n", what, why);
    exit(2);
}

static GDBM_FILE open_gdbm(const char *name, int flags) {
    GDBM_FILE file = gdbm_open(name, 0, flags | GDBM_NOLOCK, 0600, NULL);
    if (file == NULL) die("gdbm_open", gdbm_strerror(gdbm_errno));
    return file;
}

static void make_gdbm(const char *name, uint64_t records) {
    GDBM_FILE file = open_gdbm(name, GDBM_NEWDB);
    for (uint64_t i = 0; i < records; i++) {
        char key[BYTES], value[BYTES];
        make_pair(i, key, value);
        datum k = {key, BYTES}, v = {value, BYTES};
        if (gdbm_store(file, k, v, GDBM_REPLACE) != 0) die("gdbm_store", gdbm_strerror(gdbm_errno));
    }
    if (gdbm_close(file) != 0) die("gdbm_close", gdbm_strerror(gdbm_errno));
}

static uint64_t walk_gdbm(const char *name) {
    uint64_t right = 0;
    GDBM_FILE file = open_gdbm(name, GDBM_READER);
    datum key = gdbm_firstkey(file);
    while (key.dptr != NULL) {
        datum value = gdbm_fetch(file, key);
        if (value.dptr == NULL) die("gdbm_fetch", gdbm_strerror(gdbm_errno));
        right += is_right(key.dptr, key.dsize, value.dptr, value.dsize);
        free(value.dptr);
        datum next = gdbm_nextkey(file, key);
        free(key.dptr);
        key = next;
    }
    if (gdbm_close(file) != 0) die("gdbm_close", gdbm_strerror(gdbm_errno));
    return right;
}

static void need(int code, const char *what) {
    if (code != MDB_SUCCESS) die(what, mdb_strerror(code));
}

/* An environment with a transaction, and the one table in it. */
struct lmdb {
    MDB_env *env;
    MDB_txn *txn;
    MDB_dbi table;
};

static struct lmdb open_lmdb(const char *name, unsigned flags) {
    struct lmdb it;
    need(mdb_env_create(&it.env), "mdb_env_create");
    need(mdb_env_set_mapsize(it.env, MAP_SIZE), "mdb_env_set_mapsize");
    need(mdb_env_open(it.env, name, flags | MDB_NOSUBDIR | MDB_NOLOCK, 0600), "mdb_env_open");
    need(mdb_txn_begin(it.env, NULL, flags & MDB_RDONLY, &it.txn), "mdb_txn_begin");
    need(mdb_dbi_open(it.txn, NULL, 0, &it.table), "mdb_dbi_open");
    return it;
}

static void make_lmdb(const char *name, uint64_t records) {
    remove(name);
    struct lmdb it = open_lmdb(name, MDB_NOSYNC);
    for (uint64_t i = 0; i < records; i++) {
        char key[BYTES], value[BYTES];
        make_pair(i, key, value);
        MDB_val k = {BYTES, key}, v = {BYTES, value};
        need(mdb_put(it.txn, it.table, &k, &v, 0), "mdb_put");
    }
    need(mdb_txn_commit(it.txn), "mdb_txn_commit");
    mdb_env_close(it.env);
}

static uint64_t walk_lmdb(const char *name) {
    uint64_t right = 0;
    struct lmdb it = open_lmdb(name, MDB_RDONLY);
    MDB_cursor *cursor;
    MDB_val key, value;
    need(mdb_cursor_open(it.txn, it.table, &cursor), "mdb_cursor_open");
    while (mdb_cursor_get(cursor, &key, &value, MDB_NEXT) == MDB_SUCCESS) {
        right += is_right(key.mv_data, key.mv_size, value.mv_data, value.mv_size);
    }
    mdb_cursor_close(cursor);
    mdb_txn_abort(it.txn);
    mdb_env_close(it.env);
    return right;
}

int main(int argc, char **argv) {
    int is_gdbm = argc > 1 && strcmp(argv[1], "gdbm") == 0;
    if ((argc != 3 && argc != 4) || (!is_gdbm && strcmp(argv[1], "lmdb") != 0)) {
        fputs("file_walk gdbm|lmdb FILE [RECORDS]\n", stderr);
        return 2;
    }
    if (argc == 4) {
        uint64_t records = strtoull(argv[3], NULL, 10);
        (is_gdbm ? make_gdbm : make_lmdb)(argv[2], records);
        return 0;
    }
    uint64_t begun = nanoseconds();
    uint64_t right = (is_gdbm ? walk_gdbm : walk_lmdb)(argv[2]);
    printf("%llu %llu\n", (unsigned long long)right, (unsigned long long)(nanoseconds() - begun));
    return 0;
}
