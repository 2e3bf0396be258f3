/* What stores are measured against: the same calls by gdbm's, LMDB's and SQLite's own libraries.
 *
 *   store_rivals gdbm|lmdb|sqlite PATH RECORDS calls
 *   store_rivals gdbm|lmdb|sqlite PATH RECORDS commits PUTS TIMES
 *   store_rivals gdbm|lmdb|sqlite PATH RECORDS open
 *   store_rivals gdbm|lmdb|sqlite PATH RECORDS direct CALLS
 *
 * Keys and values have 8 bytes, those of crates/bench_store. `calls` makes the file anew, puts RECORDS keys in one
 * transaction, gets each once in another order, and commits; it prints how many were right and the nanoseconds of the puts,
 * the gets and the commit. `commits` makes TIMES transactions of PUTS puts for keys that are there, and prints the
 * nanoseconds of their ends; `open` those of opening and of one get; `direct` those of CALLS gets, of as many puts, each a
 * transaction of its own, and of as many removals. All is synchronized: gdbm by gdbm_sync, LMDB as it does by itself,
 * SQLite in the mode WAL with synchronous=FULL, over one table whose key is its primary key, without a rowid. */
#define _DEFAULT_SOURCE
#include <gdbm.h>
#include <lmdb.h>
#include <sqlite3.h>
#include <stdint.h>
#include <stdio.h>
#include <stdlib.h>
#include <string.h>
#include <time.h>
#include <unistd.h>

#define BYTES 8

static uint64_t mixed(uint64_t i) {
    uint64_t z = (i + 1) * UINT64_C(0x9e3779b97f4a7c15);
    z = (z ^ (z >> 30)) * UINT64_C(0xbf58476d1ce4e5b9);
    z = (z ^ (z >> 27)) * UINT64_C(0x94d049bb133111eb);
    return z ^ (z >> 31);
}

static void make_key(uint64_t i, char key[BYTES]) {
    uint64_t bits = mixed(i);
    for (int at = 0; at < BYTES; at++) key[at] = (char)(bits >> (8 * (BYTES - 1 - at)));
}

static void make_value(uint64_t i, char value[BYTES]) {
    char key[BYTES];
    make_key(i, key);
    for (int at = 0; at < BYTES; at++) value[at] = key[BYTES - 1 - at];
}

static uint64_t asked(uint64_t i, uint64_t records) { return i * UINT64_C(7919) % records; }

static uint64_t nanoseconds(void) {
    struct timespec now;
    clock_gettime(CLOCK_MONOTONIC, &now);
    return (uint64_t)now.tv_sec * UINT64_C(1000000000) + (uint64_t)now.tv_nsec;
}

static void die(const char *what) {
    fprintf(stderr, "store_rivals: %s failed\n", what);
    exit(2);
}

static void must(int holds, const char *what) {
    if (!holds) die(what);
}

/* A base: how it is opened, what it does, and how a transaction begins and ends. */
struct base {
    void (*open)(const char *path);
    void (*begin)(void);
    void (*end)(void);
    void (*put)(char *key, char *value);
    int (*get)(char *key, char *value);
    void (*remove)(char *key);
    void (*close)(void);
};

/* gdbm: a transaction ends with a synchronization. */
static GDBM_FILE gdbm;

static void gdbm_begin(void) {}
static void gdbm_end(void) { must(gdbm_sync(gdbm) == 0, "gdbm_sync"); }
static void open_gdbm(const char *path) {
    gdbm = gdbm_open(path, 0, GDBM_WRCREAT | GDBM_NOLOCK, 0600, NULL);
    must(gdbm != NULL, "gdbm_open");
}
static void put_gdbm(char *key, char *value) {
    datum k = {key, BYTES}, v = {value, BYTES};
    must(gdbm_store(gdbm, k, v, GDBM_REPLACE) == 0, "gdbm_store");
}
static int get_gdbm(char *key, char *value) {
    datum k = {key, BYTES}, found = gdbm_fetch(gdbm, k);
    int is_there = found.dptr != NULL && found.dsize == BYTES;
    if (is_there) memcpy(value, found.dptr, BYTES);
    free(found.dptr);
    return is_there;
}
static void remove_gdbm(char *key) {
    datum k = {key, BYTES};
    gdbm_delete(gdbm, k);
}
static void close_gdbm(void) { must(gdbm_close(gdbm) == 0, "gdbm_close"); }

/* LMDB. */
static MDB_env *env;
static MDB_txn *txn;
static MDB_dbi dbi;

static void begin_lmdb(void) {
    must(mdb_txn_begin(env, NULL, 0, &txn) == 0, "mdb_txn_begin");
    must(mdb_dbi_open(txn, NULL, 0, &dbi) == 0, "mdb_dbi_open");
}
static void end_lmdb(void) { must(mdb_txn_commit(txn) == 0, "mdb_txn_commit"); }
static void open_lmdb(const char *path) {
    must(mdb_env_create(&env) == 0 && mdb_env_set_mapsize(env, (size_t)4 << 30) == 0, "mdb_env_create");
    must(mdb_env_open(env, path, MDB_NOSUBDIR, 0600) == 0, "mdb_env_open");
}
static void put_lmdb(char *key, char *value) {
    MDB_val k = {BYTES, key}, v = {BYTES, value};
    must(mdb_put(txn, dbi, &k, &v, 0) == 0, "mdb_put");
}
static int get_lmdb(char *key, char *value) {
    MDB_val k = {BYTES, key}, v;
    if (mdb_get(txn, dbi, &k, &v) != 0 || v.mv_size != BYTES) return 0;
    memcpy(value, v.mv_data, BYTES);
    return 1;
}
static void remove_lmdb(char *key) {
    MDB_val k = {BYTES, key};
    mdb_del(txn, dbi, &k, NULL);
}
static void close_lmdb(void) { mdb_env_close(env); }

/* SQLite. */
static sqlite3 *db;
static sqlite3_stmt *putting, *getting, *removing;

static void run_sqlite(const char *text) { must(sqlite3_exec(db, text, NULL, NULL, NULL) == SQLITE_OK, text); }
static void begin_sqlite(void) { run_sqlite("BEGIN"); }
static void end_sqlite(void) { run_sqlite("COMMIT"); }
static sqlite3_stmt *prepared(const char *text) {
    sqlite3_stmt *made = NULL;
    must(sqlite3_prepare_v2(db, text, -1, &made, NULL) == SQLITE_OK, text);
    return made;
}
static void open_sqlite(const char *path) {
    must(sqlite3_open(path, &db) == SQLITE_OK, "sqlite3_open");
    run_sqlite("PRAGMA journal_mode=WAL; PRAGMA synchronous=FULL;"
               "CREATE TABLE IF NOT EXISTS pairs (key BLOB PRIMARY KEY, value BLOB) WITHOUT ROWID;");
    putting = prepared("INSERT OR REPLACE INTO pairs VALUES (?, ?)");
    getting = prepared("SELECT value FROM pairs WHERE key = ?");
    removing = prepared("DELETE FROM pairs WHERE key = ?");
}
static void put_sqlite(char *key, char *value) {
    sqlite3_bind_blob(putting, 1, key, BYTES, SQLITE_STATIC);
    sqlite3_bind_blob(putting, 2, value, BYTES, SQLITE_STATIC);
    must(sqlite3_step(putting) == SQLITE_DONE, "a put");
    sqlite3_reset(putting);
}
static int get_sqlite(char *key, char *value) {
    sqlite3_bind_blob(getting, 1, key, BYTES, SQLITE_STATIC);
    int is_there = sqlite3_step(getting) == SQLITE_ROW && sqlite3_column_bytes(getting, 0) == BYTES;
    if (is_there) memcpy(value, sqlite3_column_blob(getting, 0), BYTES);
    sqlite3_reset(getting);
    return is_there;
}
static void remove_sqlite(char *key) {
    sqlite3_bind_blob(removing, 1, key, BYTES, SQLITE_STATIC);
    must(sqlite3_step(removing) == SQLITE_DONE, "a removal");
    sqlite3_reset(removing);
}
static void close_sqlite(void) {
    sqlite3_finalize(putting);
    sqlite3_finalize(getting);
    sqlite3_finalize(removing);
    must(sqlite3_close(db) == SQLITE_OK, "sqlite3_close");
}

static const struct base of_gdbm = {open_gdbm, gdbm_begin, gdbm_end, put_gdbm, get_gdbm, remove_gdbm, close_gdbm};
static const struct base of_lmdb = {open_lmdb, begin_lmdb, end_lmdb, put_lmdb, get_lmdb, remove_lmdb, close_lmdb};
static const struct base of_sqlite = {open_sqlite, begin_sqlite, end_sqlite, put_sqlite, get_sqlite, remove_sqlite, close_sqlite};

static void put(const struct base *base, uint64_t i, uint64_t as) {
    char key[BYTES], value[BYTES];
    make_key(i, key);
    make_value(as, value);
    base->put(key, value);
}

static uint64_t is_right(const struct base *base, uint64_t i) {
    char key[BYTES], value[BYTES], found[BYTES];
    make_key(i, key);
    make_value(i, value);
    return base->get(key, found) && memcmp(found, value, BYTES) == 0;
}

static void calls(const struct base *base, const char *path, uint64_t records) {
    unlink(path);
    base->open(path);
    base->begin();
    uint64_t right = 0, begun = nanoseconds();
    for (uint64_t i = 0; i < records; i++) put(base, i, i);
    uint64_t put = nanoseconds();
    for (uint64_t i = 0; i < records; i++) right += is_right(base, asked(i, records));
    uint64_t got = nanoseconds();
    base->end();
    uint64_t ended = nanoseconds();
    printf("%llu %llu %llu %llu\n", (unsigned long long)right, (unsigned long long)(put - begun),
           (unsigned long long)(got - put), (unsigned long long)(ended - got));
}

static void commits(const struct base *base, const char *path, uint64_t records, uint64_t puts, uint64_t times) {
    uint64_t spent = 0;
    base->open(path);
    for (uint64_t time = 0; time < times; time++) {
        base->begin();
        for (uint64_t i = 0; i < puts; i++) {
            uint64_t number = asked(time * puts + i, records);
            put(base, number, number + time * puts + 1);
        }
        uint64_t begun = nanoseconds();
        base->end();
        spent += nanoseconds() - begun;
    }
    printf("%llu\n", (unsigned long long)spent);
}

static void direct(const struct base *base, const char *path, uint64_t records, uint64_t times) {
    uint64_t found = 0, spent[4] = {nanoseconds()};
    char key[BYTES], value[BYTES];
    base->open(path);
    for (int way = 0; way < 3; way++) {
        for (uint64_t i = 0; i < times; i++) {
            make_key(asked(i, records), key);
            base->begin();
            if (way == 0)
                found += (uint64_t)base->get(key, value);
            else if (way == 1)
                base->put(key, "directly");
            else
                base->remove(key);
            base->end();
        }
        spent[way + 1] = nanoseconds();
    }
    printf("%llu %llu %llu %llu\n", (unsigned long long)found, (unsigned long long)(spent[1] - spent[0]),
           (unsigned long long)(spent[2] - spent[1]), (unsigned long long)(spent[3] - spent[2]));
}

int main(int argc, char **argv) {
    if (argc < 5) {
        fputs("store_rivals gdbm|lmdb|sqlite PATH RECORDS calls|commits|open|direct [NUMBER..]\n", stderr);
        return 2;
    }
    const struct base *base = strcmp(argv[1], "gdbm") == 0 ? &of_gdbm : strcmp(argv[1], "lmdb") == 0 ? &of_lmdb : &of_sqlite;
    uint64_t records = strtoull(argv[3], NULL, 10), first = argc > 5 ? strtoull(argv[5], NULL, 10) : 1;
    if (strcmp(argv[4], "calls") == 0)
        calls(base, argv[2], records);
    else if (strcmp(argv[4], "commits") == 0)
        commits(base, argv[2], records, first, argc > 6 ? strtoull(argv[6], NULL, 10) : 1);
    else if (strcmp(argv[4], "direct") == 0)
        direct(base, argv[2], records, first);
    else {
        char key[BYTES], value[BYTES];
        make_key(0, key);
        uint64_t begun = nanoseconds();
        base->open(argv[2]);
        base->begin();
        must(base->get(key, value), "a get");
        base->end();
        printf("%llu\n", (unsigned long long)(nanoseconds() - begun));
    }
    base->close();
    return 0;
}
