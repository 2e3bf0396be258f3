/* What a ward is measured against: puts and gets by gdbm's own library.
 *
 *   ward_gdbm FILE RECORDS ROUNDS CACHE BLOCK MAP
 *
 * A round makes the file anew, puts RECORDS new keys, and gets each of them once, in another order. Each round has
 * other keys, so that none is quicker for having been made before. Keys and values have 8 bytes. Key i is the i-th
 * number of splitmix64, the highest byte first, and its value the bytes of the key in reverse. CACHE is the number of buckets that gdbm keeps and BLOCK its block size, 0 for what gdbm
 * chooses itself; MAP is 1 where it may map the file to memory. It doesn't lock the file, and doesn't synchronize.
 *
 * It prints how many gets found the right value, and the nanoseconds of the puts, and of the gets, of all rounds. */
#include <gdbm.h>
#include <stdint.h>
#include <stdio.h>
#include <stdlib.h>
#include <string.h>
#include <time.h>

#define BYTES 8

static uint64_t mixed(uint64_t i) {
    uint64_t z = (i + 1) * UINT64_C(0x9e3779b97f4a7c15);
    z = (z ^ (z >> 30)) * UINT64_C(0xbf58476d1ce4e5b9);
    z = (z ^ (z >> 27)) * UINT64_C(0x94d049bb133111eb);
    return z ^ (z >> 31);
}

static void make_pair(uint64_t i, char key[BYTES], char value[BYTES]) {
    uint64_t bits = mixed(i);
    for (int at = 0; at < BYTES; at++) {
        key[at] = (char)(bits >> (8 * (BYTES - 1 - at)));
        value[BYTES - 1 - at] = key[at];
    }
}

/* The i-th get asks for this key: a step that has no divisor in common with any number of records used here. */
static uint64_t asked(uint64_t i, uint64_t records) { return i * UINT64_C(7919) % records; }

static uint64_t nanoseconds(void) {
    struct timespec now;
    clock_gettime(CLOCK_MONOTONIC, &now);
    return (uint64_t)now.tv_sec * UINT64_C(1000000000) + (uint64_t)now.tv_nsec;
}

static void die(const char *what) {
    fprintf(stderr, "ward_gdbm: %s: %s\n", what, gdbm_strerror(gdbm_errno));
    exit(2);
}

static GDBM_FILE open_new(const char *name, int cache, int block, int map) {
    int flags = GDBM_NEWDB | GDBM_NOLOCK | (map ? 0 : GDBM_NOMMAP);
    GDBM_FILE file = gdbm_open(name, block, flags, 0600, NULL);
    if (file == NULL) die("open");
    if (cache != 0) {
        size_t size = (size_t)cache;
        if (gdbm_setopt(file, GDBM_SETCACHESIZE, &size, sizeof size) != 0) die("cache size");
    }
    return file;
}

static void put_all(GDBM_FILE file, uint64_t first, uint64_t records) {
    for (uint64_t i = 0; i < records; i++) {
        char key[BYTES], value[BYTES];
        make_pair(first + i, key, value);
        datum k = {key, BYTES}, v = {value, BYTES};
        if (gdbm_store(file, k, v, GDBM_REPLACE) != 0) die("store");
    }
}

static uint64_t get_all(GDBM_FILE file, uint64_t first, uint64_t records) {
    uint64_t right = 0;
    for (uint64_t i = 0; i < records; i++) {
        char key[BYTES], value[BYTES];
        make_pair(first + asked(i, records), key, value);
        datum k = {key, BYTES};
        datum found = gdbm_fetch(file, k);
        if (found.dptr == NULL) die("fetch");
        right += found.dsize == BYTES && memcmp(found.dptr, value, BYTES) == 0;
        free(found.dptr);
    }
    return right;
}

int main(int argc, char **argv) {
    if (argc != 7) {
        fputs("ward_gdbm FILE RECORDS ROUNDS CACHE BLOCK MAP\n", stderr);
        return 2;
    }
    uint64_t records = strtoull(argv[2], NULL, 10), rounds = strtoull(argv[3], NULL, 10);
    int cache = atoi(argv[4]), block = atoi(argv[5]), map = atoi(argv[6]);
    uint64_t puts = 0, gets = 0, right = 0;
    for (uint64_t round = 0; round < rounds; round++) {
        GDBM_FILE file = open_new(argv[1], cache, block, map);
        uint64_t begun = nanoseconds();
        put_all(file, round * records, records);
        uint64_t put = nanoseconds();
        right += get_all(file, round * records, records);
        uint64_t got = nanoseconds();
        if (gdbm_close(file) != 0) die("close");
        puts += put - begun;
        gets += got - put;
    }
    printf("%llu %llu %llu\n", (unsigned long long)right, (unsigned long long)puts, (unsigned long long)gets);
    return 0;
}
