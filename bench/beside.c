// Loops in the place of turns, and a raw copy of a checkpoint in the place of a snapshot: what of late turns is the machine's. In each of ROUNDS
// rounds a thread makes LOOPS loops, each of about as many nanoseconds as it is told, has another thread make the copy, and makes loops until it is
// made. Prints of each loop whether a copy ran as it began (1 or 0), nanoseconds, and 0.
//   turn    steps of a plain interpreter over as many nodes: as busy as a turn of the program, and no lock, no journal and no page that parts
//   bare    multiplications that wait for each other, which leave most of a processor idle
// usage: beside turn|bare NANOSECONDS ROUNDS LOOPS FILE AREA NODES PAGES
#define _GNU_SOURCE
#include <fcntl.h>
#include <pthread.h>
#include <stdint.h>
#include <stdio.h>
#include <stdlib.h>
#include <string.h>
#include <time.h>
#include <unistd.h>

enum { PAGE = 4096, MOST_NODES = 64, ROOM = 1 << 22 };

struct node {
    uint8_t memory[PAGE];
    uint32_t iptr, wptr, a, b, c;
};

struct loop {
    uint32_t time;
    uint8_t runs;
};

static struct node nodes[MOST_NODES];
static struct loop loops[ROOM];
static volatile int wanted_copies, made_copies, has_ended;
static int file, node_count, page_count;
static off_t area;

static uint64_t now(void) {
    struct timespec at;
    clock_gettime(CLOCK_MONOTONIC, &at);
    return at.tv_sec * 1000000000ull + at.tv_nsec;
}

static void put(const void *bytes, size_t count, off_t at) {
    if (pwrite(file, bytes, count, at) != (ssize_t)count) exit(1);
}

// What a checkpoint writes: images piece by piece, the rest and a sync, the gate and a sync.
static void copy(void) {
    static char piece[8192];
    off_t at = area + 21;
    int lines = 4 * (4 * node_count + 1);
    memset(piece, 1, sizeof piece);
    for (int node = 0; node < node_count; node++) {
        put(piece, 172, at), at += 172;
        for (int page = 0; page < page_count; page++) put(piece, 1024, at), at += 1024;
    }
    put(piece, 8, area + 13), put(piece, lines, at), put(piece, sizeof piece, at + lines), put(piece, 12, area + 1);
    if (fdatasync(file) != 0) exit(1);
    put(piece, 1, area);
    if (fdatasync(file) != 0) exit(1);
}

static void *copies(void *none) {
    while (!has_ended) {
        if (made_copies == wanted_copies) {
            usleep(20);
            continue;
        }
        copy();
        made_copies++;
    }
    return none;
}

static uint32_t word_at(const uint8_t *memory, uint32_t at) {
    uint32_t word;
    memcpy(&word, memory + (at & (PAGE - 4)), 4);
    return word;
}

static __attribute__((noinline)) void run(struct node *node, uint64_t steps) {
    uint8_t *memory = node->memory;
    uint32_t iptr = node->iptr, wptr = node->wptr, a = node->a, b = node->b, c = node->c, prefix = 0;
    while (steps > 0) {
        uint8_t code = memory[iptr++ & (PAGE - 1)];
        uint32_t operand = prefix | (code & 15), at = wptr + 4 * operand;
        switch (code >> 4) {
        case 0x2: prefix = operand << 4; continue;
        case 0x6: prefix = ~operand << 4; continue;
        case 0x0: iptr += operand; break;
        case 0x4: c = b, b = a, a = operand; break;
        case 0x7: c = b, b = a, a = word_at(memory, at); break;
        case 0x8: a += operand; break;
        case 0xA: if (a == 0) iptr += operand; else a = b, b = c; break;
        case 0xD: memcpy(memory + (at & (PAGE - 4)), &a, 4), a = b, b = c; break;
        default: exit(1);
        }
        prefix = 0;
        steps--;
    }
    node->iptr = iptr, node->wptr = wptr, node->a = a, node->b = b, node->c = c;
}

static volatile uint64_t word = 1;
static int is_turn;

static uint64_t timed(uint64_t number, uint64_t steps) {
    uint64_t begun = now();
    if (is_turn) {
        run(&nodes[number % node_count], steps);
    } else {
        uint64_t it = word;
        for (uint64_t step = 0; step < steps; step++) it = it * 6364136223846793005ull + 1442695040888963407ull;
        word = it;
    }
    return now() - begun;
}

static uint64_t steps, made;

static void one(void) {
    if (made == ROOM) exit(1);
    loops[made].runs = made_copies != wanted_copies;
    loops[made].time = (uint32_t)timed(made, steps);
    made++;
}

int main(int count, char **words) {
    static const uint8_t code[] = {0x71, 0x81, 0xD1, 0x72, 0x60, 0x8F, 0xD2, 0x73, 0xA0, 0x60, 0x05};
    if (count != 9) return 1;
    uint64_t wanted = strtoull(words[2], 0, 10), least = UINT64_MAX;
    int rounds = atoi(words[3]), alone = atoi(words[4]);
    is_turn = words[1][0] == 't', file = open(words[5], O_RDWR), area = atoll(words[6]), node_count = atoi(words[7]), page_count = atoi(words[8]);
    if (file < 0 || node_count < 1 || node_count > MOST_NODES) return 1;
    for (int node = 0; node < MOST_NODES; node++) {
        memcpy(nodes[node].memory + 0x100, code, sizeof code);
        nodes[node].iptr = 0x100, nodes[node].wptr = 0x200;
    }
    for (int it = 0; it < 1000; it++) {
        uint64_t took = timed(it, 10000);
        if (took < least) least = took;
    }
    steps = wanted * 10000 / least;
    for (int it = 0; it < ROOM; it++) loops[it].time = 1;
    pthread_t copier;
    pthread_create(&copier, 0, copies, 0);
    for (int round = 0; round < rounds; round++) {
        for (int it = 0; it < alone; it++) one();
        wanted_copies++;
        do one(); while (made_copies != wanted_copies);
    }
    has_ended = 1;
    pthread_join(copier, 0);
    for (uint64_t it = 0; it < made; it++) printf("%d %u 0\n", loops[it].runs, loops[it].time);
    return 0;
}
