// The calls of a receive and no more, for bench/receive: reads a stream from standard input in pieces of 1 MiB, goes over each twice
// as two Fletcher-4 sums do, writes its blocks, one by one, and beside each run of them as much as the nodes above it take, and makes
// the three syncs of a commit. A run has one block, or as many of at most 32,768 bytes as a receive puts off. Nothing is parsed,
// compared or allotted, so that no receive in this format is faster.
// use: receive_calls IMAGE [BLOCK]     (IMAGE is there, and large enough; BLOCK is 131072 by default)
#define _GNU_SOURCE
#include <fcntl.h>
#include <stdint.h>
#include <stdio.h>
#include <stdlib.h>
#include <unistd.h>

enum { PIECE = 1 << 20, LARGEST = 1 << 17, PUT_OFF = 1 << 15, ROOM = 1 << 18, FEW = 128, NODES = 29 << 10, LANES = 8 };

// The additions of a sum, in lanes that nobody joins.
static uint64_t sum(const uint32_t *words, size_t count) {
    uint64_t a[LANES] = {0}, b[LANES] = {0}, c[LANES] = {0}, d[LANES] = {0}, all = 0;
    for (size_t i = 0; i + LANES <= count; i += LANES)
        for (int j = 0; j < LANES; j++) {
            a[j] += words[i + j];
            b[j] += a[j];
            c[j] += b[j];
            d[j] += c[j];
        }
    for (int j = 0; j < LANES; j++)
        all += a[j] ^ b[j] ^ c[j] ^ d[j];
    return all;
}

static void put(int file, const void *bytes, size_t count, off_t at) {
    if (pwrite(file, bytes, count, at) != (ssize_t)count) {
        perror("pwrite");
        exit(1);
    }
}

static void put_synced(int file, const void *bytes, size_t count, off_t at) {
    put(file, bytes, count, at);
    if (fdatasync(file)) {
        perror("fdatasync");
        exit(1);
    }
}

int main(int argc, char **argv) {
    int file = argc == 2 || argc == 3 ? open(argv[1], O_RDWR) : -1;
    size_t block = argc == 3 ? strtoul(argv[2], NULL, 10) : LARGEST;
    size_t run = block == 0 || block > PUT_OFF ? 1 : ROOM / block < FEW ? ROOM / block : FEW;
    char *piece = aligned_alloc(4096, PIECE), *nodes = calloc(1, NODES);
    uint64_t sums = 0;
    off_t at = PIECE;
    if (file < 0 || !piece || !nodes || block == 0 || block > LARGEST)
        return 1;
    for (int slot = 0;; slot = !slot) {
        size_t have = 0;
        ssize_t got;
        while (have < PIECE && (got = read(0, piece + have, PIECE - have)) > 0)
            have += got;
        if (!have)
            break;
        sums += sum((uint32_t *)piece, have / 4);
        for (size_t from = 0, blocks = 1; from < have; from += block, blocks++) {
            size_t count = have - from < block ? have - from : block;
            sums += sum((uint32_t *)(piece + from), count / 4);
            put(file, piece + from, count, at);
            at += count;
            if (blocks % run == 0 || from + count == have) {
                put(file, nodes, NODES, at);
                at += NODES;
            }
        }
        put_synced(file, piece, 1, 512 * slot);
        put_synced(file, piece, 512, 4096 + 512 * slot);
        put_synced(file, piece, 1, 512 * slot);
    }
    printf("%llu\n", (unsigned long long)sums);
    return 0;
}
