/*
 * The work that a send can't avoid, in plain C: reads FILE in blocks of SIZE bytes, sums each block and all of the stream
 * (Fletcher-4), and writes each block behind a head of 312 bytes.
 * use: cc -O2 -o send bench/send.c && ./send SIZE FILE >OUT
 */
#include <fcntl.h>
#include <stdint.h>
#include <stdio.h>
#include <stdlib.h>
#include <string.h>
#include <unistd.h>

enum { HEAD = 312, LONGEST = 1 << 20 };

struct sum {
    uint64_t a, b, c, d;
};

static void add(struct sum *sum, const uint8_t *bytes, size_t length)
{
    uint64_t a = sum->a, b = sum->b, c = sum->c, d = sum->d;
    for (size_t i = 0; i + 4 <= length; i += 4) {
        uint32_t word;
        memcpy(&word, bytes + i, 4);
        a += word;
        b += a;
        c += b;
        d += c;
    }
    *sum = (struct sum){a, b, c, d};
}

int main(int argc, char **argv)
{
    static uint8_t head[HEAD], block[LONGEST];
    static char buffer[LONGEST];
    struct sum stream = {0}, blocks = {0};
    if (argc != 3)
        return 2;
    size_t size = strtoull(argv[1], NULL, 10);
    int file = open(argv[2], O_RDONLY);
    if (file < 0 || size == 0 || size > LONGEST)
        return 2;
    setvbuf(stdout, buffer, _IOFBF, sizeof buffer);
    ssize_t got;
    for (off_t at = 0; (got = pread(file, block, size, at)) > 0; at += got) {
        struct sum one = {0};
        add(&one, block, got);
        blocks.a ^= one.d;
        add(&stream, head, HEAD);
        fwrite(head, 1, HEAD, stdout);
        add(&stream, block, got);
        fwrite(block, 1, got, stdout);
    }
    /* The sums are told, so that they aren't left out. */
    fprintf(stderr, "%llx\n", (unsigned long long)(stream.d ^ blocks.a));
    return got < 0 || fflush(stdout) != 0;
}
