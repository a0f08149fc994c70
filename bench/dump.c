/*
 * The work that a dump can't avoid, in plain C, for bench/dump: reads standard input in pieces of 131,072 bytes, as the reader does,
 * sums all of it (Fletcher-4), word by word, and prints the sum. Nothing is parsed, and no record's own sum is looked at.
 */
#include <inttypes.h>
#include <stdint.h>
#include <stdio.h>
#include <string.h>

enum { PIECE = 131072 };

int main(void)
{
	static uint8_t piece[PIECE];
	uint64_t a = 0, b = 0, c = 0, d = 0;
	size_t got;
	setvbuf(stdin, NULL, _IONBF, 0);
	while ((got = fread(piece, 1, PIECE, stdin)) > 0)
		for (size_t i = 0; i + 4 <= got; i += 4) {
			uint32_t word;
			memcpy(&word, piece + i, 4);
			a += word, b += a, c += b, d += c;
		}
	printf("%" PRIu64 " %" PRIu64 " %" PRIu64 " %" PRIu64 "\n", a, b, c, d);
	return ferror(stdin) != 0;
}
