/* Judges the traffic in a file so many times: main FILE PIECE TURNS. A piece of 0 is a whole body. */
#include <stddef.h>
#include <stdint.h>
#include <stdio.h>
#include <stdlib.h>

uint64_t judge_traffic(const uint8_t *traffic, size_t length, size_t piece);

int main(int count, char **words) {
    if (count != 4) return 2;
    FILE *file = fopen(words[1], "rb");
    if (!file) return 1;
    enum { MOST = 1 << 24 };
    uint8_t *traffic = malloc(MOST);
    size_t length = fread(traffic, 1, MOST, file);
    uint64_t sum = 0;
    for (int turn = 0; turn < atoi(words[3]); turn++) sum = judge_traffic(traffic, length, strtoull(words[2], 0, 10));
    printf("%llu\n", (unsigned long long)sum);
    return 0;
}
