/* A low-pass as one writes it in C: y += (x - y) / 8 for each number of standard input, rounded down, in two's
 * complement; each y is written. With the argument `raw` numbers are samples of 16 bits, little-endian as the machine
 * is, and else one stands on each line. */
#include <stdint.h>
#include <stdio.h>
#include <stdlib.h>
#include <string.h>

static int64_t low_pass(int64_t *level, int64_t word) {
    return *level += (word - *level) >> 3;
}

static int lines(void) {
    char line[64];
    int64_t level = 0;
    while (fgets(line, sizeof line, stdin))
        printf("%lld\n", (long long)low_pass(&level, strtoll(line, NULL, 10)));
    return fflush(stdout);
}

static int samples(void) {
    int16_t word;
    int64_t level = 0;
    while (fread(&word, sizeof word, 1, stdin) == 1) {
        word = (int16_t)low_pass(&level, word);
        fwrite(&word, sizeof word, 1, stdout);
    }
    return fflush(stdout);
}

int main(int count, char **words) {
    return count > 1 && !strcmp(words[1], "raw") ? samples() : lines();
}
