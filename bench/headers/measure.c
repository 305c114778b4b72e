/* Times the run over the headers in the file that is named, and the two hashes of each of them alone, and prints the medians. */
#include <stdbool.h>
#include <stddef.h>
#include <stdint.h>
#include <stdio.h>
#include <stdlib.h>
#include <time.h>

enum { TURNS = 21, HEADER = 80 };

size_t headers_covered(uint32_t ceiling, const uint8_t *bytes, size_t length);
bool hashed_twice(const uint8_t *message, size_t length, uint8_t *out, size_t out_length);

static double now(void)
{
    struct timespec t;
    clock_gettime(CLOCK_MONOTONIC, &t);
    return (double)t.tv_sec + (double)t.tv_nsec / 1e9;
}

static int by_size(const void *a, const void *b)
{
    double x = *(const double *)a, y = *(const double *)b;
    return (x > y) - (x < y);
}

static double median(double *seconds)
{
    qsort(seconds, TURNS, sizeof *seconds, by_size);
    return seconds[TURNS / 2];
}

static uint8_t *contents(const char *path, size_t *length)
{
    FILE *file = fopen(path, "rb");
    if (!file || fseek(file, 0, SEEK_END) != 0)
        return NULL;
    *length = (size_t)ftell(file);
    rewind(file);
    uint8_t *bytes = malloc(*length + 1);
    if (bytes && fread(bytes, 1, *length, file) != *length)
        return NULL;
    fclose(file);
    return bytes;
}

int main(int count, char **words)
{
    size_t length = 0;
    uint8_t *bytes = count == 2 ? contents(words[1], &length) : NULL;
    double run[TURNS], bare[TURNS];
    uint8_t hash[32], sum = 0;
    if (!bytes)
        return 2;
    for (int i = 0; i < TURNS; i++) {
        double start = now();
        if (headers_covered(0x207fffff, bytes, length) != length / HEADER)
            return 1;
        double middle = now();
        for (size_t at = 0; at + HEADER <= length; at += HEADER) {
            if (!hashed_twice(bytes + at, HEADER, hash, sizeof hash))
                return 1;
            sum ^= hash[0];
        }
        run[i] = middle - start;
        bare[i] = now() - middle;
    }
    double r = median(run), b = median(bare);
    printf("headers %zu (%02x)\nrun %.6f\nbare hashes %.6f\ncost of the run to its hashes %.3f\n", length / HEADER, sum, r, b, r / b);
    free(bytes);
    return 0;
}
