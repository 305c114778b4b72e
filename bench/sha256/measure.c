/* Times the proved SHA-256 and the portable one in turn over the file that is named, and prints the medians. */
#include <stdbool.h>
#include <stddef.h>
#include <stdint.h>
#include <stdio.h>
#include <stdlib.h>
#include <string.h>
#include <time.h>

enum { TURNS = 41 };

void portable_sha256(const uint8_t *message, size_t length, uint8_t digest[32]);
bool sha256_digest(const uint8_t *message, size_t length, uint8_t *out, size_t out_length);

static double now(void)
{
    struct timespec t;
    clock_gettime(CLOCK_MONOTONIC, &t);
    return (double)t.tv_sec + (double)t.tv_nsec / 1e9;
}

static int by_size(const void *a, const void *b)
{
    double x = *(const double *)a, y = *(const double *)b;
    return (x > y) - (x < y);
}

static double median(double *seconds)
{
    qsort(seconds, TURNS, sizeof *seconds, by_size);
    return seconds[TURNS / 2];
}

static uint8_t *contents(const char *path, size_t *length)
{
    FILE *file = fopen(path, "rb");
    if (!file || fseek(file, 0, SEEK_END) != 0)
        return NULL;
    *length = (size_t)ftell(file);
    rewind(file);
    uint8_t *bytes = malloc(*length + 1);
    if (bytes && fread(bytes, 1, *length, file) != *length)
        return NULL;
    fclose(file);
    return bytes;
}

int main(int count, char **words)
{
    size_t length = 0;
    uint8_t *message = count == 2 ? contents(words[1], &length) : NULL;
    uint8_t proved[32], portable[32];
    double proved_seconds[TURNS], portable_seconds[TURNS];
    if (!message)
        return 2;
    for (int i = 0; i < TURNS; i++) {
        double start = now();
        if (!sha256_digest(message, length, proved, sizeof proved))
            return 2;
        double middle = now();
        portable_sha256(message, length, portable);
        proved_seconds[i] = middle - start;
        portable_seconds[i] = now() - middle;
        if (memcmp(proved, portable, sizeof proved) != 0)
            return 1;
    }
    double p = median(proved_seconds), c = median(portable_seconds);
    printf("digest ");
    for (size_t i = 0; i < sizeof proved; i++)
        printf("%02x", proved[i]);
    printf("\nproved %.6f\nportable %.6f\nspeed of the proved one to the portable one %.3f\n", p, c, c / p);
    free(message);
    return 0;
}
