/* Measures a file in memory by the library: c_measure FILE PLATFORM TIMES puts the least seconds that one call took. */
#define _POSIX_C_SOURCE 199309L
#include <igvm.h>
#include <stdio.h>
#include <stdlib.h>
#include <time.h>

static double now(void)
{
    struct timespec time;
    clock_gettime(CLOCK_MONOTONIC, &time);
    return (double)time.tv_sec + (double)time.tv_nsec / 1e9;
}

int main(int count, char **words)
{
    FILE *file = count == 4 ? fopen(words[1], "rb") : NULL;
    struct igvm_digest digest = {{0}};
    double least = 1e9;
    uint8_t *bytes;
    size_t size;
    if (file == NULL || fseek(file, 0, SEEK_END) != 0)
        return 2;
    size = (size_t)ftell(file);
    rewind(file);
    bytes = malloc(size + 1);
    if (bytes == NULL || fread(bytes, 1, size, file) != size)
        return 2;
    for (long left = atol(words[3]); left > 0; left--) {
        double begin = now();
        if (igvm_measure(bytes, size, (uint32_t)atol(words[2]), IGVM_PLAIN, &digest) != IGVM_OK)
            return 1;
        begin = now() - begin;
        least = begin < least ? begin : least;
    }
    for (size_t i = 0; i < sizeof digest.bytes; i++)
        printf("%02x", digest.bytes[i]);
    printf(" %.6f\n", least);
    return 0;
}
