// Shared by the peers: the file, the clock of the processor time of this process, and the printed line.
//
// A peer's program has `sweep`, one pass over the bytes, and calls `measure` from its `main`:
//     PROGRAM FILE [BITS [PASSES]]
// Passes are repeated until two seconds of processor time have elapsed, or PASSES times if that number is above 0.
#include <stdint.h>
#include <stdio.h>
#include <stdlib.h>
#include <time.h>

struct counts {
    uint64_t items;  // instructions
    uint64_t errors; // places at which none begins; each takes one byte
    uint64_t sum;    // a value of each instruction, so that no decoding is optimised away
};

typedef void sweep_function(const uint8_t *bytes, size_t size, int bits, struct counts *counts);

static double seconds_used(void)
{
    struct timespec now;
    clock_gettime(CLOCK_PROCESS_CPUTIME_ID, &now);
    return (double)now.tv_sec + (double)now.tv_nsec * 1e-9;
}

// The bytes of a file, followed by 16 zeros.
static uint8_t *read_file(const char *name, size_t *size)
{
    FILE *file = fopen(name, "rb");
    if (!file || fseek(file, 0, SEEK_END) != 0) {
        perror(name);
        exit(3);
    }
    *size = (size_t)ftell(file);
    rewind(file);
    uint8_t *bytes = calloc(*size + 16, 1);
    if (!bytes || fread(bytes, 1, *size, file) != *size) {
        perror(name);
        exit(3);
    }
    fclose(file);
    return bytes;
}

static int bits_of(int argc, char **argv)
{
    return argc > 2 ? atoi(argv[2]) : 64;
}

static void measure(int argc, char **argv, const char *name, sweep_function *sweep)
{
    if (argc < 2) {
        fprintf(stderr, "usage: %s FILE [BITS [PASSES]]\n", argv[0]);
        exit(1);
    }
    size_t size;
    uint8_t *bytes = read_file(argv[1], &size);
    uint64_t wanted = argc > 3 ? strtoull(argv[3], NULL, 10) : 0;
    uint64_t passes = 0;
    struct counts counts = {0, 0, 0};
    double start = seconds_used();
    double seconds = 0;
    while (wanted ? passes < wanted : seconds < 2.0) {
        counts = (struct counts){0, 0, 0};
        sweep(bytes, size, bits_of(argc, argv), &counts);
        passes++;
        seconds = seconds_used() - start;
    }
    printf("%s: %zu bytes %llu items %llu errors %llu sum %llu passes %llu us\n", name, size, (unsigned long long)counts.items,
           (unsigned long long)counts.errors, (unsigned long long)counts.sum, (unsigned long long)passes,
           (unsigned long long)(seconds * 1e6));
    free(bytes);
}
