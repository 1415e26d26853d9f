/* Hashes a file with XXH32, XXH64, XXH3 64-bit and XXH3 128-bit, and prints a line for each:
 *
 *     hash-file FILE
 */
#include <inttypes.h>
#include <stdio.h>
#include <stdlib.h>
#include <xxhash.h>

/* A state of each hash. XXH3 needs one for each width. */
struct hashers {
    XXH32_state_t *xxh32;
    XXH64_state_t *xxh64;
    XXH3_state_t *xxh3_64, *xxh3_128;
};

/* Creates states of no bytes with the seed 0. Returns 0 if out of memory. */
static int create(struct hashers *hashers)
{
    hashers->xxh32 = XXH32_createState();
    hashers->xxh64 = XXH64_createState();
    hashers->xxh3_64 = XXH3_createState();
    hashers->xxh3_128 = XXH3_createState();
    if (!hashers->xxh32 || !hashers->xxh64 || !hashers->xxh3_64 || !hashers->xxh3_128) return 0;
    XXH32_reset(hashers->xxh32, 0);
    XXH64_reset(hashers->xxh64, 0);
    XXH3_64bits_reset(hashers->xxh3_64);
    XXH3_128bits_reset(hashers->xxh3_128);
    return 1;
}

static void release(struct hashers *hashers)
{
    XXH32_freeState(hashers->xxh32);
    XXH64_freeState(hashers->xxh64);
    XXH3_freeState(hashers->xxh3_64);
    XXH3_freeState(hashers->xxh3_128);
}

/* Hashes the whole file. Returns 0 if a read fails. */
static int feed(struct hashers *hashers, FILE *file)
{
    static unsigned char piece[65536];
    size_t length;
    while ((length = fread(piece, 1, sizeof piece, file)) > 0) {
        XXH32_update(hashers->xxh32, piece, length);
        XXH64_update(hashers->xxh64, piece, length);
        XXH3_64bits_update(hashers->xxh3_64, piece, length);
        XXH3_128bits_update(hashers->xxh3_128, piece, length);
    }
    return !ferror(file);
}

/* Prints the hashes. Returns 0 if a write fails. */
static int print(const struct hashers *hashers)
{
    XXH128_hash_t wide = XXH3_128bits_digest(hashers->xxh3_128);
    printf("32 %08" PRIx32 "\n", XXH32_digest(hashers->xxh32));
    printf("64 %016" PRIx64 "\n", XXH64_digest(hashers->xxh64));
    printf("3-64 %016" PRIx64 "\n", XXH3_64bits_digest(hashers->xxh3_64));
    printf("3-128 %016" PRIx64 "%016" PRIx64 "\n", wide.high64, wide.low64);
    return fflush(stdout) == 0 && !ferror(stdout);
}

int main(int argc, char **argv)
{
    struct hashers hashers = { 0 };
    const char *fault = NULL;
    if (argc != 2) return fprintf(stderr, "usage: hash-file FILE\n"), 2;
    FILE *file = fopen(argv[1], "rb");
    if (!file) fault = "the file cannot be opened";
    else if (!create(&hashers)) fault = "out of memory";
    else if (!feed(&hashers, file)) fault = "read failed";
    else if (!print(&hashers)) fault = "write failed";
    release(&hashers);
    if (file) fclose(file);
    if (fault) fprintf(stderr, "hash-file: %s\n", fault);
    return fault ? 1 : 0;
}
