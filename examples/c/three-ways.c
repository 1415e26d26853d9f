/* Hashes all bytes at once, in chunks, and with a custom secret. docs/C.md quotes it. */
#include <stdio.h>
#include <xxhash.h>

int main(void)
{
    unsigned char secret[XXH3_SECRET_SIZE_MIN];
    XXH64_state_t *stream = XXH64_createState();
    if (!stream || XXH64_reset(stream, 1234) != XXH_OK)
        return 1;
    XXH64_update(stream, "some", 4);
    XXH64_update(stream, " bytes", 6);
    printf("%016llx\n", (unsigned long long)XXH64_digest(stream));
    XXH64_freeState(stream);

    printf("%016llx\n", (unsigned long long)XXH3_64bits("some bytes", 10));
    XXH3_generateSecret(secret, sizeof secret, "a key", 5);
    printf("%016llx\n", (unsigned long long)XXH3_64bits_withSecret("some bytes", 10, secret, sizeof secret));
    return 0;
}
