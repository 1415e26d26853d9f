#include "values.h"

#include <string.h>

#define IS_LITTLE_ENDIAN (__BYTE_ORDER__ == __ORDER_LITTLE_ENDIAN__)

/* Bytes of a number, the highest first. Each is stored in place: copying bytes that were stored with another width
 * would wait for these stores. */
static inline void write_word(void *bytes, uint64_t word)
{
    if (IS_LITTLE_ENDIAN) word = __builtin_bswap64(word);
    memcpy(bytes, &word, sizeof word);
}

static inline void write_half_word(void *bytes, uint32_t half)
{
    if (IS_LITTLE_ENDIAN) half = __builtin_bswap32(half);
    memcpy(bytes, &half, sizeof half);
}

void write_digest(void *digest, const struct algorithm *algorithm, hash_value value)
{
    if (algorithm->digest_bytes == 4) {
        write_half_word(digest, (uint32_t)value.low64);
        return;
    }
    write_word((char *)digest + algorithm->digest_bytes - 8, value.low64);
    if (algorithm->digest_bytes == 16) write_word(digest, value.high64);
}

void write_number(void *number, const struct algorithm *algorithm, hash_value value)
{
    const uint32_t half = (uint32_t)value.low64;
    if (algorithm->digest_bytes == 4)
        memcpy(number, &half, sizeof half);
    else
        memcpy(number, &value.low64, sizeof value.low64);
}

PyObject *as_digest(const struct algorithm *algorithm, hash_value value)
{
    PyObject *digest = PyBytes_FromStringAndSize(NULL, algorithm->digest_bytes);
    if (digest) write_digest(PyBytes_AS_STRING(digest), algorithm, value);
    return digest;
}

/* Writes the eight hexadecimal digits of a number, all at once: each half byte gets a byte of its own, the highest
 * first. Returns the position of the next digits. */
static inline char *write_digits(char *digits, uint32_t number)
{
    const uint64_t ones = 0x0101010101010101;
    uint64_t halves = number;
    halves = (halves << 16 | halves) & 0x0000ffff0000ffff;
    halves = (halves << 8 | halves) & 0x00ff00ff00ff00ff;
    halves = (halves << 4 | halves) & 0x0f0f0f0f0f0f0f0f;
    const uint64_t are_letters = (halves + 6 * ones) >> 4 & ones;
    write_word(digits, halves + '0' * ones + are_letters * ('a' - '0' - 10));
    return digits + 8;
}

/* Writes all hexadecimal digits of a value. */
static inline void write_hexdigest(char *digits, const struct algorithm *algorithm, hash_value value)
{
    if (algorithm->digest_bytes == 16) {
        digits = write_digits(digits, value.high64 >> 32);
        digits = write_digits(digits, (uint32_t)value.high64);
    }
    if (algorithm->digest_bytes >= 8) digits = write_digits(digits, value.low64 >> 32);
    write_digits(digits, (uint32_t)value.low64);
}

PyObject *as_hexdigest(const struct algorithm *algorithm, hash_value value)
{
#ifdef Py_LIMITED_API
    char digits[32];
    write_hexdigest(digits, algorithm, value);
    return PyUnicode_FromStringAndSize(digits, 2 * algorithm->digest_bytes);
#else
    PyObject *text = PyUnicode_New(2 * algorithm->digest_bytes, 127);
    if (text) write_hexdigest((char *)PyUnicode_1BYTE_DATA(text), algorithm, value);
    return text;
#endif
}

PyObject *as_intdigest(const struct algorithm *algorithm, hash_value value)
{
    if (algorithm->digest_bytes <= 8) return PyLong_FromUnsignedLongLong(value.low64);
#ifdef Py_LIMITED_API
    char digits[33] = {0};
    write_hexdigest(digits, algorithm, value);
    return PyLong_FromString(digits, NULL, 16);
#else
    unsigned char digest[16];
    write_digest(digest, algorithm, value);
#if PY_VERSION_HEX >= 0x030D0000
    return PyLong_FromUnsignedNativeBytes(digest, sizeof digest, Py_ASNATIVEBYTES_BIG_ENDIAN);
#else
    return _PyLong_FromByteArray(digest, sizeof digest, 0, 0);
#endif
#endif
}
