// Hashes a file by XXH32, XXH64, XXH3 of 64 bits and XXH3 of 128 bits, and prints a line for each:
//
//     hash-file FILE
#include <cstdio>
#include <exception>
#include <fstream>
#include <iomanip>
#include <iostream>
#include <memory>
#include <new>
#include <stdexcept>
#include <vector>
#include <xxhash.h>

// A state of the library, which frees it.
template <typename State, XXH_errorcode (*Free)(State *)>
struct Freed {
    void operator()(State *state) const { Free(state); }
};
using State32 = std::unique_ptr<XXH32_state_t, Freed<XXH32_state_t, XXH32_freeState>>;
using State64 = std::unique_ptr<XXH64_state_t, Freed<XXH64_state_t, XXH64_freeState>>;
using State3 = std::unique_ptr<XXH3_state_t, Freed<XXH3_state_t, XXH3_freeState>>;

template <typename Owner>
Owner owned(typename Owner::pointer state)
{
    if (!state) throw std::bad_alloc();
    return Owner(state);
}

// A stream of each hash, with the seed 0. XXH3 takes a state for each width.
class Hashers {
public:
    Hashers()
    {
        XXH32_reset(xxh32.get(), 0);
        XXH64_reset(xxh64.get(), 0);
        XXH3_64bits_reset(xxh3_64.get());
        XXH3_128bits_reset(xxh3_128.get());
    }

    void update(const char *piece, std::size_t length)
    {
        XXH32_update(xxh32.get(), piece, length);
        XXH64_update(xxh64.get(), piece, length);
        XXH3_64bits_update(xxh3_64.get(), piece, length);
        XXH3_128bits_update(xxh3_128.get(), piece, length);
    }

    void print(std::ostream &out) const
    {
        const XXH128_hash_t wide = XXH3_128bits_digest(xxh3_128.get());
        out << std::hex << std::setfill('0');
        out << "32 " << std::setw(8) << XXH32_digest(xxh32.get()) << '\n';
        out << "64 " << std::setw(16) << XXH64_digest(xxh64.get()) << '\n';
        out << "3-64 " << std::setw(16) << XXH3_64bits_digest(xxh3_64.get()) << '\n';
        out << "3-128 " << std::setw(16) << wide.high64 << std::setw(16) << wide.low64 << std::endl;
        if (!out) throw std::runtime_error("write failed");
    }

private:
    State32 xxh32 = owned<State32>(XXH32_createState());
    State64 xxh64 = owned<State64>(XXH64_createState());
    State3 xxh3_64 = owned<State3>(XXH3_createState());
    State3 xxh3_128 = owned<State3>(XXH3_createState());
};

static void feed(Hashers &hashers, const char *path)
{
    std::ifstream file(path, std::ios::binary);
    if (!file) throw std::runtime_error("the file cannot be opened");
    std::vector<char> piece(65536);
    while (file.read(piece.data(), piece.size()) || file.gcount() > 0)
        hashers.update(piece.data(), static_cast<std::size_t>(file.gcount()));
    if (file.bad()) throw std::runtime_error("read failed");
}

int main(int count, char **words)
{
    if (count != 2) return std::fputs("usage: hash-file FILE\n", stderr), 2;
    try {
        Hashers hashers;
        feed(hashers, words[1]);
        hashers.print(std::cout);
    } catch (const std::exception &fault) {
        std::cerr << "hash-file: " << fault.what() << '\n';
        return 1;
    }
}
