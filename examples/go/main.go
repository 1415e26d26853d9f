// Hashes a file by XXH32, XXH64, XXH3 of 64 bits and XXH3 of 128 bits, and prints a line for each:
//
//	hash-file FILE
//
// It is built by cgo, with PKG_CONFIG_PATH naming PREFIX/lib/pkgconfig after `make -C c install PREFIX=..`.
package main

// #cgo pkg-config: libxxhash
// #include <xxhash.h>
import "C"

import (
	"errors"
	"fmt"
	"io"
	"os"
	"unsafe"
)

// hashers has a state of each hash. XXH3 takes one for each width.
type hashers struct {
	xxh32             *C.XXH32_state_t
	xxh64             *C.XXH64_state_t
	xxh3x64, xxh3x128 *C.XXH3_state_t
}

// newHashers makes streams of no bytes with the seed 0. They are freed by release.
func newHashers() (*hashers, error) {
	made := &hashers{C.XXH32_createState(), C.XXH64_createState(), C.XXH3_createState(), C.XXH3_createState()}
	if made.xxh32 == nil || made.xxh64 == nil || made.xxh3x64 == nil || made.xxh3x128 == nil {
		made.release()
		return nil, errors.New("out of memory")
	}
	C.XXH32_reset(made.xxh32, 0)
	C.XXH64_reset(made.xxh64, 0)
	C.XXH3_64bits_reset(made.xxh3x64)
	C.XXH3_128bits_reset(made.xxh3x128)
	return made, nil
}

func (h *hashers) release() {
	C.XXH32_freeState(h.xxh32)
	C.XXH64_freeState(h.xxh64)
	C.XXH3_freeState(h.xxh3x64)
	C.XXH3_freeState(h.xxh3x128)
}

// Write hashes a chunk with each stream.
func (h *hashers) Write(piece []byte) (int, error) {
	if len(piece) > 0 {
		bytes, length := unsafe.Pointer(&piece[0]), C.size_t(len(piece))
		C.XXH32_update(h.xxh32, bytes, length)
		C.XXH64_update(h.xxh64, bytes, length)
		C.XXH3_64bits_update(h.xxh3x64, bytes, length)
		C.XXH3_128bits_update(h.xxh3x128, bytes, length)
	}
	return len(piece), nil
}

func (h *hashers) print(out io.Writer) error {
	wide := C.XXH3_128bits_digest(h.xxh3x128)
	_, err := fmt.Fprintf(out, "32 %08x\n64 %016x\n3-64 %016x\n3-128 %016x%016x\n", uint32(C.XXH32_digest(h.xxh32)),
		uint64(C.XXH64_digest(h.xxh64)), uint64(C.XXH3_64bits_digest(h.xxh3x64)), uint64(wide.high64), uint64(wide.low64))
	return err
}

func run(path string) error {
	file, err := os.Open(path)
	if err != nil {
		return err
	}
	defer file.Close()
	streams, err := newHashers()
	if err != nil {
		return err
	}
	defer streams.release()
	if _, err := io.Copy(streams, file); err != nil {
		return err
	}
	return streams.print(os.Stdout)
}

func main() {
	if len(os.Args) != 2 {
		fmt.Fprintln(os.Stderr, "usage: hash-file FILE")
		os.Exit(2)
	}
	if err := run(os.Args[1]); err != nil {
		fmt.Fprintln(os.Stderr, "hash-file:", err)
		os.Exit(1)
	}
}
