import java.io.IOException;
import java.io.InputStream;
import java.lang.foreign.Arena;
import java.lang.foreign.FunctionDescriptor;
import java.lang.foreign.Linker;
import java.lang.foreign.MemoryLayout;
import java.lang.foreign.MemorySegment;
import java.lang.foreign.SegmentAllocator;
import java.lang.foreign.SymbolLookup;
import java.lang.foreign.ValueLayout;
import java.lang.invoke.MethodHandle;
import java.nio.file.Files;
import java.nio.file.Path;

/**
 * Hashes a file with XXH32, XXH64, XXH3 64-bit and XXH3 128-bit, and prints a line for each, using only Java's
 * foreign-function interface:
 *
 * <pre>java --enable-native-access=ALL-UNNAMED HashFile.java LIBRARY FILE</pre>
 *
 * LIBRARY is the shared library, as PREFIX/lib/libxxhash.so.0. It needs Java 22 or later; Java 21 has the interface
 * as a preview, and needs {@code --enable-preview --source 21} before the rest.
 */
public final class HashFile {
    private static final int PIECE = 65536;
    private static final MemoryLayout HASH_128 = MemoryLayout.structLayout(
            ValueLayout.JAVA_LONG.withName("low64"), ValueLayout.JAVA_LONG.withName("high64"));

    /** The library's functions by their names. */
    private record Library(SymbolLookup names) {
        MethodHandle call(String name, MemoryLayout result, MemoryLayout... parameters) {
            MemorySegment place = names.find(name).orElseThrow(() -> new IllegalArgumentException("no " + name));
            FunctionDescriptor form = result == null
                    ? FunctionDescriptor.ofVoid(parameters) : FunctionDescriptor.of(result, parameters);
            return Linker.nativeLinker().downcallHandle(place, form);
        }
    }

    /** A stream of one hash with the seed 0. */
    private static final class Hasher {
        private final MethodHandle update;
        private final MethodHandle digest;
        private final MethodHandle free;
        private final MemorySegment state;

        /** `kind` is the type of the state, `name` the prefix of the calls, `seed` the type of a seed, or null. */
        Hasher(Library library, String kind, String name, MemoryLayout result, MemoryLayout seed) throws Throwable {
            update = library.call(name + "_update", ValueLayout.JAVA_INT,
                    ValueLayout.ADDRESS, ValueLayout.ADDRESS, ValueLayout.JAVA_LONG);
            digest = library.call(name + "_digest", result, ValueLayout.ADDRESS);
            free = library.call(kind + "_freeState", ValueLayout.JAVA_INT, ValueLayout.ADDRESS);
            state = (MemorySegment) library.call(kind + "_createState", ValueLayout.ADDRESS).invoke();
            if (state.address() == 0) throw new OutOfMemoryError();
            reset(library, name + "_reset", seed);
        }

        private void reset(Library library, String name, MemoryLayout seed) throws Throwable {
            MemoryLayout[] parameters = seed == null
                    ? new MemoryLayout[] {ValueLayout.ADDRESS} : new MemoryLayout[] {ValueLayout.ADDRESS, seed};
            MethodHandle call = library.call(name, ValueLayout.JAVA_INT, parameters);
            int ignored = seed == null ? (int) call.invoke(state) : (int) call.invoke(state, 0);
        }

        void update(MemorySegment piece, long length) throws Throwable {
            int code = (int) update.invoke(state, piece, length);
            if (code != 0) throw new IllegalStateException("the state was never reset");
        }

        void close() throws Throwable {
            int ignored = (int) free.invoke(state);
        }
    }

    private static void feed(Hasher[] hashers, Path path, Arena arena) throws Throwable {
        byte[] bytes = new byte[PIECE];
        MemorySegment piece = arena.allocate(PIECE);
        try (InputStream file = Files.newInputStream(path)) {
            for (int length = file.read(bytes); length >= 0; length = file.read(bytes)) {
                MemorySegment.copy(bytes, 0, piece, ValueLayout.JAVA_BYTE, 0, length);
                for (Hasher hasher : hashers) hasher.update(piece, length);
            }
        }
    }

    private static void print(Hasher[] hashers, Arena arena) throws Throwable {
        MemorySegment wide = (MemorySegment) hashers[3].digest.invoke((SegmentAllocator) arena, hashers[3].state);
        System.out.printf("32 %08x%n", (int) hashers[0].digest.invoke(hashers[0].state));
        System.out.printf("64 %016x%n", (long) hashers[1].digest.invoke(hashers[1].state));
        System.out.printf("3-64 %016x%n", (long) hashers[2].digest.invoke(hashers[2].state));
        System.out.printf("3-128 %016x%016x%n", wide.get(ValueLayout.JAVA_LONG, 8), wide.get(ValueLayout.JAVA_LONG, 0));
        if (System.out.checkError()) throw new IOException("write failed");
    }

    public static void main(String[] words) throws Throwable {
        if (words.length != 2) {
            System.err.println("usage: HashFile LIBRARY FILE");
            System.exit(2);
        }
        try (Arena arena = Arena.ofConfined()) {
            Library library = new Library(SymbolLookup.libraryLookup(Path.of(words[0]), arena));
            Hasher[] hashers = {
                new Hasher(library, "XXH32", "XXH32", ValueLayout.JAVA_INT, ValueLayout.JAVA_INT),
                new Hasher(library, "XXH64", "XXH64", ValueLayout.JAVA_LONG, ValueLayout.JAVA_LONG),
                new Hasher(library, "XXH3", "XXH3_64bits", ValueLayout.JAVA_LONG, null),
                new Hasher(library, "XXH3", "XXH3_128bits", HASH_128, null)};
            feed(hashers, Path.of(words[1]), arena);
            print(hashers, arena);
            for (Hasher hasher : hashers) hasher.close();
        }
    }
}
