#include <lz4frame.h>
#include <stdio.h>
#include <stdlib.h>
#include <string.h>

static char data[3000000], back[sizeof data], frame[2 * sizeof data];

/* A frame in chunks, with the checksums of the whole and of each block, written to standard output after it was
   read. */
int main(void)
{
    LZ4F_preferences_t asked = { .frameInfo = { .contentChecksumFlag = LZ4F_contentChecksumEnabled,
                                                .blockChecksumFlag = LZ4F_blockChecksumEnabled } };
    LZ4F_cctx *writer;
    LZ4F_dctx *reader;
    size_t end, piece, size = sizeof back, taken;
    for (size_t i = 0; i < sizeof data; i++) data[i] = (char)(i * i >> 9 ^ i >> 3);
    if (LZ4F_isError(LZ4F_createCompressionContext(&writer, LZ4F_VERSION))) return 2;
    end = LZ4F_compressBegin(writer, frame, sizeof frame, &asked);
    for (size_t at = 0; at < sizeof data; at += piece) {
        piece = at % 7777 + 1;
        if (piece > sizeof data - at) piece = sizeof data - at;
        taken = LZ4F_compressUpdate(writer, frame + end, sizeof frame - end, data + at, piece, NULL);
        if (LZ4F_isError(taken)) return 3;
        end += taken;
    }
    taken = LZ4F_compressEnd(writer, frame + end, sizeof frame - end, NULL);
    if (LZ4F_isError(taken)) return 4;
    end += taken;
    LZ4F_freeCompressionContext(writer);
    if (LZ4F_isError(LZ4F_createDecompressionContext(&reader, LZ4F_VERSION))) return 5;
    taken = end;
    if (LZ4F_decompress(reader, back, &size, frame, &taken, NULL) != 0 || memcmp(back, data, sizeof data)) return 6;
    LZ4F_freeDecompressionContext(reader);
    return fwrite(frame, 1, end, stdout) != end;
}
