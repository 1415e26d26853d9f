import hashlib
import io

import lz4.frame

data = bytes(i * i >> 9 & 255 for i in range(1000000))
for content in (False, True):
    for block in (False, True):
        frame = lz4.frame.compress(data, content_checksum=content, block_checksum=block)
        assert lz4.frame.decompress(frame) == data
        file = io.BytesIO()
        with lz4.frame.LZ4FrameFile(file, "wb", content_checksum=content, block_checksum=block) as writer:
            for at in range(0, len(data), 777):
                writer.write(data[at : at + 777])
        assert lz4.frame.open(io.BytesIO(file.getvalue())).read() == data
        print(content, block, hashlib.sha256(frame + file.getvalue()).hexdigest())
