"""Writes the two streams of the benchmark:  python3 streams.py FOLDER

long.stream    256 MiB in frames with bodies of 64 KiB, one record batch each
middle.stream  100,000 record batches of two columns, with bodies of 1 KiB
short.stream   100,000 record batches of two columns, with bodies of 96 bytes
"""
import os
import struct
import sys


def table(fields, size):
    """A FlatBuffers vtable and table: `fields` are (offset within the table, bytes) or None for an absent slot."""
    vtable = struct.pack("<HH", 4 + 2 * len(fields), size)
    body = bytearray(size)
    for field in fields:
        vtable += struct.pack("<H", field[0] if field else 0)
        if field:
            body[field[0] : field[0] + len(field[1])] = field[1]
    vtable += bytes(-len(vtable) % 8)
    struct.pack_into("<i", body, 0, len(vtable))
    return vtable, bytes(body)


def record_batch(length, nodes, buffers, body):
    """The metadata of a record batch: a Message that leads to a RecordBatch with its nodes and buffers."""
    node_list = struct.pack("<I", len(nodes)) + b"".join(struct.pack("<qq", *n) for n in nodes)
    buffer_list = struct.pack("<I", len(buffers)) + b"".join(struct.pack("<qq", *b) for b in buffers)
    batch_fields = [(8, struct.pack("<q", length)), (16, bytes(4)), (20, bytes(4))]
    batch_vtable, batch = table(batch_fields, 24)
    # behind the batch's table: 4 bytes, then the nodes; 4 bytes, then the buffers
    nodes_at = 24 + 4
    buffers_at = nodes_at + len(node_list) + 4
    batch = batch[:16] + struct.pack("<II", nodes_at - 16, buffers_at - 20)
    batch += bytes(4) + node_list + bytes(4) + buffer_list
    message_fields = [(16, struct.pack("<h", 4)), (18, b"\3"), (4, bytes(4)), (8, struct.pack("<q", body))]
    message_vtable, message = table(message_fields, 24)
    message = message[:4] + struct.pack("<I", 20 + len(batch_vtable)) + message[8:]
    root = struct.pack("<I", 8 + len(message_vtable)) + bytes(4)
    metadata = root + message_vtable + message + batch_vtable + batch
    return metadata + bytes(-len(metadata) % 8)


def frame(metadata, body):
    return b"\xff\xff\xff\xff" + struct.pack("<I", len(metadata)) + metadata + body


def write(path, one, count):
    with open(path, "wb") as out:
        many = one * max(1, (1 << 20) // len(one))
        per = len(many) // len(one)
        for _ in range(count // per):
            out.write(many)
        out.write(one * (count % per))
        out.write(b"\xff\xff\xff\xff\0\0\0\0")


def main(folder):
    os.makedirs(folder, exist_ok=True)
    body = bytes(range(256)) * 256
    metadata = record_batch(8192, [(8192, 0)], [(0, 0), (0, 65536)], len(body))
    one = frame(metadata, body)
    write(os.path.join(folder, "long.stream"), one, (256 << 20) // len(one))
    metadata = record_batch(86, [(86, 0), (86, 0)], [(0, 0), (0, 344), (344, 0), (344, 680)], 1024)
    write(os.path.join(folder, "middle.stream"), frame(metadata, bytes(1024)), 100000)
    metadata = record_batch(8, [(8, 0), (8, 0)], [(0, 0), (0, 32), (32, 0), (32, 64)], 96)
    write(os.path.join(folder, "short.stream"), frame(metadata, bytes(96)), 100000)


if __name__ == "__main__":
    main(sys.argv[1])
