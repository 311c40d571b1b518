"""Bytes of Avro files, for the programs of this folder."""

MARKER = bytes(range(16))


def number(value):
    zigzag = value << 1 if value >= 0 else (-value << 1) - 1
    spelled = bytearray()
    while zigzag > 127:
        spelled.append(zigzag & 127 | 128)
        zigzag >>= 7
    spelled.append(zigzag)
    return bytes(spelled)


def sized(content):
    return number(len(content)) + content


def header(schema, codec=b"null"):
    return b"Obj\x01" + number(2) + sized(b"avro.schema") + sized(schema) + sized(b"avro.codec") + sized(codec) + number(0) + MARKER


def block(count, objects):
    return number(count) + sized(objects) + MARKER
