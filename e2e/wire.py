"""What the makers of files write bytes with: numbers and fields of Protocol Buffers. It shares nothing with the program."""


def number(value):
    """A number as a varint."""
    made = b""
    while value > 127:
        made += bytes([value % 128 + 128])
        value //= 128
    return made + bytes([value])


def field(place, payload):
    """A field whose payload follows its length."""
    return number(8 * place + 2) + number(len(payload)) + payload
