"""Messages, requests and the faults of the wire: docs/PROTOCOL.md."""

CHECKS = ('simple', 'crc')
HOST = 1
# The sizes of the data of the wanted reply to each header that the host sends; None is any, for a text.
SIZES = {254: 0, 246: None, 245: None, 244: None, 242: 3, 241: None, 192: None, 4: 3, 1: 0, 231: 0, 230: 2, 229: 11, 228: 0,
         227: 1, 225: 3, 210: 0, 209: 1, 189: 0, 188: 1, 184: 6, 172: 1, 168: 3, 167: 0, 166: 4, 164: 0, 163: 1,
         159: 11, 154: 0}


def crc16(data):
    """The CRC of bytes: x^16 + x^12 + x^5 + 1 from 0 on, the most significant bit first."""
    register = 0
    for byte in data:
        register ^= byte << 8
        for _ in range(8):
            register = (register << 1) ^ (0x11021 if register & 0x8000 else 0)
    return register


def spell(check, to, source, header, data=b''):
    """The bytes of one message under a check."""
    if check == 'simple':
        front = bytes([to, len(data), source, header]) + data
        return front + bytes([-sum(front) % 256])
    crc = crc16(bytes([to, len(data), header]) + data)
    return bytes([to, len(data), crc % 256, header]) + data + bytes([crc // 256])


def message(check, piece):
    """Destination, source, header and data of the message that bytes are under a check, or None. The CRC names no source."""
    if len(piece) < 5 or len(piece) != piece[1] + 5:
        return None
    if check == 'simple':
        return None if sum(piece) % 256 else (piece[0], piece[2], piece[3], piece[4:-1])
    crc = crc16(piece[:2] + piece[3:-1])
    return (piece[0], None, piece[3], piece[4:-1]) if crc == piece[2] + 256 * piece[-1] else None


def is_message(piece):
    """Whether bytes are a message under either check."""
    return any(message(check, piece) for check in CHECKS)


# The host's broadcast by which a scan asks all devices for their addresses.
POLLS = {check: spell(check, 0, HOST, 253) for check in CHECKS}


def is_forged(fault, sent):
    """Whether a fault of an exchange passes a check: the devices hear a message, or the host does, beside an address poll."""
    if fault is None:
        return False
    where, piece = fault
    if where == 'devices' or sent in POLLS.values():
        return where == 'devices' and is_message(piece)
    return is_message(piece) or (where == 'whole' and piece.startswith(sent) and is_message(piece[len(sent):]))


def hexed(piece):
    """Bytes in hexadecimal, `-` for none."""
    return piece.hex() or '-'


def number(data):
    """A number of several bytes, the low one first."""
    return int.from_bytes(data, 'little')
