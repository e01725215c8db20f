"""A sheet whose bytes are written out by hand, in the words of "The sheet": guard.py's reading and writing are held to it."""

from guard import ALL, ALL_SHUFFLED, ANY, ANY_SHUFFLED, Fragment, Range, Rule, Sheet, read_sheet, write, write_into

# what is easily lost: output 63, which no rule has; joins 1, 2 and 3 of fragments with one range; 0 beside 65535 for v; ranges in no order of names
OUTPUTS = 1 << 3 | 1 << 9 | 1 << 40 | 1 << 63
SHEET = Sheet(OUTPUTS, (
    Rule(0, (Fragment(ANY, (Range(5, 1, 65535),)),), (), 2, 0),
    Rule(1, (Fragment(ALL, (Range(7, 2, 3), Range(4, 1, 1))), Fragment(ALL_SHUFFLED, (Range(6, 300, 0),))), (), 0, 0),
    Rule(2, (Fragment(ANY_SHUFFLED, (Range(1, 1, 0), Range(0, 1, 1))),),
         (Fragment(ANY_SHUFFLED, (Range(40, 1, 1),)), Fragment(ALL_SHUFFLED, (Range(9, 1, 2), Range(3, 1, 0)))), 0, 70000),
), 2)
BYTES = bytes.fromhex("""
    4C4F42 0200 0802000000010080 03
    00 01 00 02 00000000
        01 01  05 0100 FFFF
    01 02 00 00 00000000
        00 02  07 0200 0300  04 0100 0100
        02 01  06 2C01 0000
    02 01 02 00 70110100
        03 02  01 0100 0000  00 0100 0100
        03 01  28 0100 0100
        02 02  09 0100 0200  03 0100 0000
""")


def hold():
    assert read_sheet(BYTES) == SHEET and write(SHEET) == BYTES
    first = BYTES[:3] + b'\1\0' + BYTES[5:13] + b'\1' + BYTES[14:29]    # the first rule alone, in version 1
    assert read_sheet(first).version == 1 and write(read_sheet(first)) == first
    for length in range(len(BYTES) + 5):
        buffer = bytearray(b'\xA5' * length)
        said = write_into(SHEET, buffer)
        if length < len(BYTES):
            assert said == -16 and buffer == b'\xA5' * length
        else:
            assert said == len(BYTES) == 95 and buffer == BYTES + b'\xA5' * (length - said)
