"""The frames and answers of document 01, for tools in Python: only this module makes their bytes."""


def word(number):
    return bytes((number >> 8 & 255, number & 255))


def builds(file, r, b, n, x):
    return bytes((1, file)) + word(r) + bytes((b,)) + word(n) + bytes((x,))


def opens(file, access, share, multi):
    return bytes((2, file, access, share, multi))


def reads(file, place, count):
    return bytes((3, file, place)) + word(count)


def writes(file, place, count, data):
    return bytes((4, file, place)) + word(count) + data


def controls(file, place, code, parameter):
    return bytes((5, file, place, code)) + word(parameter)


def collects(file, place):
    return bytes((6, file, place))


def closes(file, place):
    return bytes((7, file, place))


def passes(seconds):
    return b'\x08' + word(seconds)


def counts(file):
    return bytes((9, file))


def built(capacity):
    return b'\x01\x00' + word(capacity)


def opened(place, identity):
    return bytes((2, 0, place)) + word(identity)


def got(log, data):
    """The answer to a read that is served at once."""
    return b'\x03\x00' + word(log) + data


def wrote(log):
    return b'\x04\x00' + word(log)


def controlled():
    return b'\x05\x00'


def digits(frame):
    return frame.hex().upper().encode()


def lines(*frames):
    """Frames, or answers, as lines of the event program."""
    return b''.join(digits(frame) + b'\n' for frame in frames)
