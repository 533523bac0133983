"""Scripts that the benchmarks run, line by line as bytes."""

HEAD = b"servers 1\nuser u g\nhost c1 u\nfileset home s1 64 u\nbegin\n"


def writes_and_reads(lines):
    """A script of so many lines: writes and reads within the first 4,096 bytes of one file."""
    yield HEAD + b"c1 create /home/f\n"
    for i in range(lines - 6):
        at = i * 37 % 4000
        yield b"c1 write /home/f %d \"some text %d\"\n" % (at, i) if i % 2 == 0 else b"c1 read /home/f %d 64\n" % at


def long_lines():
    """10,000 lines of near 8,192 bytes, which say little: 80 MB."""
    yield HEAD + b"c1 create /home/f\n"
    for _ in range(9994):
        yield b"c1 read /home/f 0 1" + b" " * 8160 + b"\n"


def escaped(text):
    """Bytes by their hexadecimal digits, as they stand in quotes."""
    return b"".join(b"\\x%02x" % byte for byte in text)


def escapes_and_paths():
    """10,000 lines of near 8,000 bytes, 80 MB: writes of 1,000 escaped bytes to paths of escaped names, 33 levels down."""
    path = b'"/home' + (b"/" + escaped(b"n" * 29)) * 33 + b'"'
    text = b'"' + escaped(bytes(i % 256 for i in range(1000))) + b'"'
    yield HEAD + b"c1 create /home/f\n"
    for _ in range(9994):
        yield b"c1 write " + path + b" 0 " + text + b"\n"


def full_files(files=62):
    """So many files of 64 KiB each, without a zero byte."""
    yield HEAD
    for f in range(files):
        yield b"c1 create /home/f%d\n" % f
        for piece in range(64):
            yield b"c1 write /home/f%d %d %s\n" % (f, piece * 1024, b"x" * 1024)


def reversed_clones():
    """9,990 lines that clone clones, each before the line that places its source."""
    yield HEAD
    for i in range(9989, 0, -1):
        yield b"c1 clone k%d k%d\n" % (i, i + 1)
    yield b"c1 clone home k1\n"


def words(seed):
    """The words of the generator that `gen` draws from: PCG with 64 bits of state, stream 1."""
    increment, mask = 3, (1 << 64) - 1
    state = (seed + increment) & mask
    while True:
        state = (state * 6364136223846793005 + increment) & mask
        mixed = (((state >> 18) ^ state) >> 27) & 0xFFFFFFFF
        turn = state >> 59
        yield (mixed >> turn | mixed << (32 - turn)) & 0xFFFFFFFF


def generated(seed, hosts, calls):
    """What `gen` makes of these numbers, as a script."""
    yield b"servers 1\nuser u g\n"
    yield from (b"host c%d u\n" % h for h in range(1, hosts + 1))
    yield b"fileset work s1 64 u\nbegin\nc1 create /work/shared\n"
    yield from (b"c1 create /work/h%d\n" % h for h in range(1, hosts + 1))
    yield b"c1 raise start\n"
    yield from (b"c%d await start\n" % h for h in range(2, hosts + 1))
    drawn = words(seed)
    for h in range(1, hosts + 1):
        for i in range(1, calls + 1):
            word = next(drawn)
            kind, v = word % 4, word // 4
            if kind == 3:
                yield b'c%d write /work/shared %d "%d-%d"\n' % (h, 512 * (h - 1) + v % 480, h, i)
            elif kind == 2:
                yield b"c%d read /work/h%d %d 64\n" % (h, h, v % 60000)
            else:
                yield b'c%d write /work/h%d %d "%d-%d"\n' % (h, h, v % 60000, h, i)
