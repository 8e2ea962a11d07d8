"""Archives in cpio's form newc, which Linux takes as an initramfs."""

DIRECTORY = 0o040755
FILE = 0o100644
PROGRAM = 0o100755
CONSOLE = 0o020600


def entry(number, name, mode, data=b"", device=(0, 0)):
    """One entry: its header of fourteen numbers, its name and its bytes, each filled up to a multiple of four bytes."""
    numbers = [number, mode, 0, 0, 1, 0, len(data), 0, 0, *device, len(name) + 1, 0]
    head = "070701" + "".join(f"{value:08X}" for value in numbers)
    return filled(head.encode() + name.encode() + b"\0") + filled(data)


def filled(data):
    return data + b"\0" * (-len(data) % 4)


def archive(files):
    """Of names, modes and bytes; with a console, so that the first program's words are seen."""
    entries = [entry(1, "dev", DIRECTORY), entry(2, "dev/console", CONSOLE, device=(5, 1))]
    entries += [entry(number, *file) for number, file in enumerate(files, 3)]
    return b"".join(entries) + entry(0, "TRAILER!!!", 0)
