"""Inboxes of many messages, a long transaction, and many small ones: seconds, and the peak memory.

    python3 bench/mail.py crates/test_replication/out/test_replication [--times N] [--small]

`growth` is the time beside that of half the size: about 2 is wanted. `windows` adds windows, one behind the other, takes them all, and takes and drops
them once more; `nested` drops windows each of which lies in the one before it; `fragments` adds the fragments of one window, the last first. `long`
cuts one transaction into messages, `text` one of a single long text; `join` puts the messages of the first together, as another program does, and reads
it. `x body` is by how many bytes the memory grew, from the size before, for each byte by which the body did. `small` cuts transactions as they come.
"""

import re

import common

SIZES = {
    "windows": (16_384, 32_768, 65_536, 131_072),
    "nested": (16_384, 32_768, 65_536, 131_072),
    "fragments": (16_384, 32_768, 65_536, 131_072),
    "long": (16_000_000, 32_000_000, 64_000_000),
    "text": (16_000_000, 32_000_000, 64_000_000),
    "join": (16_000_000, 32_000_000, 64_000_000),
    "small": (250_000, 500_000, 1_000_000),
}


def main():
    words = common.arguments("Inboxes of many messages, a long transaction, and many small ones.")
    rows = []
    with common.room(words.folder) as folder:
        open(f"{folder}/nothing", "wb").close()
        for name, sizes in SIZES.items():
            before = None
            for size in sizes:
                if words.small:
                    size //= 10
                runs = [common.run([words.program, name, str(size)], f"{folder}/nothing", folder) for _ in range(words.times)]
                seconds, memory, wrote = min(runs, key=lambda run: run[0])
                told = wrote.decode().strip()
                length = re.search(r"(\d+) bytes,", told)
                body = int(length[1]) / 1024 / 1024 if length else 0
                multiple = (memory - before[1]) / (body - before[2]) if before and body else ""
                rows.append((name, size, seconds, seconds / before[0] if before else "", memory, multiple, told))
                before = seconds, memory, body
    common.table(("run", "size", "seconds", "growth", "MiB", "x body", "told"), rows)


if __name__ == "__main__":
    main()
