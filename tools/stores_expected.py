#!/usr/bin/env python3
"""Writes what stores_demo must print, from a dictionary with a room in place of the stores.

    tools/stores_expected.py        run at the top of the repository; writes crates/stores_demo/stdout
"""
ROOM = 8
RULES = [(n % 3, n) for n in range(12)]
ACTIVATIONS = [(n // 2 % 3, n % 2, n // 2) for n in range(12)]


def put(held, key, record):
    if key not in held and len(held) == ROOM:
        return False
    held[key] = record
    return True


def run(keys):
    held = {}

    def line(what, answers):
        return "  %s %d; the stores agree\n" % (what, sum(answers))

    yield line("put 12 keys: taken", [put(held, key, 7) for key in keys])
    yield line("find 12 keys: found", [key in held for key in keys])
    yield line("put 12 keys with the record 0: taken", [put(held, key, 0) for key in keys])
    yield line("find 12 keys: found", [key in held for key in keys])
    yield line("remove 12 keys: removed", [held.pop(key, None) is not None for key in keys])
    yield line("walk: keys", [len(held)])
    yield line("put 12 keys: taken", [put(held, key, 9) for key in keys])
    yield line("walk: keys", [len(held)])
    for key in [key for key in held if key[0] == 1]:
        del held[key]
    yield line("remove the keys of bearer 1, walk: keys", [len(held)])
    yield line("put 12 keys: taken", [put(held, key, 7) for key in keys])


if __name__ == "__main__":
    text = "".join("%s keys\nroom for %d\n%s" % (kind, ROOM, "".join(run(keys))) for kind, keys in (("rule", RULES), ("activation", ACTIVATIONS)))
    open("crates/stores_demo/stdout", "w").write(text)
