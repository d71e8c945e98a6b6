#!/usr/bin/env python3
"""Writes what the programs are run on and must print, from a decoder of its own that shares nothing with the crates.

    tools/expected.py        run at the top of the repository; writes crates/avpdump/stdout,
                             crates/framing_cases/stdin and crates/framing_cases/stdout
"""
NUMBERS = {("message", 0): {258, 268, 285, 415, 416}, ("message", 10415): {1006}, ("result", 0): {266, 298},
           ("definition", 0): {432, 439}, ("definition", 10415): {1007, 1008, 1009, 1010, 1011}}
GROUPS = {("message", 0, 297): "result", ("message", 10415, 1001): "install", ("message", 10415, 1002): "remove",
          ("install", 10415, 1003): "definition"}


class Fault(Exception):
    pass


def walk(octets, place, start, end, depth, out):
    """Appends (depth, offset, code, vendor, flags, value) for each AVP; raises Fault at the first that is ill framed."""
    at = start
    while at != end:
        rest = end - at
        if rest < 8:
            raise Fault(at)
        code = int.from_bytes(octets[at:at + 4], "big")
        flags = octets[at + 4]
        length = int.from_bytes(octets[at + 5:at + 8], "big")
        header = 12 if flags & 0x80 else 8
        if header > rest or length < header or -(-length // 4) * 4 > rest:
            raise Fault(at)
        vendor = int.from_bytes(octets[at + 8:at + 12], "big") if header == 12 else 0
        data = octets[at + header:at + length]
        number = code in NUMBERS.get((place, vendor), ())
        if number and len(data) != 4:
            raise Fault(at)
        inner = GROUPS.get((place, vendor, code))
        value = ("number", int.from_bytes(data, "big")) if number else ("group", None) if inner else ("octets", data)
        out.append((depth, at, code, vendor, flags, value))
        if inner:
            walk(octets, inner, at + header, at + length, depth + 1, out)
        at += -(-length // 4) * 4


def listed(octets):
    out = []
    try:
        walk(octets, "message", 20 if len(octets) >= 20 else len(octets), len(octets), 0, out)
    except Fault as fault:
        return out, fault.args[0]
    return out, None


def length_fault(octets):
    if len(octets) < 20:
        return "the message has %d octets, a header has 20" % len(octets)
    said = int.from_bytes(octets[1:4], "big")
    return None if said == len(octets) else "the header says %d octets, the message has %d" % (said, len(octets))


def dump(octets):
    wrong = length_fault(octets)
    wrong = wrong and "fault at 0: %s (refusal 7, Diameter code 5015)" % wrong
    if len(octets) < 20:
        return wrong + "\n"
    word = lambda i, n: int.from_bytes(octets[i:i + n], "big")
    lines = ["version %d length %d of %d command %d flags 0x%02x" % (octets[0], word(1, 3), len(octets), word(5, 3), octets[4]),
             "application %d hop-by-hop %d end-to-end %d" % (word(8, 4), word(12, 4), word(16, 4))] + ([wrong] if wrong else [])
    avps, fault = listed(octets)
    for depth, at, code, vendor, flags, (kind, value) in avps:
        if kind == "octets":
            text = all(32 <= c <= 126 and c not in b'"\\' for c in value)
            shown = '"%s"' % value.decode() if text else "0x" + value.hex()
        else:
            shown = str(value) if kind == "number" else "group"
        lines.append("%s%d: code %d vendor %d flags 0x%02x %s" % ("  " * depth, at, code, vendor, flags, shown))
    lines.append("end: every AVP is well framed" if fault is None else
                 "fault at %d: the AVP does not fit, does not cover its header, or is a number without four octets (refusal 12, Diameter code 5014)" % fault)
    return "".join(line + "\n" for line in lines)


def verdict(name, octets):
    if length_fault(octets):
        return "%s: refusal 7, code 5015, at offset 0\n" % name
    fault = listed(octets)[1]
    return "%s: %s\n" % (name, "well framed" if fault is None else "refusal 12, code 5014, at offset %d" % fault)


def avp(code, data, vendor=None, flags=0x40, length=None, padding=True):
    head = 12 if vendor is not None else 8
    octets = code.to_bytes(4, "big") + bytes([flags | (0x80 if vendor is not None else 0)])
    octets += (head + len(data) if length is None else length).to_bytes(3, "big")
    octets += (b"" if vendor is None else vendor.to_bytes(4, "big")) + data
    return octets + (b"\0" * (-len(octets) % 4) if padding else b"")


def message(*avps):
    body = b"".join(avps)
    return mended(bytes(4) + b"\x40\x00\x01\x10\x01\x00\x00\x08" + bytes(8) + body)


def mended(octets):
    """The same octets with the length that they have."""
    return octets if len(octets) < 20 else b"\x01" + len(octets).to_bytes(3, "big") + octets[4:]


G = 10415
CASES = [("empty", b""), ("header-only", message()), ("header-cut", message()[:19]),
         ("one-octet-after-the-header", message(b"\0")), ("header-says-less", message() + bytes(4)), ("header-says-more", message(bytes(4))[:20])]
CASES += [("length-%d" % n, message(avp(263, b"abc", length=n))) for n in (0, 7, 8, 11, 12, 13, 0xffffff)]
CASES += [("vendor-length-%d" % n, message(avp(1005, b"abcd", G, length=n))) for n in (0, 8, 11, 12, 16, 17)]
CASES += [("number-of-%d-octets" % n, message(avp(268, bytes(n)))) for n in (0, 3, 4, 5)]
CASES += [("number-of-%d-octets-unknown-here" % n, message(avp(266, bytes(n)))) for n in (3, 5)]
CASES += [("number-with-another-vendor-%d" % n, message(avp(268, bytes(n), 9))) for n in (3, 4)]
CASES += [("without-padding", message(avp(263, b"abc", padding=False))),
          ("padding-not-zero", message(avp(263, b"abc", padding=False) + b"\xff")),
          ("second-avp-cut", message(avp(263, b"abcd"), b"\0\0\1\4\x40\0\0")),
          ("vendor-zero", message(avp(268, bytes(4), 0))),
          ("group-in-a-group-in-a-group", message(avp(1001, avp(1003, avp(1005, b"web", G) + avp(1010, bytes(4), G), G), G), avp(268, bytes(4)))),
          ("inner-number-of-3-octets", message(avp(1001, avp(1003, avp(1010, bytes(3), G), G), G))),
          ("group-cuts-a-member", message(avp(1001, avp(1005, b"abcd", G), G, length=24))),
          ("group-cuts-a-member-in-its-padding", message(avp(1001, avp(1005, b"web", G), G, length=27))),
          ("group-cuts-a-header", message(avp(1002, avp(1005, b"web", G), G, length=19))),
          ("group-with-a-trailing-octet", message(avp(1001, avp(1005, b"abcd", G) + b"\0", G))),
          ("group-empty", message(avp(1001, b"", G))),
          ("group-not-known-here", message(avp(1003, b"\0\0\0", G))),
          ("fault-after-a-group", message(avp(1001, avp(1005, b"abcd", G), G), avp(263, b"abc", length=7))),
          ("outer-fits-inner-does-not", message(avp(297, avp(266, bytes(4)) + avp(298, bytes(4), length=13)), avp(268, bytes(4))))]
NESTED = message(avp(263, b"abc"), avp(1001, avp(1003, avp(1005, b"w", G) + avp(1010, bytes(4), G), G), G), avp(268, bytes(4)))
CASES += [("cut-to-%d" % n, mended(NESTED[:n])) for n in range(len(NESTED) + 1)]

if __name__ == "__main__":
    octets = bytes.fromhex(open("crates/avpdump/stdin").read())
    open("crates/avpdump/stdout", "w").write(dump(octets))
    open("crates/framing_cases/stdin", "w").write("".join("%s %s\n" % (name, octets.hex()) for name, octets in CASES))
    open("crates/framing_cases/stdout", "w").write("".join(verdict(name, octets) for name, octets in CASES))
