#!/usr/bin/env python3
"""The messages of crates/worked, reckoned from docs/FORMAT.md and docs/SUITES.md alone and compared.

A second reading of the rules in another language; AES comes from the command `openssl`. Outside the gate. It ends with
status 1 if a message differs.
"""
import subprocess
import sys

INTEGRITY, ENCRYPTION = bytes([0x10] * 16), bytes([0x20] * 16)


def openssl(*words, given):
    return subprocess.run(["openssl", *words], input=given, capture_output=True, check=True).stdout


def bench_tag(count, bearer, direction, message):
    known = count + bearer + direction + len(message)
    return bytes((INTEGRITY[j] + known + sum(message[j::16])) % 256 for j in range(16))


def bench_stream(count, bearer, direction, size):
    return bytes((ENCRYPTION[i % 16] + count + bearer + direction + i) % 256 for i in range(size))


def start(count, bearer, direction):
    return (count << 32 | bearer << 27 | direction << 26).to_bytes(8, "big")


def aes_tag(count, bearer, direction, message):
    words = ["mac", "-cipher", "AES-128-CBC", "-macopt", "hexkey:" + INTEGRITY.hex(), "-binary", "CMAC"]
    return openssl(*words, given=start(count, bearer, direction) + message)[:4]


def aes_stream(count, bearer, direction, size):
    words = ["enc", "-aes-128-ctr", "-K", ENCRYPTION.hex(), "-iv", start(count, bearer, direction).hex() + "0" * 16]
    return openssl(*words, given=bytes(size))


def no_stream(count, bearer, direction, size):
    return bytes(size)


SUITES = {"bench": (bench_tag, bench_stream), "aes": (aes_tag, aes_stream), "clear": (aes_tag, no_stream)}


def seal(suite, plane, key, counter, session, sender, m, d, content, width):
    tag, stream = SUITES[suite]
    told = (counter, 21 if plane == "user" else 0, 0 if sender == "logger" else 1)
    count = width or max(1, (counter.bit_length() + 7) // 8)
    first = (0x80 if plane == "user" else 0) | key << 3 | count
    body = (len(content).to_bytes(d, "big") if plane == "user" else b"") + content
    rest = body + tag(*told, session + body)[:m]
    hidden = bytes(x ^ y for x, y in zip(rest, stream(*told, len(rest))))
    return bytes([first]) + counter.to_bytes(count, "big") + session + hidden


CASES = [
    ("bench", "user", 1, 1, "01", "logger", 4, 1, "4142", None, "89010134767A12165050"),
    ("bench", "user", 1, 1, "01", "logger", 4, 1, "4142", 4, "8C0000000101 34767A12165050"),
    ("bench", "control", 1, 1, "01", "logger", 4, 1, "30", None, "0901011136603736"),
    ("bench", "user", 7, 255, "F469", "service", 8, 2, "4142", None, "B9FFF469 3534767A26AE10115153146B"),
    ("bench", "user", 7, 256, "F469", "service", 8, 2, "4142", None, "BA0100F469 3635797B1AAE101353516C6D"),
    ("bench", "control", 3, 0, "82A57F", "service", 16, 2, "40090182", None, "190082A57F 612B22A6BF9BB0700833B134353637 28292A2B2C"),
    ("bench", "user", 2, 4294967295, "82A57F", "logger", 12, 1, "", None, "94FFFFFFFF82A57F 349FFB90101112131415161768"),
    ("aes", "user", 1, 1, "01", "logger", 4, 1, "4142", None, "89010111A0C861E2926B"),
    ("clear", "user", 1, 1, "01", "logger", 4, 1, "4142", None, "890101024142 61B292EC"),
    ("aes", "control", 7, 256, "F469", "service", 4, 2, "40090182", None, "3A0100F469 E91C5E12A7400A6A"),
]

different = 0
for suite, plane, key, counter, session, sender, m, d, content, width, expected in CASES:
    octets = seal(suite, plane, key, counter, bytes.fromhex(session), sender, m, d, bytes.fromhex(content), width)
    same = octets == bytes.fromhex(expected)
    different += not same
    word = "same" if same else "DIFFERENT"
    print(f"{word} {suite} {plane} {key} {counter} {session} {sender} M={m} D={d} {content or '-'}: {octets.hex(' ').upper()}")
print(f"{len(CASES)} compared, {different} different")
sys.exit(1 if different else 0)
