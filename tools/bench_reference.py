#!/usr/bin/env python3
"""The bench, written a second time from docs/ alone: a script on standard input, its transcript on standard output.

With --compare PROGRAM [SCRIPTS [SEED]] it makes random scripts and compares the program's transcripts with its own. Outside the gate.
"""
import random
import re
import subprocess
import sys

LONGEST_MESSAGE, LONGEST_LINE, LAST = 2048, 4608, 2**32 - 1
LAYER = {n: name for name, numbers in {
    "wire": (1, 2, 3, 4, 5, 10, 12, 21), "table": (6, 14, 20), "keys": (7, 15, 18),
    "counters": (8, 9, 19), "suite": (11,), "call": (13, 16, 17)}.items() for n in numbers}
BEARER = {"control": 0, "user": 21}
COMMANDS = (0x10, 0x11, 0x30, 0x31, 0x40, 0x41)


class No(Exception):
    def __init__(self, number, place=0):
        self.number, self.place = number, place


def need(test, number, place=0):
    if not test:
        raise No(number, place)


def tag(key, count, bearer, direction, octets):
    base = count + bearer + direction + len(octets)
    return bytes((key + base + sum(octets[j::16])) % 256 for j in range(16))


def crypt(key, count, bearer, direction, octets):
    return bytes(x ^ (key + count + bearer + direction + i) % 256 for i, x in enumerate(octets))


def is_id(octets):
    return (1 <= len(octets) <= 4 and octets[-1] < 128 and all(x >= 128 for x in octets[:-1]) and octets != b"\0")


class Session:
    def __init__(self, m, d, leap, key, keys):
        self.m, self.d, self.leap = m, d, leap
        self.slots, self.waits, self.sending = {key: keys}, {}, key
        self.sealed = {"control": 0, "user": 0}
        self.last = {"control": 0, "user": 0}
        self.accepted = {"control": 0, "user": 0}

    def drop(self, gone, instead):
        for key in gone:
            self.slots.pop(key, None)
            self.waits.pop(key, None)
        self.waits = {k: to for k, to in self.waits.items() if to not in gone}
        if self.sending in gone:
            self.sending = instead


class End:
    def __init__(self, direction, room):
        self.direction, self.room, self.sessions = direction, room, {}

    def find(self, octets, place=0):
        need(octets in self.sessions, 6, place)
        return self.sessions[octets]

    def begin(self, octets, m, d, leap, key, keys):
        need(is_id(octets) and m in (4, 8, 12, 16) and d in (1, 2) and 1 <= leap <= LAST and 1 <= key <= 7, 13)
        need(octets not in self.sessions, 14)
        need(len(self.sessions) < self.room, 20)
        self.sessions[octets] = Session(m, d, leap, key, keys)
        return ["ok"]

    def give(self, octets, key, keys):
        need(is_id(octets) and 1 <= key <= 7, 13)
        s = self.find(octets)
        need(key not in s.slots, 18)
        s.slots[key] = keys
        return ["ok"]

    def choose(self, octets, key):
        need(is_id(octets) and 1 <= key <= 7, 13)
        s = self.find(octets)
        need(key in s.slots, 7)
        s.sending = key
        return ["ok"]

    def drop(self, octets, key):
        need(is_id(octets) and 1 <= key <= 7, 13)
        s = self.find(octets)
        if key not in s.slots:
            return ["ignored"]
        s.drop({key}, None)
        return ["ok"]

    def seal(self, plane, octets, content):
        need(is_id(octets) and (plane == "user" or (content and content[0] in COMMANDS)), 13)
        s = self.find(octets)
        need(s.sending in s.slots, 15)
        need(s.sealed[plane] < LAST, 19)
        count = s.sealed[plane] + 1
        width = max(1, (count.bit_length() + 7) // 8)
        body = content
        if plane == "user":
            need(len(content) < 256**s.d, 16)
            body = len(content).to_bytes(s.d, "big") + content
        need(1 + width + len(octets) + len(body) + s.m <= LONGEST_MESSAGE, 16)
        integrity, encryption = s.slots[s.sending]
        rest = body + tag(integrity, count, BEARER[plane], self.direction, octets + body)[:s.m]
        first = 128 * (plane == "user") + 8 * s.sending + width
        s.sealed[plane] = count
        message = bytes([first]) + count.to_bytes(width, "big") + octets + crypt(encryption, count, BEARER[plane], self.direction, rest)
        return ["ok", message.hex().upper()]

    def hear(self, m):
        need(len(m) <= LONGEST_MESSAGE, 1)
        need(m, 2, 0)
        need(not m[0] & 64, 3)
        width = m[0] & 7
        need(1 <= width <= 4, 4)
        need(len(m) >= 1 + width, 2, len(m))
        at = 1 + width
        to = at
        while True:
            need(to - at < 4, 5, at)
            need(to < len(m), 2, len(m))
            to += 1
            if m[to - 1] < 128:
                break
        octets = m[at:to]
        need(octets != b"\0", 5, at)
        s = self.find(octets, at)
        key, plane = m[0] >> 3 & 7, "user" if m[0] & 128 else "control"
        need(key in s.slots, 7)
        count = int.from_bytes(m[1:at], "big")
        need(count > s.last[plane], 8, 1)
        need(count - s.last[plane] <= s.leap, 9, 1)
        lead = s.d if plane == "user" else 0
        need(len(m) - to >= (lead or 1) + s.m, 10, len(m))
        integrity, encryption = s.slots[key]
        clear = crypt(encryption, count, BEARER[plane], 1 - self.direction, m[to:])
        body, end = clear[:-s.m], len(m) - s.m
        need(clear[-s.m:] == tag(integrity, count, BEARER[plane], 1 - self.direction, octets + body)[:s.m], 11, end)
        need(plane == "control" or int.from_bytes(body[:lead], "big") == len(body) - lead, 12, to)
        s.last[plane] = count
        s.accepted[plane] += 1
        s.drop({k for k, w in s.waits.items() if w == key}, key)
        return ["ok", octets.hex().upper(), plane, key, count, body[lead:].hex().upper()]

    def report(self, octets):
        need(is_id(octets), 13)
        s = self.find(octets)
        answer = ["ok"]
        for plane in ("control", "user"):
            answer += [s.sealed[plane], s.accepted[plane], s.last[plane] - s.accepted[plane]]
        return answer

    def end(self, octets):
        need(is_id(octets), 13)
        self.find(octets)
        del self.sessions[octets]
        return ["ok"]


def octets(field):
    return bytes.fromhex(field) if re.fullmatch(r"([0-9A-F]{2})*", field) else None


def number(field):
    return int(field) if re.fullmatch(r"[0-9]{1,10}", field) else None


def key(field):
    return octets(field)[0] if len(field) == 2 and octets(field) else None


FIELDS = {"begin": (octets, number, number, number, number, key, key), "give": (octets, number, key, key),
          "choose": (octets, number), "drop": (octets, number), "data": (octets, octets), "command": (octets, octets),
          "report": (octets,), "end": (octets,), "hear": (octets,)}


def answer(ends, line):
    try:
        side, verb, *fields = line.decode("ascii").split(",")
    except ValueError:
        return ["bad"]
    if len(line) > LONGEST_LINE or side not in ends or len(fields) != len(FIELDS.get(verb, (0,) * 99)):
        return ["bad"]
    values = [read(field) for read, field in zip(FIELDS[verb], fields)]
    if None in values:
        return ["bad"]
    end = ends[side]
    try:
        if verb in ("data", "command"):
            return end.seal("user" if verb == "data" else "control", *values)
        if verb in ("begin", "give"):
            return getattr(end, verb)(*values[:-2], tuple(values[-2:]))
        return getattr(end, verb)(*values)
    except No as no:
        return ["no", no.number, LAYER[no.number], no.place]


def transcript(script):
    ends = {"U": End(0, 1), "H": End(1, 4)}
    lines = script.split(b"\n")
    if lines[-1] == b"":
        lines.pop()
    out = [",".join(str(x) for x in [n] + answer(ends, line)) for n, line in enumerate(lines, 1)]
    return "".join(line + "\n" for line in out).encode()


def random_script(rng):
    """Lines that often make sense: few IDs and keys, and messages that the other end sealed, some altered."""
    ends, sent, out = {"U": End(0, 1), "H": End(1, 4)}, [], []
    ids = ["01", "F469", "82A57F", "81828300", "00", "0100", ""]
    for _ in range(rng.randint(0, 60)):
        side, name = rng.choice("UH"), rng.choice(ids[:3]) if rng.random() < 0.9 else rng.choice(ids)
        pair = "%02X,%02X" % (rng.choice((16, 32)), rng.choice((32, 48)))
        data = rng.randbytes(rng.choice((0, 1, 2, 17, 255, 256, 2040))).hex().upper()
        command = rng.choice(("", "10", "11", "30", "31", "40", "41", "42", "00", "400901C1")) + rng.choice(("", "0901C1"))
        message = rng.choice(sent) if sent and rng.random() < 0.9 else rng.randbytes(rng.randint(0, 12)).hex().upper()
        if message and rng.random() < 0.15:
            at = rng.randrange(0, len(message), 2)
            message = message[:at] + "%02X" % rng.randrange(256) + message[at + 2:]
        verb, rest = rng.choice((
            ("begin", "%s,%d,%d,%d,%d,%s" % (name, rng.choice((4, 8, 12, 16, 5)), rng.choice((1, 2, 1, 0)), rng.choice((1, 3, 16, 0)), rng.choice((1, 2, 7, 8)), pair)),
            ("begin", "%s,4,1,16,1,10,20" % name), ("begin", "%s,4,1,16,1,10,20" % name),
            ("give", "%s,%d,%s" % (name, rng.randint(0, 8), pair)), ("choose", "%s,%d" % (name, rng.randint(0, 8))),
            ("drop", "%s,%d" % (name, rng.randint(0, 8))), ("data", "%s,%s" % (name, data)), ("data", "%s,%s" % (name, data)),
            ("data", "%s,%s" % (name, data)), ("command", "%s,%s" % (name, command)), ("command", "%s,%s" % (name, command)),
            ("report", name), ("end", name) if rng.random() < 0.3 else ("report", name),
            ("hear", message), ("hear", message), ("hear", message), ("hear", message), ("hear", message)))
        line = "%s,%s,%s" % (side, verb, rest)
        if rng.random() < 0.05:
            at = rng.randint(0, len(line))
            line = line[:at] + rng.choice((",", " ", "a", "0", "\r", "\x80")) + line[at:]
        got = answer(ends, line.encode("latin-1"))
        if got[0] == "ok" and verb in ("data", "command"):
            sent.append(got[1])
        out.append(line)
    text = "\n".join(out).encode("latin-1")
    return text + (b"\n" if rng.random() < 0.5 else b"")


def compare(program, scripts, seed):
    rng, lines, different = random.Random(seed), 0, 0
    for _ in range(scripts):
        script = random_script(rng)
        expected = transcript(script)
        got = subprocess.run([program], input=script, stdout=subprocess.PIPE, check=True).stdout
        lines += expected.count(b"\n")
        if got != expected:
            different += 1
            sys.stderr.buffer.write(b"different:\n" + script + b"\n-- expected\n" + expected + b"-- got\n" + got)
    print("%d scripts, %d lines compared, %d different" % (scripts, lines, different))
    return different != 0


if __name__ == "__main__":
    if len(sys.argv) > 2 and sys.argv[1] == "--compare":
        words = sys.argv[3:] + ["300", "1"][len(sys.argv) - 3:]
        sys.exit(compare(sys.argv[2], int(words[0]), int(words[1])))
    sys.stdout.buffer.write(transcript(sys.stdin.buffer.read()))
