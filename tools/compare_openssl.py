#!/usr/bin/env python3
"""Compares tag and keystream of the AES suite with OpenSSL's on random keys, counts and messages of 0 to 2,048 octets.

Outside the gate: run `tools/build.sh suite_runs` first, then this. An argument sets how many messages (3,000 without one).
"""
import os
import subprocess
import sys


def openssl(*words, given):
    return subprocess.run(["openssl", *words], input=given, capture_output=True, check=True).stdout


def start(count, bearer, direction):
    return bytes.fromhex(count) + bytes([int(bearer, 16) << 3 | int(direction, 16) << 2, 0, 0, 0])


def octets(text):
    return b"" if text == "-" else bytes.fromhex(text)


def main():
    os.chdir(os.path.join(os.path.dirname(os.path.abspath(__file__)), ".."))
    times = sys.argv[1] if len(sys.argv) > 1 else "3000"
    lines = subprocess.run(["crates/suite_runs/out/suite_runs", "trace", times], capture_output=True, check=True, text=True).stdout.splitlines()
    different = 0
    for line in lines:
        integrity, encryption, count, bearer, direction, tag, plain, hidden = line.split()
        head = start(count, bearer, direction)
        mac = openssl("mac", "-cipher", "AES-128-CBC", "-macopt", "hexkey:" + integrity, "-binary", "CMAC", given=head + octets(plain))
        stream = openssl("enc", "-aes-128-ctr", "-K", encryption, "-iv", head.hex() + "0" * 16, given=octets(plain))
        if mac[:4] != octets(tag) or stream != octets(hidden):
            different += 1
            print("DIFFERENT:", line[:120])
    print(f"{len(lines)} compared, {different} different")
    return 1 if different or len(lines) != int(times) else 0


sys.exit(main())
