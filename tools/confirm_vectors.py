#!/usr/bin/env python3
"""Confirms the vectors that stand in crates/vectors/src/main.rt with OpenSSL. Outside the gate."""
import pathlib
import re
import subprocess
import sys

source = (pathlib.Path(__file__).parent.parent / "crates/vectors/src/main.rt").read_text()


def openssl(*words, given):
    return subprocess.run(["openssl", *words], input=given, capture_output=True, check=True).stdout


def cmac(key, text):
    return openssl("mac", "-cipher", "AES-128-CBC", "-macopt", "hexkey:" + key, "-binary", "CMAC", given=text)


def octets(text):
    return bytes(int(x, 16) for x in re.findall(r"0x([0-9A-F]{2})\b", text))


arrays = {n: octets(t) for n, t in re.findall(r"const (\w+): \[u8; \d+\] = \[(.*?)\];", source, re.S)}
key = r"keyset\(\s*0x([0-9A-F]{16}),\s*0x([0-9A-F]{16}),?\s*\)"
inputs = r"Inputs \{\s*count: 0x([0-9A-F]{8}),\s*bearer: 0x([0-9A-F]{2}),\s*direction: (\d),?\s*\}"


def start(count, bearer, direction):
    return (int(count, 16) << 32 | int(bearer, 16) << 27 | int(direction) << 26).to_bytes(8, "big")


answers = []
for k0, k1, c, b, d, plain, cipher in re.findall(key + r",\s*" + inputs + r",\s*(PLAIN_\d+),\s*(CIPHER_\d+)", source):
    made = openssl("enc", "-aes-128-ctr", "-K", k0 + k1, "-iv", start(c, b, d).hex() + "0" * 16, given=arrays[plain])
    answers.append((cipher, made == arrays[cipher]))
for k0, k1, c, b, d, message, tag in re.findall(key + r",\s*" + inputs + r",\s*&(MESSAGE_\d+),\s*\[([^\]]*)\]", source):
    answers.append((message, cmac(k0 + k1, start(c, b, d) + arrays[message])[:4] == octets(tag)))
for k0, k1 in re.findall(r"Schedule::new\(0x([0-9A-F]{16}), 0x([0-9A-F]{16})\),?\s*&\[\]", source):
    for size, tag in re.findall(r"CMAC_MESSAGE\[0\.\.(\d+)\]\) == 0x([0-9A-F]{32})", source):
        answers.append((f"CMAC of {size}", cmac(k0 + k1, arrays["CMAC_MESSAGE"][: int(size)]).hex().upper() == tag))
block = r"Schedule::new\(0x([0-9A-F]{16}), 0x([0-9A-F]{16})\)\.encrypt\(Block \{" + r"\s*\w: 0x([0-9A-F]{8}),?" * 4
expected = re.findall(r"number_of\(\w+\) == 0x([0-9A-F]{32})", source)
for (k0, k1, *words), wanted in zip(re.findall(block, source), expected):
    made = openssl("enc", "-aes-128-ecb", "-nopad", "-K", k0 + k1, given=bytes.fromhex("".join(words)))
    answers.append(("block " + wanted, made.hex().upper() == wanted))
for name, same in answers:
    print("same" if same else "DIFFERENT", name)
print(f"{len(answers)} confirmed, {sum(not same for _, same in answers)} different")
sys.exit(0 if len(answers) == 13 and all(same for _, same in answers) else 1)
