"""Prints a script to measure by.

    python3 bench/scripts.py small > small.json      8,192 sends of a small frame, each transmitted
    python3 bench/scripts.py full > full.json        the same over eight bindings and a ring that stays full
    python3 bench/scripts.py large > large.json      165 sends of eight frames of 1,518 bytes
    python3 bench/scripts.py sends 165 8 1518        so many sends, each of so many frames of so many bytes

A script has at most 4,194,304 bytes and 16,384 calls. Each call pumps until nothing moves.
"""
import json
import sys

RING = 256


def frame(size):
    return "ff" * 6 + "020000000001" + "0800" + "ab" * (size - 14)


def send(binding, frames):
    return {"lane": 0, "call": "send", "stack": 0, "binding": binding, "frames": frames}


def transmit():
    return {"lane": 0, "call": "transmit", "stack": 0}


def script(calls, bindings):
    miniport = {"kind": "ring", "address": "020000000001", "ring": RING, "pool": 4}
    stack = {"miniport": miniport, "bindings": [{"kind": "log", "pool": 256}] * bindings, "filters": []}
    return {"version": 1, "lanes": 1, "stacks": [stack], "calls": calls}


def small():
    return script([call for _ in range(8192) for call in (send(0, [frame(14)]), transmit())], 1)


def full():
    fill = [send(i % 8, [frame(14)]) for i in range(RING)]
    rest = [call for i in range((16384 - RING) // 2) for call in (transmit(), send(i % 8, [frame(14)]))]
    return script(fill + rest, 8)


def sends(many, frames, size):
    return script([send(0, [frame(size)] * frames)] * many, 1)


def main(words):
    made = {"small": small, "full": full, "large": lambda: sends(165, 8, 1518)}
    if words[0] == "sends":
        whole = sends(*(int(word) for word in words[1:4]))
    else:
        whole = made[words[0]]()
    json.dump(whole, sys.stdout, separators=(",", ":"))


main(sys.argv[1:])
