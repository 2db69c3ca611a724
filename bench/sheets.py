"""The sheets of the benchmark, the same in every run."""

import math
import random
from typing import NamedTuple

MAX_BYTES = 16_384

ORDINARY_SIGNALS = (60, 120, 200, 256)
HARD_FRAMES = (24, 48, 96)
HARD_LOADS = (0.9, 0.99, 0.999, 1.001)
DOUBLING_LOADS = (0.99, 0.999)

HEAD = "C 000007D0 000001F4\nC 000007D0 000001F4\nG 00004E20 00000064\nR 0000C350\n"
ARBITRATION, DATA = 2_000, 500  # of both buses in HEAD
PAYLOADS = (0, 1, 2, 3, 4, 5, 6, 7, 8, 12, 16, 20, 24, 32, 48, 64)

BUS_0, BUS_1, GATEWAY, RADIO = 1, 2, 4, 8


class Sheet(NamedTuple):
    kind: str
    size: int  # signals
    text: bytes


def signal_line(name, sender, size, period, deadline, domain_set):
    return f"S {name:04X} {sender:X} {size:02X} {period:08X} {deadline:08X} {domain_set:X}\n"


def bus_cost(size):
    payload = min(p for p in PAYLOADS if p >= size)
    return 34 * ARBITRATION + (28 + 10 * payload) * DATA + (5 * DATA if payload > 16 else 0)


def ordinary_signal(rng, name):
    """A signal of a box on one of the buses; some go through the gateway to the other bus, few over the radio."""
    sender = rng.randrange(16)
    period = rng.choice((10, 20, 20, 50, 100, 100, 200, 500, 1000)) * 1_000_000
    deadline = period if rng.random() < 0.7 else period // 2
    domain_set = BUS_0 if sender % 2 == 0 else BUS_1
    if rng.random() < 0.2:
        domain_set = BUS_0 | BUS_1 | GATEWAY
    if period >= 500_000_000 and rng.random() < 0.15:
        domain_set |= RADIO
    size = rng.choice((1, 1, 1, 2, 2, 2, 4, 4, 8))
    return signal_line(name, sender, size, period, deadline, domain_set)


def ordinary(signals):
    rng = random.Random(f"ordinary {signals}")
    lines = [ordinary_signal(rng, name) for name in range(1, signals + 1)]
    return HEAD + "".join(lines)


def unlike_shapes(rng, frames):
    return [math.exp(rng.uniform(0, math.log(20))) for _ in range(frames)]


def doubling_shapes(rng, frames):
    """Each is a little less than a power of two, so that an order exists up to a load close to 1."""
    return [2 ** rng.randrange(6) * (1 - rng.uniform(0, 0.001)) for _ in range(frames)]


def hard(frames, load, deadline_part, draw_shapes):
    """Frames of unlike periods on one bus: each signal is too long to share a frame, and the costs come to the load."""
    rng = random.Random(f"hard {frames}")
    sizes = [rng.randrange(33, 65) for _ in range(frames)]
    shapes = draw_shapes(rng, frames)
    scale = sum(bus_cost(size) / shape for size, shape in zip(sizes, shapes)) / load
    lines = []
    for i, (size, shape) in enumerate(zip(sizes, shapes)):
        period = round(scale * shape)
        lines.append(signal_line(i + 1, i % 16, size, period, period // deadline_part, BUS_0))
    return HEAD + "".join(lines)


def hard_kinds():
    for load in HARD_LOADS:
        yield f"load {load}", (load, 1, unlike_shapes)
    for load in HARD_LOADS:
        yield f"load {load}, half deadlines", (load, 2, unlike_shapes)
    for load in DOUBLING_LOADS:
        yield f"load {load}, near doublings", (load, 1, doubling_shapes)


def start():
    """No signals: the cost of starting, reading and ending."""
    return Sheet("start", 0, HEAD.encode())


def sheets():
    found = [Sheet("ordinary", signals, ordinary(signals).encode()) for signals in ORDINARY_SIGNALS]
    for kind, (load, deadline_part, draw_shapes) in hard_kinds():
        for frames in HARD_FRAMES:
            text = hard(frames, load, deadline_part, draw_shapes)
            found.append(Sheet(kind, frames, text.encode()))
    assert all(len(sheet.text) <= MAX_BYTES for sheet in found)
    return found
