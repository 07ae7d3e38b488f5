#!/usr/bin/env python3
"""Compares `tpnet try --explain` with the plain interpreter over random images, outside the gate.

usage: bench/compare.py TPNET PLAIN [COUNT [SEED [FIRST]]]      10,000 images by default, from image FIRST on
       bench/compare.py --whole FAST PLAIN [COUNT [SEED [FIRST]]]  all that a node has after 2,000 steps, by two plain interpreters
       bench/compare.py --cases FOLDER PLAIN [COUNT [SEED]]
       bench/compare.py --sweep TPNET PLAIN [SET]               no random images: each instruction, and groups that may be done as one
       bench/compare.py --sweep --whole FAST PLAIN [SET]

Each image's program ends by putting out its registers, the error flag and a block of its memory on link 0. A difference
is kept as an image in the working folder, and the exit status is then 1. Each run has 120 seconds of processor, however busy the
machine is; one that is killed counts as a difference.

A third of the images write into their own code: ahead of them, into the next instruction, into those that were just made, and from a
workspace in whose 64 bytes the code begins. A quarter are loops of GROUPS.

With --sweep each instruction of docs/MACHINE.md is the first, a middle and the last one of a straight row, with registers, operands and
workspaces that are inside, at an edge and outside; and each group of SET (GROUPS if none is named; `bench/count-runs --json` writes one) is
made with as many instructions before it that a turn of 16 steps ends before and within it, at each of its steps. With --whole, which
compares all that a node has, the row is cut once within it, at another step in each image, and once after it. Then come messages to and from
a process that waits at its channel, in a row, and loops (`loops`). Each loop does one of these:

- It writes its own code by a store, by a group that ends with one, or by a message, at each distance from the instruction after it.
- It has rows by turns that differ in half a byte and whose addresses differ by 1024.
- It enters a row at each of its bytes.
- It jumps as a slice ends.

With --cases nothing is compared: the images go into a new folder, each with what the plain interpreter prints beside it. Then
a program without any proof is compared by: cd crates/tpnet && rt try --cases FOLDER -- try {} --turns 700
"""
import json
import os
import random
import struct
import subprocess
import sys
import tempfile
from concurrent.futures import ThreadPoolExecutor

FIRST = 0x80000000
WORK = 0x80000400          # the first process's workspace; what is put out begins here
CODE = 0x80000100
TURNS = 700

FUNCTIONS = dict(j=0, ldlp=1, ldnl=3, ldc=4, ldnlp=5, ldl=7, adc=8, call=9, cj=10, ajw=11, eqc=12, stl=13, stnl=14, opr=15)
STACK = [0x00, 0x02, 0x04, 0x05, 0x08, 0x09, 0x0A, 0x0C, 0x10, 0x13, 0x16, 0x1A, 0x1F, 0x29, 0x2C, 0x31, 0x32, 0x33, 0x34,
         0x37, 0x38, 0x3F, 0x40, 0x41, 0x42, 0x46, 0x4B, 0x4D, 0x4F, 0x52, 0x53, 0x1B, 0x1E]
EDGES = [0, 1, 2, 3, 31, 32, 33, 0x7FFFFFFF, 0x80000000, 0x80000001, 0x80000002, 0x80000003, 0xFFFFFFFF, 0xFFFFFFFE]


def spelt(function, operand):
    """The bytes of an instruction, its operand read as a signed word."""
    operand &= 0xFFFFFFFF
    if operand >= 0x80000000:
        operand -= 1 << 32
    if 0 <= operand < 16:
        return bytes([function << 4 | operand])
    if operand >= 16:
        return spelt(2, operand >> 4) + bytes([function << 4 | operand & 15])
    return spelt(6, ~operand >> 4) + bytes([function << 4 | operand & 15])


def do(name, operand=0):
    return spelt(FUNCTIONS[name], operand)


def op(number):
    return do("opr", number)


def constant(rng):
    return do("ldc", rng.choice(EDGES) if rng.random() < 0.5 else rng.getrandbits(rng.choice([4, 8, 16, 32])))


def closed(body, index):
    """A loop, whose index and count are two words above the workspace: `lend` goes back to its begin."""
    back = len(body) + len(do("ldlp", index)) + 2 + 2
    back += len(do("ldc", back)) - 2
    return body + do("ldlp", index) + do("ldc", back) + op(0x21)


def dump(at):
    """Stores the stack and the flag at the workspace, and puts out 96 bytes from there."""
    code = do("stl", 0) + do("stl", 1) + do("stl", 2) + op(0x29) + do("stl", 3) + op(0x1E) + do("stl", 4)
    code += do("ldlp", 0) + do("ldc", FIRST) + do("ldc", at) + op(0x0B) + op(0x15)
    return code


def arithmetic(rng):
    code = b""
    for _ in range(rng.randrange(4, 40)):
        kind = rng.random()
        if kind < 0.35:
            code += constant(rng)
        elif kind < 0.45:
            code += do(rng.choice(["adc", "eqc", "ldnlp"]), rng.choice(EDGES))
        elif kind < 0.55:
            code += do(rng.choice(["ldl", "stl"]), rng.randrange(5, 24))
        else:
            code += op(rng.choice(STACK))
    return code


def memory(rng):
    code = b""
    for _ in range(rng.randrange(3, 16)):
        place = do("ldlp", rng.randrange(5, 20)) + (do("adc", rng.randrange(4)) if rng.random() < 0.5 else b"")
        kind = rng.randrange(11)
        if kind == 0:
            code += place + do("ldnl", rng.randrange(-2, 4))
        elif kind == 1:
            code += constant(rng) + place + do("stnl", rng.randrange(-2, 4))
        elif kind == 2:
            code += place + op(0x01)
        elif kind == 3:
            code += constant(rng) + place + op(0x3B)
        elif kind == 4:
            code += place + do("ldlp", rng.randrange(5, 20)) + do("ldc", rng.randrange(0, 17)) + op(0x4A)
        elif kind == 5:
            skipped = constant(rng)
            code += constant(rng) + do("cj", len(skipped)) + skipped
        elif kind == 6:
            skipped = constant(rng)
            code += do("j", len(skipped)) + skipped
        elif kind == 7:
            inside = constant(rng) + do("stl", rng.randrange(5)) + op(0x20)
            code += do("j", len(inside)) + inside + do("call", -(len(inside) + len(do("call", -(len(inside) + 2)))))
        elif kind == 8:
            code += do("ajw", 2) + constant(rng) + do("stl", 3) + do("ajw", -2)
        elif kind == 9:
            body = do("ldl", 8) + do("adc", 3) + do("stl", 8)
            back = len(body) + len(do("ldlp", 6)) + 1 + 2
            code += constant(rng) + do("stl", 6) + do("ldc", rng.randrange(0, 5)) + do("stl", 7)
            code += body + do("ldlp", 6) + do("ldc", back) + op(0x21)
        else:
            code += place + op(rng.choice([0x02, 0x0A, 0x34, 0x3F])) + do("stl", rng.randrange(5, 20))
    return code


def rewriting(rng):
    """A loop that writes over instructions ahead of it, by bytes and by words, and then does them."""
    block = arithmetic(rng)[:rng.randrange(8, 40)] + b"\x40" * 8
    stores = []
    for _ in range(rng.randrange(1, 5)):
        byte = rng.choice([0x40, 0x70, 0x80, 0xC0, 0x10, 0x20, 0x60]) | rng.randrange(16) if rng.random() < 0.8 else 0xF0 | rng.choice(STACK[:8])
        if rng.random() < 0.6:
            stores.append((do("ldc", byte), op(0x3B)))
        else:
            stores.append((do("ldc", byte * 0x01010101), do("stnl", 0)))
    setting = do("ldc", 0) + do("stl", 20) + do("ldc", rng.randrange(1, 4)) + do("stl", 21)
    ahead = CODE + len(setting) + sum(len(value) + 8 + len(store) for value, store in stores)
    body = b"".join(value + do("ldc", ahead + rng.randrange(len(block) - 4)) + store for value, store in stores) + block
    return setting + closed(body, 20)


def beside(rng, base):
    """A loop in whose line the workspace ends, and which writes into itself: the next instruction, those just made, or any other."""
    setting = do("ldc", 0) + do("stl", 20) + do("ldc", rng.randrange(2, 5)) + do("stl", 21)
    body = b""
    for _ in range(rng.randrange(2, 8)):
        body += arithmetic(rng)[:rng.randrange(12)] + b"\x40"
        byte = rng.choice([0x40, 0x70, 0x80, 0xC0, 0x10, 0xB0, 0x00]) | rng.randrange(4)
        begun = base + len(setting) + len(body)
        if rng.random() < 0.4:
            head = do("ldc", byte * 0x01010101)
            place = begun + len(head) + 2 - rng.choice([0, 0, 0, 4, 8, 12])
            body += head + do("stl", (place - WORK) // 4)
        else:
            head, store = (do("ldc", byte), op(0x3B)) if rng.random() < 0.6 else (do("ldc", byte * 0x01010101), do("stnl", 0))
            after = begun + len(head) + 8 + len(store)
            body += head + do("ldc", rng.choice([after, after, after + rng.randrange(4), after - rng.randrange(1, 24)])) + store
        body += bytes(rng.choice([0x40, 0x71, 0x81, 0x10]) for _ in range(rng.randrange(1, 6)))
    return setting + closed(body, 20)


def grouped(rng, base):
    """A loop of the groups that may be done as one. Half of such programs store near the place where they are."""
    near = rng.random() < 0.5
    setting = do("ldc", 0) + do("stl", 20) + do("ldc", rng.randrange(2, 5)) + do("stl", 21)
    body = b""
    for _ in range(rng.randrange(2, 12)):
        for name in rng.choice(GROUPS):
            here = (base + len(setting) + len(body) + rng.randrange(-24, 24) - WORK) // 4
            operand = {"ldc": rng.choice([rng.randrange(20), rng.randrange(20), rng.choice(EDGES), WORK + rng.randrange(80)]),
                       "stl": here if near and rng.random() < 0.4 else rng.randrange(5, 16), "ldl": rng.randrange(5, 20),
                       "ldlp": rng.randrange(5, 16), "cj": rng.randrange(3), "call": rng.randrange(3), "ldnlp": rng.randrange(300)}
            body += instruction(name, operand.get(name, rng.randrange(-1, 3)))
    return setting + closed(body, 20)


def prefixes(rng):
    """Instructions behind many prefix bytes, some behind one too many."""
    code = b""
    for _ in range(rng.randrange(3, 16)):
        many = rng.choice([0, 1, 2, 5, 7, 8, 9, 12, 15, 16]) if rng.random() < 0.98 else 17
        code += bytes(rng.choice([0x20, 0x20, 0x60]) | rng.randrange(16) for _ in range(many))
        code += bytes([FUNCTIONS[rng.choice(["ldc", "adc", "eqc", "ldnlp", "ldlp"])] << 4 | rng.randrange(16)])
        if rng.random() < 0.5:
            number = rng.choice(STACK)
            code += b"\x20" * rng.choice([0, 3, 14]) + bytes([0x20 | number >> 4, 0xF0 | number & 15])
    return code


def processes(rng):
    """Partners that talk over channels, at random priorities, with alternatives; the main one puts out."""
    channel = WORK + 4 * 40
    places = {}
    code = b""
    writes = [(channel + 4 * k, struct.pack("<I", FIRST)) for k in range(4)]
    partners = rng.randrange(1, 4)
    for k in range(partners):
        wptr = 0x80000800 + 0x80 * k
        start = 0x80000A00 + 0x80 * k
        body = b""
        chan = channel + 4 * rng.randrange(2)
        for _ in range(rng.randrange(1, 4)):
            kind = rng.randrange(5)
            if kind == 0:
                body += constant(rng) + do("ldc", chan) + op(0x00) + op(rng.choice([0x0E, 0x0F]))
            elif kind == 1:
                body += do("ldlp", 4) + do("ldc", chan) + do("ldc", rng.randrange(0, 9)) + op(rng.choice([0x07, 0x0B]))
            elif kind == 2:
                body += constant(rng) + do("stl", 5)
            elif kind == 3:
                body += op(0x1E) + do("stl", 6) + do("ldl", 6) + do("ldc", WORK + 4 * (6 + k)) + do("stnl", 0)
            else:
                body += constant(rng) + op(0x29) + do("stl", 7)
        body += op(0x15)
        writes.append((start, body[:0x80]))
        places[k] = (wptr, start)
        if rng.random() < 0.5:
            writes.append((wptr - 4, struct.pack("<I", start)))
            code += do("ldc", wptr | rng.randrange(2)) + op(0x39)
        else:
            ahead = do("ldc", wptr)
            here = CODE + len(code)
            distance = start - (here + 20)
            step = do("ldc", distance) + ahead + op(0x0D)
            for _ in range(4):
                distance = start - (here + len(step))
                step = do("ldc", distance) + ahead + op(0x0D)
            code += step
    for _ in range(rng.randrange(1, 5)):
        chan = channel + 4 * rng.randrange(2)
        kind = rng.randrange(6)
        if kind == 0:
            code += do("ldlp", 8) + do("ldc", chan) + do("ldc", rng.randrange(0, 9)) + op(rng.choice([0x07, 0x0B]))
        elif kind == 1:
            code += constant(rng) + do("ldc", chan) + op(0x00) + op(rng.choice([0x0E, 0x0F]))
        elif kind == 2:
            other = channel + 4 * rng.randrange(2)
            code += op(0x43) + do("ldc", chan) + do("ldc", rng.randrange(2)) + op(0x48)
            code += do("ldc", other) + do("ldc", rng.randrange(2)) + op(0x48)
            if rng.random() < 0.6:
                code += do("ldc", rng.randrange(2)) + op(0x49)
            code += op(0x44)
            code += do("ldc", chan) + do("ldc", rng.randrange(2)) + do("ldc", 0) + op(0x2F) + do("stl", 10)
            code += do("ldc", other) + do("ldc", rng.randrange(2)) + do("ldc", 0) + op(0x2F) + do("stl", 11)
            code += do("ldc", rng.randrange(2)) + do("ldc", 0) + op(0x30) + do("stl", 12)
            code += (op(0x45) if rng.random() < 0.3 else b"")
        elif kind == 3:
            loops = rng.randrange(2, 1400)
            body = do("ldl", 13) + do("adc", -1) + do("stl", 13) + do("ldl", 13)
            back = len(body) + 1 + 3
            code += do("ldc", loops) + do("stl", 13) + body + do("cj", len(do("j", -back))) + do("j", -(len(body) + 1 + len(do("j", -back))))
        elif kind == 4:
            code += do("ldlp", 14) + op(0x03) if rng.random() < 0.1 else do("ldc", rng.randrange(4)) + do("stl", 15)
        else:
            code += op(rng.choice([0x1E, 0x42, 0x29]))
    return code, writes


def image(rng, kind):
    pages = rng.choice([4, 4, 5, 8])
    memory_bytes = bytearray(1024 * pages)
    writes = [(0x8000002C, struct.pack("<I", FIRST))]
    begin = CODE
    if kind == "arithmetic":
        code = arithmetic(rng)
    elif kind == "memory":
        code = memory(rng)
    elif kind == "processes":
        code, more = processes(rng)
        writes += more
    elif kind == "rewriting":
        code = rewriting(rng)
    elif kind == "beside":
        begin = WORK + 96 + rng.randrange(32)
        code = beside(rng, begin)
    elif kind == "groups":
        begin = WORK + 96 + rng.randrange(32)
        code = grouped(rng, begin)
    elif kind == "prefixes":
        code = prefixes(rng)
    else:
        code = bytes(rng.getrandbits(8) for _ in range(rng.randrange(2, 60)))
    for k in range(24):
        writes.append((WORK + 4 * k, struct.pack("<I", rng.choice(EDGES + [rng.getrandbits(32), WORK + 4 * rng.randrange(24)]))))
    writes.append((begin, code + dump(96)))
    for address, data in writes:
        at = address - FIRST
        memory_bytes[at:at + len(data)] = data
    state = rng.choice([2, 2, 2, 1])
    queue = [FIRST] * 4
    head = struct.pack("<BBHII", 1, 0, pages, begin, WORK)
    head += struct.pack("<III", *[rng.choice(EDGES + [rng.getrandbits(32)]) for _ in range(3)])
    head += struct.pack("<IIII", *queue) + struct.pack("<BBH", rng.randrange(2), state, rng.choice([0, 0, 1000, 1023, 1024]))
    return head + bytes(128) + bytes(memory_bytes)


def instruction(name, operand):
    return do(name, operand) if name in NAMES else op(OPERATIONS[name])


def straight(row, stack, wptr=WORK, state=2, begin=CODE, slice=0, low=FIRST, more=()):
    """An image of four pages that makes a row, and puts out what there is then. `more` are other bytes of it, and `low` a process in the queue."""
    memory_bytes = bytearray(4096)
    for k in range(0x300, 4096, 4):
        memory_bytes[k:k + 4] = struct.pack("<I", (WORK + 0x20 if k % 16 == 0 else k * 0x01030507 if k % 16 == 8 else k % 7) & 0xFFFFFFFF)
    # a call, a return or a jump goes into these, which change nothing
    code = row + b"\xB0" * 24 + dump(96)
    for address, data in [(0x8000002C, struct.pack("<I", FIRST)), (begin, code), *more]:
        memory_bytes[address - FIRST:address - FIRST + len(data)] = data
    head = struct.pack("<BBHIIIIIIIIIBBH", 1, 0, 4, begin, wptr, *stack, FIRST, FIRST, low, low, 0, state, slice)
    return head + bytes(128) + bytes(memory_bytes)


# Four times what a loop's index is, in each byte of a word: the instructions `adc K` in round K.
ADCS = do("ldl", 6) + do("ldc", 0x01010101) + op(0x08) + do("ldc", 0x80808080) + op(0x4B)
# What writes it into the word or the byte at a place, and nothing far from there.
STORES = dict(
    stl=lambda place: ADCS + do("stl", (place - WORK) // 4),
    stnl=lambda place: ADCS + do("ldc", place + 12) + do("stnl", -3),
    sb=lambda place: ADCS + do("ldc", place) + op(0x3B),
    move=lambda place: ADCS + do("stl", 8) + do("ldlp", 8) + do("ldc", place) + do("ldc", 3) + op(0x4A),
    lend=lambda place: do("ldc", place - 4) + do("ldc", 0) + op(0x21),
    call=lambda place: ADCS + do("stl", 8) + 3 * do("ldl", 8) + do("ajw", (place - WORK) // 4 + 2) + do("call", 0)
    + do("ajw", 2 - (place - WORK) // 4))


# The same by the groups whose last instruction stores: word 8 has the four instructions, word 14 three of them.
PIECED = ADCS + do("stl", 8) + do("ldl", 8) + do("ldc", 8) + op(0x40) + do("stl", 14)
WORDS = [(WORK + 4 * k, struct.pack("<I", word)) for k, word in ((9, 3), (10, WORK), (11, 0), (12, WORK + 32), (15, WORK - 4 >> 2 & 0x3FFFFFFF))]
ENDS = ["ldl 8 stl +0", "ldc 129 stl +0", "ldl 8 adc 0 stl +0", "ldc 0 adc 0 ldl 8 sum stl +0", "ldc 0 adc 0 ldl 8 add stl +0",
        "ldl 8 ldl 11 sum stl +0", "ldl 8 ldl 11 add stl +0", "ldl 8 ldl 11 diff stl +0", "ldl 12 lb stl +0", "ldl 8 ldc 8 shr stl +0",
        "ldl 14 adc 0 ldc 256 rem stl +0", "ldl 8 adc 0 ldc 0 xor stl +0", "ldl 8 ldl 9 ldl 10 wsub stnl -3",
        "ldl 8 adc 0 ldl 9 ldl 10 wsub stnl -3", "ldl 8 adc 0 ldl 9 ldlp 0 wsub stnl -3", "ldl 8 ldl 15 ldc 4 wsub stnl +0",
        "ldl 8 adc 0 ldl 10 ldc * bsub sb"]


def ended(words):
    """The store of a group, by a place. +N is the place's word, counted from the workspace and N, and * its byte."""
    def store(place):
        code, rest = b"", words.split()
        while rest:
            name = rest.pop(0)
            last = rest.pop(0) if name in NAMES else "0"
            operand = place - WORK if last == "*" else (place - WORK) // 4 + int(last) if name in ("stl", "stnl") else int(last)
            code += instruction(name, operand)
        return code

    return store


def rounds(count, body, begin=CODE):
    """A loop that is made `count` times, with its number in word 6. `body` gives what it makes, by the address where that begins."""
    setting = do("ldc", 0) + do("stl", 6) + do("ldc", count) + do("stl", 7)
    return setting + closed(body(begin + len(setting)), 6)


def written_over(store, gap, distance, begin, ahead=b"", more=()):
    """A loop whose store writes other instructions in each round, so far from the one that comes right after it."""
    def body(at):
        before = ahead + do("ldl", 5) + do("adc", 1) * 8 + do("stl", 5) + do("ajw", 0) * gap
        made = before
        for _ in range(4):
            made = before + store(at + len(made) + distance)
        return made + do("ldl", 5) + do("adc", 1) * 12 + do("stl", 5)

    return straight(rounds(4, body, begin), STACKS[1], begin=begin, more=more)


def met_over(number, distance, begin):
    """A loop whose message to or from a process that waits at its channel is copied over its own code."""
    def ask(pointer, number):
        return do("ldc", pointer) + do("ldc", CHANNEL) + do("ldc", 4) + op(number)

    def body(at):
        before = ADCS + do("stl", 8) + do("ldl", 5) + do("adc", 1) * 8 + do("stl", 5)
        place.append(at + len(before) + len(ask(CODE, number)) + distance)
        return before + ask(place[-1] if number == 0x07 else WORK + 32, number) + do("ldl", 5) + do("adc", 1) * 12 + do("stl", 5)

    place = []
    made = rounds(4, body, begin)
    other = ask(WORK + 32, 0x0B) if number == 0x07 else ask(place[-1], 0x07)
    return straight(made, STACKS[1], begin=begin, low=PARTNER, more=[
        (CHANNEL, struct.pack("<I", FIRST)), (PARTNER - 4, struct.pack("<I", PARTNER + 64)), (PARTNER + 64, other + do("j", -len(other) - 2))])


def meeting(number, before, partner, pointer, count, low, channel):
    """A message to or from a process of that descriptor, in a row. It changes a word that is put out when it goes on."""
    row = do("ajw", 0) * before + op(number) + do("adc", 1) * 4
    other = do("ldc", 7) + do("ldc", WORK + 60) + do("stnl", 0) + op(0x15)
    return straight(row, (count, channel, WORK + 0x41), low=low, more=[
        (CHANNEL, struct.pack("<I", partner)), (PARTNER - 12, struct.pack("<I", pointer)), (PARTNER - 4, struct.pack("<I", PARTNER + 64)),
        (PARTNER + 64, other), (PARTNER + 0xFC, struct.pack("<I", PARTNER + 64))])


def going(at, to):
    """A jump from one address to another."""
    code = b""
    for _ in range(4):
        code = do("j", to - at - len(code))
    return code


def in_one_place(row, other):
    """A loop that makes two rows by turns, whose addresses differ by 1024."""
    def body(at):
        head = do("ldl", 5) + going(at + 1, first)
        return head + do("stl", 5)

    first, back = 0x80000600, CODE + 4 + 1 + len(going(CODE + 5, 0x80000600))
    return straight(rounds(3, body), STACKS[1], more=[
        (first, row + going(first + len(row), first + 1024)), (first + 1024, other + going(first + 1024 + len(other), back))])


def entered(row):
    """A loop that enters a row a byte further on in each round."""
    def body(at):
        head = b""
        for _ in range(3):
            head = do("ldl", 6) + do("ldc", at + len(head)) + op(0x02) + op(0x06)
        return head + row + do("ldl", 5) + op(0x33) + do("ldc", 3) + op(0x08) + do("stl", 5)

    return straight(rounds(len(row), body), STACKS[1])


def lengthened(length):
    """Rows of so many bytes, in up to four instructions, and each with one half byte changed."""
    sizes = [length // 4 + (k < length % 4) for k in range(4)]
    row = b"".join(b"\x21" * (size - 1) + b"\x81" for size in sizes if size)
    for k in range(length):
        yield row, row[:k] + bytes([row[k] ^ 2]) + row[k + 1:]


def sliced(name, before, slice, state):
    """A row with a jump in it as a slice ends. Another process keeps what it finds, as it then runs."""
    other = do("ldc", WORK) + do("ldnl", 0) + do("ldc", WORK + 48) + do("stnl", 0) + op(0x15)
    row = do("adc", 0) * before + instruction(name, 0) + do("adc", 0) * 4
    return straight(row, (0, WORK + 0x60, 3), WORK, state, CODE, slice, WORK + 0x200, [
        (WORK + 0x1FC, struct.pack("<I", WORK + 0x300)), (WORK + 0x300, other), (WORK, struct.pack("<I", CODE + before + 2))])


def loops():
    """Images of code that is written over, that is entered at each byte, that shares a place with other code, or that ends a slice."""
    for name, store in STORES.items():
        for distance in range(-24, 24):
            for begin in range(WORK + 96, WORK + 100):
                yield written_over(store, (distance + begin) % 3, distance, begin)
    for words in ENDS:
        for distance in range(-24, 24):
            for begin in range(WORK + 96, WORK + 100):
                yield written_over(ended(words), (distance + begin) % 3, distance, begin, PIECED, WORDS)
    for number in (0x07, 0x0B):
        for distance in range(-24, 24):
            for begin in range(WORK + 96, WORK + 100):
                yield met_over(number, distance, begin)
        for before in (0, 2, 4):
            for count in (0, 1, 4, 17, 0xFFFFFFFF):
                for low in (FIRST, PARTNER + 0x100):
                    for partner in (FIRST, PARTNER, PARTNER + 1):
                        for pointer in (WORK + 0x31, OUTSIDE - 2, 0x80000001, 0x80000002, 0x80000003):
                            yield meeting(number, before, partner, pointer, count, low, CHANNEL)
                    for channel in (*range(FIRST, FIRST + 40, 4), FIRST + 1, CHANNEL + 2, OUTSIDE):
                        yield meeting(number, before, PARTNER + 1, WORK + 0x31, count, low, channel)
    for length in range(1, 17):
        for row, other in lengthened(length):
            yield in_one_place(row, other)
            yield in_one_place(other, row)
    for seed in range(40):
        rng = random.Random(seed)
        yield entered(b"".join(do(rng.choice(["ldc", "adc", "ldnlp", "ldlp", "eqc"]), rng.getrandbits(rng.choice([4, 8, 16, 32]))) for _ in range(5)))
    for name in ("j", "cj", "call", "lend", "ret"):
        for before in range(6):
            for slice in range(1023 - before - 4, 1025):
                for state in (1, 2):
                    yield sliced(name, before, slice, state)


def sweep(groups):
    """The images of --sweep, each with how many steps its row has."""
    neutral = do("ajw", 0)
    for name in [*NAMES, *OPERATIONS]:
        for before, after in ((0, 4), (2, 2), (4, 0)):
            for stack in STACKS:
                for operand in (1, 3, 2000, -2000) if name in NAMES else (0,):
                    row = neutral * before + instruction(name, operand) + neutral * after
                    for wptr in (WORK, FIRST + 8, OUTSIDE - 4) if stack == STACKS[0] else (WORK,):
                        yield straight(row, stack, wptr, 2), before + 1 + after
    for group in groups:
        for operands in ((5, 6, 7, 8), (8, 1, 5, 2), (6, 2000, 5, 3), (2000, 5, 6, 7), (5, 6, 2000, 3), (0, 0, 0, 0)):
            row = b"".join(instruction(name, operand) for name, operand in zip(group, operands))
            for stack in STACKS[:4]:
                for before in range(15 - len(group), 17):
                    yield straight(neutral * before + row + row, stack, workspace(before), 1 + before % 2), before + 2 * len(group)
    for made in loops():
        yield made, 120


def workspace(before):
    """The workspace, which ends at memory's end in each third case: there the upper ones of its words are outside."""
    return WORK if before % 3 else OUTSIDE - 24


def run(command):
    limited = ["sh", "-c", 'ulimit -t 120; exec "$0" "$@"', *command]
    done = subprocess.run(limited, capture_output=True)
    return done.returncode, done.stdout, done.stderr


def tried(tpnet, plain, path):
    """What both programs say of an image: what it puts out, and where it halts."""
    return [run([tpnet, "try", path, "--turns", str(TURNS), "--explain"]), run([plain, "try", path, str(TURNS), "--explain"])]


KINDS = ["arithmetic", "memory", "processes", "processes", "wild", "prefixes", "rewriting", "beside", "beside", "groups", "groups", "groups"]

# Groups of instructions that may be done as one.
GROUPS = [words.split() for words in (
    "ldl adc stl", "ldlp ldc ldc", "ldl ldc", "ldl eqc cj", "ldlp ldc lend", "ldl cj", "ldc ldl gt cj", "ldl sum stl", "ldl add stl",
    "ldl wsub ldnl", "ldl wsub stnl", "ldl add", "ldl sum", "ldl ldl wsub ldnl", "ldl ldl wsub stnl", "ldl adc", "ldc ldc", "ldl ldl",
    "ldc ldl", "ldl ldc bsub lb", "ldl ldc bsub sb", "ldc ldl ldc bsub", "gt cj", "eqc cj", "ldl gt cj", "ldl lb", "ldc stl", "ldl stl",
    "adc stl", "sum stl", "ldc sum", "ldc add", "ldc bsub", "ldl ldnl", "ldl eqc", "ldlp ldc", "ldc ldl gt", "ldl ldl wsub", "ldl ldlp", "ldl wsub", "ldl gt", "ldl ldlp wsub",
    "ldl ldl add", "ldl ldl sum", "ldl ldl diff", "ldl ldl gt", "ldl ldc and", "ldl ldc shr", "ldl ldc bsub", "ldc wsub", "ldc rem", "ldc xor", "ldc shr", "ldc and", "ldc mul", "wsub ldnl", "mint ldnlp", "prod ldl sum stl",
    "ldl ldl sum stl", "adc call", "ldl adc call", "ldl ldlp wsub ldnl", "ldl ldlp wsub stnl", "ldl ldl add stl", "ldl ldl diff stl",
    "ldl ldl gt cj", "ldl ldc and cj", "ldl ldc shr stl", "ldl ldc mul", "ldl ldc prod", "ldl ldc rem", "ldl ldc div", "ldl lb stl", "ldc rem stl",
    "ldc xor stl", "ldc wsub ldnl", "ldc wsub stnl")]
NAMES = {name: FUNCTIONS[name] for name in FUNCTIONS if name != "opr"}
OPERATIONS = dict(
    rev=0x00, lb=0x01, bsub=0x02, endp=0x03, diff=0x04, add=0x05, gcall=0x06, prod=0x08, gt=0x09, wsub=0x0A, sub=0x0C, startp=0x0D,
    outbyte=0x0E, outword=0x0F, seterr=0x10, csub0=0x13, stopp=0x15, ladd=0x16, ldiv=0x1A, ldpi=0x1B, ldpri=0x1E, rem=0x1F, ret=0x20,
    lend=0x21, testerr=0x29, div=0x2C, disc=0x2F, diss=0x30, lmul=0x31, xor=0x33, bcnt=0x34, lsum=0x37, lsub=0x38, runp=0x39, sb=0x3B,
    gajw=0x3C, wcnt=0x3F, shr=0x40, shl=0x41, mint=0x42, alt=0x43, altwt=0x44, altend=0x45, enbc=0x48, enbs=0x49, move=0x4A,
    ccnt1=0x4D, ldiff=0x4F, sum=0x52, mul=0x53, stoperr=0x55)
OPERATIONS.update({"in": 0x07, "out": 0x0B, "not": 0x32, "and": 0x46, "or": 0x4B, "unknown": 0x60})
OUTSIDE = 0x80001000
# Where a channel is, and the workspace of the process that waits there.
CHANNEL, PARTNER = 0x80000680, 0x80000700
# A, B and C: addresses, small numbers, edges, what is outside.
STACKS = [(WORK + 0x40, WORK + 0x60, 3), (5, 7, 1), (0, 0x80000000, 0xFFFFFFFF), (0x7FFFFFFF, 1, 0), (OUTSIDE, OUTSIDE - 4, WORK),
          (WORK + 0x41, OUTSIDE, 0x80000004), (OUTSIDE - 1, WORK + 0x43, 4), (0xFFFFFFFF, 0x80000000, 7), (3, FIRST, WORK + 0x60),
          (3, FIRST + 0x10, WORK + 0x60), (3, FIRST + 0x20, WORK + 0x60)]


def cases(folder, plain, count, seed):
    os.mkdir(folder)
    for k in range(count):
        path = os.path.join(folder, "%d.img" % k)
        with open(path, "wb") as out:
            out.write(image(random.Random(seed * 1000003 + k), KINDS[k % len(KINDS)]))
        with open(path + ".stdout", "wb") as out:
            out.write(run([plain, "try", path, str(TURNS)])[1])


def swept(words):
    """Compares over the images of --sweep."""
    is_whole = words[0] == "--whole"
    mine, other, *rest = words[1:] if is_whole else words
    groups = json.load(open(rest[0])) if rest else GROUPS
    folder = tempfile.mkdtemp(prefix="compare-")

    def one(numbered):
        number, (data, steps) = numbered
        path = os.path.join(folder, "%d.img" % number)
        with open(path, "wb") as out:
            out.write(data)
        if is_whole:
            said = [[run([program, "whole", path, str(count)]) for count in (1 + number % steps, steps + 1)] for program in (mine, other)]
        else:
            said = tried(mine, other, path)
        if said[0] == said[1]:
            os.unlink(path)
            return 0
        print("different: %s" % path)
        return 1

    with ThreadPoolExecutor(os.cpu_count()) as pool:
        bad = list(pool.map(one, enumerate(sweep(groups))))
    print("%d tried, %d bad" % (len(bad), sum(bad)))
    sys.exit(1 if sum(bad) else 0)


def main():
    if len(sys.argv) < 3:
        sys.exit(__doc__)
    if sys.argv[1] == "--sweep":
        return swept(sys.argv[2:])
    if sys.argv[1] == "--cases":
        count = int(sys.argv[4]) if len(sys.argv) > 4 else 10000
        return cases(sys.argv[2], sys.argv[3], count, int(sys.argv[5]) if len(sys.argv) > 5 else 1)
    is_whole = sys.argv[1] == "--whole"
    if is_whole:
        del sys.argv[1]
    tpnet, plain = sys.argv[1], sys.argv[2]
    count = int(sys.argv[3]) if len(sys.argv) > 3 else 10000
    seed = int(sys.argv[4]) if len(sys.argv) > 4 else 1
    first = int(sys.argv[5]) if len(sys.argv) > 5 else 0
    folder = tempfile.mkdtemp(prefix="compare-")
    spoke, different = 0, 0

    def one(k):
        rng = random.Random(seed * 1000003 + k)
        kind = KINDS[k % len(KINDS)]
        path = os.path.join(folder, "%d.img" % k)
        with open(path, "wb") as out:
            out.write(image(rng, kind))
        if is_whole:
            mine, other = (run([program, "whole", path, "2000"]) for program in (tpnet, plain))
        else:
            mine, other = tried(tpnet, plain, path)
        same = mine == other and mine[0] >= 0
        if same:
            os.unlink(path)
        return kind, path, len(other[1]), same

    told = {}
    with ThreadPoolExecutor(os.cpu_count()) as pool:
        for kind, path, length, same in pool.map(one, range(first, count)):
            row = told.setdefault(kind, [0, 0])
            row[0] += 1
            row[1] += length > 0
            if not same:
                different += 1
                print("different: %s" % path)
    for kind in sorted(told):
        print("%-10s %6d images, %6d put something out" % (kind, told[kind][0], told[kind][1]))
    print("%d tried, %d bad" % (count - first, different))
    sys.exit(1 if different else 0)


main()
