#!/usr/bin/env python3
"""How many orders of acts two nodes and the host have up to a whole cut, and how many where turns stay open while others act, over the trim: a
second opinion on bench/outside/tp_tests_opening/orders.rattle.

usage: bench/orders.py     prints the orders of their cases, counted over a plain model that knows no book
"""
import copy

# a line's receiver, a process and its link; the host is process 2. And the line that each end sends
RECEIVER = {0: (1, 0), 3: (2, 0), 4: (0, 0), 8: (0, 3)}
LINE = {(0, 0): 0, (0, 3): 3, (1, 0): 4, (2, 0): 8}

# A process of a node is [links, state]. One link: it sends a byte there once. Two: over and over it hears on the first and
# sends on the second.
READY, HEARS, SENDS, WAITS, WOKEN, DONE = range(6)


def first(nodes):
    return {"nodes": [[[links, SENDS if len(links) == 1 else READY] for links in node] for node in nodes], "held": [set(), set()],
            "lines": {line: [] for line in RECEIVER}, "recorded": None, "closed": [], "runs": [0, 0]}


def send(net, process, link, token):
    """A token goes onto its line; or, while a turn is open, to what waits for the commit."""
    kept = net.get("kept")
    (net["lines"][LINE[process, link]] if kept is None else kept).append(token if kept is None else (LINE[process, link], token))


def step(net, node, process):
    """A step of a process, where it has one."""
    links, state = process
    if state == SENDS:
        send(net, node, links[-1], "data")
        process[1] = WAITS
    elif state == WOKEN:
        process[1] = DONE if len(links) == 1 else READY
    elif state == READY and links[0] in net["held"][node]:
        net["held"][node].remove(links[0])
        send(net, node, links[0], "ack")
        process[1] = SENDS
    elif state == READY:
        process[1] = HEARS
    else:
        return False
    return True


def run(net, node):
    """A node runs as far as it can. Whether it made a step."""
    steps = 0
    for process in net["nodes"][node]:
        while step(net, node, process):
            steps += 1
    net["runs"][node] += 1
    return steps > 0


def take(net, line):
    receive(net, line, net["lines"][line].pop(0))


def receive(net, line, token):
    node, link = RECEIVER[line]
    if node == 2:
        assert token == "data"
        return send(net, 2, 0, "ack")
    for process in net["nodes"][node]:
        if token == "ack" and process[1] == WAITS and process[0][-1] == link:
            process[1] = WOKEN
            return
        if token == "data" and process[1] == HEARS and process[0][0] == link:
            process[1] = SENDS
            return send(net, node, link, "ack")
    assert token == "data"
    net["held"][node].add(link)


def record(net, process):
    net["recorded"].append(process)
    for (sender, _), line in LINE.items():
        if sender == process:
            net["lines"][line].append("marker")


def acts(net, runs):
    """What each act that can be done leads to, by its name."""
    found = {}

    def add(name, does, *words):
        new = copy.deepcopy(net)
        if does(new, *words) is not False:
            found[name] = new

    def begin(new):
        new["recorded"] = []
        record(new, 2)

    def close(new, line):
        new["lines"][line].pop(0)
        new["closed"] = sorted(new["closed"] + [line])

    for node in (0, 1):
        if net["runs"][node] < runs[node]:
            add(("run", node), run, node)
        if net["recorded"] is not None and node not in net["recorded"]:
            add(("record", node), record, node)
    if net["recorded"] is None:
        add("begin", begin)
    for line, tokens in net["lines"].items():
        if tokens and tokens[0] != "marker":
            add(("take", line), take, line)
        elif tokens and RECEIVER[line][0] in net["recorded"]:
            add(("close", line), close, line)
    return found


def orders(net, runs, known):
    if net["recorded"] is not None and len(net["recorded"]) == 3 and len(net["closed"]) == 4:
        return 1
    key = repr(dict(net, recorded=sorted(net["recorded"]) if net["recorded"] is not None else None))
    if key not in known:
        known[key] = sum(orders(new, runs, known) for new in acts(net, runs).values())
    return known[key]


def open_turn(net, node):
    """Whether a turn could be opened: the node records where it is asked to, closes at Markers in front, receives and runs."""
    if net["open"][node] is not None:
        return False
    behind = net["recorded"] is not None
    net["opened"][node][behind] += 1
    if behind and node not in net["recorded"]:
        record(net, node)
    lines = [line for line, (receiver, _) in RECEIVER.items() if receiver == node]
    for line in lines:
        if behind and net["lines"][line][:1] == ["marker"]:
            close_over(net, line)
    net["kept"] = []
    takes = {line: front(net["lines"][line]) for line in sorted(lines, key=lambda line: RECEIVER[line][1])}
    for line, tokens in takes.items():
        for token in tokens:
            receive(net, line, token)
    run(net, node)
    net["open"][node] = ({line: len(tokens) for line, tokens in takes.items()}, net.pop("kept"))
    return True


def front(tokens):
    return tokens[:tokens.index("marker")] if "marker" in tokens else tokens[:]


def close_over(net, line):
    net["lines"][line].remove("marker")
    net["closed"] = sorted(net["closed"] + [line])


def commit(net, node):
    if net["open"][node] is None:
        return False
    takes, sent = net["open"][node]
    for line, count in takes.items():
        del net["lines"][line][:count]
    for line, token in sent:
        net["lines"][line].append(token)
    net["open"][node] = None
    return True


def host(net):
    """The host takes three tokens at most, a Marker among them."""
    if not net["lines"][3]:
        return False
    for _ in range(3):
        if net["lines"][3][:1] == ["marker"]:
            close_over(net, 3)
        elif net["lines"][3]:
            take(net, 3)
    return True


def close_all(net):
    closable = [line for line, tokens in net["lines"].items() if "marker" in tokens and RECEIVER[line][0] in net["recorded"]]
    for line in closable:
        close_over(net, line)
    return closable != []


def open_acts(net, opens):
    """What each act leads to that may come between openings and commits. Behind the trim come commits alone."""
    found = {}

    def add(name, does, *words):
        new = copy.deepcopy(net)
        if does(new, *words):
            found[name] = new

    def begin(new):
        new["recorded"] = []
        record(new, 2)
        return True

    def take_in(new):
        new["trimmed"] = True
        return len(new["recorded"]) == 3 and len(new["closed"]) == 4

    for node in (0, 1):
        if not net["trimmed"] and net["opened"][node][net["recorded"] is not None] < opens[node][net["recorded"] is not None]:
            add(("open", node), open_turn, node)
        add(("commit", node), commit, node)
    if not net["trimmed"]:
        add("host", host)
        if net["recorded"] is None:
            add("begin", begin)
        else:
            add("close all", close_all)
            add("take in", take_in)
    return found


def open_orders(net, opens, known):
    if net["trimmed"] and net["open"] == [None, None]:
        return 1
    key = repr(dict(net, recorded=sorted(net["recorded"]) if net["recorded"] is not None else None, held=[sorted(held) for held in net["held"]]))
    if key not in known:
        found = open_acts(net, opens)
        assert found
        known[key] = sum(open_orders(new, opens, known) for new in found.values())
    return known[key]


RELAYS = [[[0], [0, 3]], [[0, 0]]]
CASES = [
    ("sent", [[[0]], []], [], [1, 0]),
    ("crossed", [[[0]], [[0]]], [("run", 0), "begin"], [1, 1]),
    ("answered", RELAYS, [("run", 1), ("run", 0), ("take", 0), ("run", 1)], [1, 2]),
]
for name, nodes, before, runs in CASES:
    net = first(nodes)
    for act in before:
        net = acts(net, runs)[act]
    print(name, orders(net, runs, {}))

OPEN_CASES = [
    ("sent, open", [[[0]], []], [], [[1, 1], [0, 1]]),
    ("crossed, open", [[[0]], [[0]]], [("open", 0), ("open", 1)], [[1, 1], [1, 1]]),
    ("handed on, open", [[[0, 3]], [[0]]], [("open", 0), ("commit", 0), ("open", 1), ("commit", 1)], [[2, 1], [1, 1]]),
    ("answered, open", RELAYS, [("open", 1), ("commit", 1), ("open", 0), ("commit", 0), ("open", 1), ("commit", 1)], [[2, 1], [3, 1]]),
]
for name, nodes, before, opens in OPEN_CASES:
    net = dict(first(nodes), open=[None, None], opened=[[0, 0], [0, 0]], trimmed=False)
    for act in before:
        net = open_acts(net, opens)[act]
    print(name, open_orders(net, opens, {}))
