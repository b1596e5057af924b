#!/usr/bin/env python3
"""bench/promises.py [COUNT] [PROGRAM]: makes COUNT scenarios (2,000 without a word) with reopenings, failed copies and restarts at
odd moments, replays each by PROGRAM (without a word the built program crates/xpsim/out/xpsim), and holds each report against the
promises. Nothing but the report is read for that: what a message holds tells who sent it, in which boot and by which command, and the
number of a command tells its channel. The last lines have the sums; the status is 1 where a report breaks a promise.
"""
import os
import subprocess
import sys
import time

BOOTS = 3
OPS = 48  # Commands of a script, but for its end.
QUEUE = 4
LOADS = (("page", 5), ("record", 8), ("args", 1), ("counters", 2), ("get", 1), ("entries", 16))
# What both partitions do by turns on a channel, each as often as it stands here.
KINDS = ("send",) * 10 + ("answer",) * 8 + ("release",) * 9 + ("connected",) * 3 + ("close",) * 2 + ("refuse",) * 2 + ("down",) + ("rest",) * 3


class Dice:
    """Numbers that follow from the first one."""

    def __init__(self, number):
        self.word = number

    def below(self, limit):
        self.word = (self.word * 6364136223846793005 + 1442695040888963407) % 2**64
        return (self.word >> 33) % limit


def channel_of(command):
    """The channel of a command, by its number in its script."""
    return 2 * (command % 2)


class Flow:
    """One channel of both scripts: what is still to be done first, and how many messages each partition has sent and released."""

    def __init__(self):
        self.pending = ["register", "connected"]
        self.sent = [0, 0]
        self.released = [0, 0]

    def begin(self):
        self.sent = [0, 0]
        self.released = [0, 0]
        self.pending = ["register", "connected"]


def kind_of(flow, dice):
    """What is done next: what is pending, else what the dice say, but for a send into a queue that may be full."""
    if flow.pending:
        return flow.pending.pop(0)
    kind = KINDS[dice.below(len(KINDS))]
    full = {"send": 0, "answer": 1}.get(kind)
    if full is not None and flow.sent[full] - flow.released[1 - full] >= QUEUE - 1:
        return "release"
    return kind


def release(flow, part, channel):
    """A release of the next message that was sent to a partition, where there is one."""
    if flow.released[part] == flow.sent[1 - part]:
        return "idle 3"
    flow.released[part] += 1
    return f"release {1 - part} {channel} {flow.released[part] - 1}"


def send(flow, part, channel, boot, command, dice):
    flow.sent[part] += 1
    more = (0, 1, 4, 11, 12, 28)[dice.below(6)]
    body = f"{part:02}{boot:02}{command:04}" + (f"+{more}*5a" if more else "")
    return f"send {1 - part} {channel} {body}" + (" notify" if dice.below(2) else "")


def commands(flow, boot, command, dice):
    """The command of each partition."""
    channel = channel_of(command)
    kind = kind_of(flow, dice)
    if kind in ("send", "answer"):
        part = int(kind == "answer")
        pair = [send(flow, part, channel, boot, command, dice), f"take {part} {channel}"]
        return pair if part == 0 else pair[::-1]
    if kind == "release":
        return [release(flow, 0, channel), release(flow, 1, channel)]
    if kind in ("close", "refuse"):
        flow.begin()
        pair = [f"unregister 1 {channel}", f"closed 0 {channel}"] if kind == "close" else [f"closed 1 {channel}", f"unregister 0 {channel}"]
        return pair
    if kind == "down":
        flow.begin()
        flow.pending = ["up", "connected"]
        return ["deactivate 1", f"closed 0 {channel}"]
    if kind == "up":
        return ["activate 1", "idle 20"]
    if kind == "register":
        return [f"register {1 - part} {channel} entries {QUEUE} limit 32" for part in (0, 1)]
    if kind == "connected":
        return [f"connected {1 - part} {channel}" for part in (0, 1)]
    return [f"idle {1 + dice.below(40)}" for _ in (0, 1)]


def scripts(boot, dice):
    """The scripts of both partitions for a boot."""
    flows = {0: Flow(), 2: Flow()}
    pairs = [commands(flows[channel_of(command)], boot, command, dice) for command in range(1, OPS + 1)]
    return ["\n".join(pair[part] for pair in pairs) + "\nidle 400\n" for part in (0, 1)]


def settings(dice):
    """Failed copies and restarts at odd moments."""
    text = ""
    for _ in range(dice.below(3)):
        kind, loads = LOADS[dice.below(len(LOADS))]
        text += f"fault {dice.below(2)} {kind} {1 + dice.below(12)} at {dice.below(loads)}\n"
    for _ in range(dice.below(BOOTS)):
        text += f"restart {dice.below(2)} turn {dice.below((200, 900, 4000)[dice.below(3)])}\n"
    return text


def schedule(dice):
    text = ""
    for _ in range(dice.below(8)):
        if dice.below(2):
            text += f"rounds {dice.below(60)}\n"
        else:
            text += f"turns {dice.below(2)} {dice.below(200)}\n"
    return text + "rounds 7000\n"


def scenario(number):
    """The text of the scenario of a number."""
    dice = Dice(number)
    text = "xpsim 1\npartitions 2\n" + settings(dice)
    for boot in range(1, BOOTS + 1):
        zero, one = scripts(boot, dice)
        text += f"script 0\n{zero}script 1\n{one}"
    return text + "schedule\n" + schedule(dice)


def read(report):
    """Of each partition its commands and its connections."""
    parts = []
    for line in report.splitlines()[1:]:
        words = line.split()
        if words[0] == "partition":
            parts.append({"state": words[2], "boots": int(words[4]), "log": [], "links": [], "over": []})
        elif words[0] == "link":
            parts[-1]["links"].append(link_of(words))
        elif words[0] == "over":
            parts[-1]["over"].append(words[1:])
        else:
            parts[-1]["log"].append(words)
    return parts


def link_of(words):
    names = ("accepted", "taken", "acked", "delivered", "ended")
    counts = {name: int(words[10 + 2 * at]) for at, name in enumerate(names)}
    return {"partner": int(words[1]), "channel": int(words[2]), "epoch": words[4], "own": words[6], "theirs": words[8], **counts}


def sends_of(parts, part):
    """The accepted sends of a partition: boot and command, and the number of the connection among those of its channel."""
    found, opened = {}, {}
    for words in parts[part]["log"]:
        if words[2:4] == ["send", "ok"]:
            boot, command, number = int(words[0]), int(words[1]), int(words[4])
            channel = channel_of(command)
            opened[channel] = opened.get(channel, 0) + (number == 0)
            found[boot, command] = (channel, opened[channel], number)
    return found


def taken_wrong(parts, part, sends):
    """Takes that break the order: each message once, of the partner and the own channel, with the number that its sender was told, and
    after all that stood before it in its connection."""
    last = {}
    for words in parts[part]["log"]:
        if words[2:4] != ["take", "ok"]:
            continue
        channel = channel_of(int(words[1]))
        number, body = int(words[4]), words[5].split(":")[1]
        sender, boot, command = int(body[:2]), int(body[2:4]), int(body[4:8])
        sent = sends[1 - part].get((boot, command))
        if sender != 1 - part or sent is None or sent[0] != channel or sent[2] != number:
            yield f"partition {part}: {' '.join(words)}"
            continue
        connection, before = last.get(channel, (0, -1))
        follows = sent[1] == connection and number == before + 1
        begins = sent[1] > connection and number == 0
        if not (follows or begins):
            yield f"partition {part}: {' '.join(words)} after number {before} of connection {connection}"
        last[channel] = (sent[1], number)


def counted_wrong(parts, part):
    """Connections whose counts don't fit the commands, or those of the other end."""
    for verb, field in (("send", "accepted"), ("take", "taken")):
        logged = sum(words[2:4] == [verb, "ok"] for words in parts[part]["log"])
        if logged != sum(link[field] for link in parts[part]["links"]):
            yield f"partition {part}: {logged} commands {verb}"
    for link in parts[part]["links"]:
        name = (part, link["channel"], link["epoch"], link["theirs"], link["own"])
        others = [
            other for other in parts[link["partner"]]["links"]
            if (other["partner"], other["channel"], other["epoch"], other["own"], other["theirs"]) == name
        ]
        other = others[0] if others else {"accepted": 0, "taken": 0, "acked": 0}
        if len(others) > 1:
            yield f"partition {part}: two ends {link}"
        if not link["acked"] <= link["taken"] <= other["accepted"]:
            yield f"partition {part}: {link} beside {other}"
        if link["delivered"] > other["acked"] or link["delivered"] + link["ended"] > link["accepted"]:
            yield f"partition {part}: {link} beside {other}"


def breaches(report):
    """What a report breaks."""
    if "bad-" in report or "halted" in report:
        yield "a word was refused"
    parts = read(report)
    sends = [sends_of(parts, part) for part in range(len(parts))]
    for part in range(len(parts)):
        yield from taken_wrong(parts, part, sends)
        yield from counted_wrong(parts, part)


def main():
    count = int(sys.argv[1]) if len(sys.argv) > 1 else 2000
    here = os.path.dirname(os.path.realpath(__file__))
    program = sys.argv[2] if len(sys.argv) > 2 else f"{here}/../crates/xpsim/out/xpsim"
    sums, reasons, broken, begun = {}, {}, 0, time.time()
    for number in range(count):
        text = scenario(number)
        done = subprocess.run([program, "replay"], input=text.encode(), capture_output=True, check=False)
        found = list(breaches(done.stdout.decode())) if done.returncode == 0 else [f"status {done.returncode}: {done.stderr.decode()}"]
        for breach in found:
            print(f"scenario {number}: {breach}")
        broken += bool(found)
        for part in read(done.stdout.decode()) if done.returncode == 0 else []:
            add(sums, reasons, part)
    told = " ".join(f"{name} {number}" for name, number in sums.items())
    print(f"{count} scenarios, {broken} broken, {time.time() - begun:.1f} s: {told}")
    print("over: " + " ".join(f"{name} {number}" for name, number in sorted(reasons.items())))
    return int(broken > 0)


def add(sums, reasons, part):
    numbers = {"partitions": 1, "boots": part["boots"], "commands": len(part["log"]), "connections": len(part["links"])}
    numbers |= {name: sum(link[name] for link in part["links"]) for name in ("accepted", "taken", "acked", "delivered", "ended")}
    numbers["later_epochs"] = sum(link["epoch"] != "0" for link in part["links"])
    for name, number in numbers.items():
        sums[name] = sums.get(name, 0) + number
    for words in part["over"]:
        reasons[words[8]] = reasons.get(words[8], 0) + 1


if __name__ == "__main__":
    sys.exit(main())
