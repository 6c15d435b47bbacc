#!/usr/bin/env python3
"""big_application.py schedule|expected|check: a schedule of 1,000 arrivals for the application StationC of crates/run_rows/stdin, and what that crate prints.

The modules of StationC are written down here once more, from their texts and from the devices of the board, with no part of the compiler. A handler
runs to its end before the next one enters; of the lines that wait the greatest goes first. `schedule` prints its rows, `expected` what
run_rows prints, with the rows of the small applications, and `check` compares both with crates/run_rows/stdin and stdout.

Arrivals come alone, or in groups within nine slots, while the mote sleeps at the first of a group: the next group comes once more slots have passed
than its handlers take, by the numbers that are added to `slots`, and nine slots are fewer than any handler takes. So what handlers show does not hang
on how many slots an instruction takes: a group is drawn again if an arrival in it could meet the device that the first handler of the group reads or
sets.
"""
import binascii
import copy
import os
import random
import sys

ARRIVALS = 1000
FIRST = 10000
SPACE = 50
ROOM = 10000
SCALE = 1
SEED = 20030609
SHARES = [34, 20, 20, 8, 18]
CALL = "run StationC station.txt --budget"


def u8(n): return n & 0xFF
def u16(n): return n & 0xFFFF
def u32(n): return n & 0xFFFFFFFF
def s16(n): return (n + 0x8000 & 0xFFFF) - 0x8000
def s32(n): return (n + 0x80000000 & 0xFFFFFFFF) - 0x80000000
def divided(a, b): return abs(a) // abs(b) * (1 if (a < 0) == (b < 0) else -1)


# The devices, by their table.
class Leds:
    def __init__(self): self.value = 0
    def arrive(self, v): pass
    def read(self, r): return self.value if r == 0 else 0
    def write(self, r, v):
        if r == 0: self.value = v % 8
    flag = False


class Timer:
    def __init__(self): self.on, self.period, self.left, self.flag = 0, 0, 0, False
    def arrive(self, v):
        if self.on:
            if v < self.left: self.left -= v
            else: self.left, self.flag = self.period, True
    def read(self, r): return [self.on, self.period, self.left, int(self.flag)][r]
    def write(self, r, v):
        if r == 0:
            self.on = v & 1
            if self.on: self.left = self.period
        elif r == 1: self.period = v or 1
        elif r == 3: self.flag = False


class Serial:
    def __init__(self): self.rx, self.full, self.over, self.flag = 0, 0, 0, False
    def arrive(self, v):
        self.over |= self.full
        self.rx, self.full, self.flag = v & 255, 1, True
    def read(self, r):
        if r == 0:
            self.full = self.over = 0
            return self.rx
        return self.full + 2 * self.over if r == 1 else 0
    def write(self, r, v): pass


class Radio:
    def __init__(self): self.on, self.addr, self.rx, self.full, self.lost, self.flag = 0, 0, 0, 0, 0, False
    def arrive(self, v):
        if self.on and v >> 8 in (self.addr, 255):
            self.lost |= self.full
            self.rx, self.full, self.flag = v, 1, True
    def read(self, r):
        if r == 0:
            self.full = self.lost = 0
            return self.rx
        return [None, self.on, self.full + 2 * self.lost, self.addr][r]
    def write(self, r, v):
        if r == 1: self.on = v & 1
        elif r == 3: self.addr = v & 255


class Sensor:
    def __init__(self): self.value, self.asked, self.flag = 0, 0, False
    def arrive(self, v):
        self.value = v
        if self.asked: self.asked, self.flag = 0, True
    def read(self, r): return [self.value, self.asked, 0, 0][r]
    def write(self, r, v):
        if r == 1: self.asked = v & 1


class Empty:
    flag = False
    def arrive(self, v): pass
    def read(self, r): return 0
    def write(self, r, v): pass


class Board:
    def __init__(self):
        self.slots = [Leds(), Timer(), Serial(), Radio(), Sensor(), Serial(), Empty(), Empty()]
        self.mask = 0
        self.enters, self.ins, self.outs = [], [], []
        self.touched = set()

    def read(self, port):
        if port == 0x0100: value = self.mask
        else:
            self.touched.add((port - 0x0120) // 8)
            value = self.slots[(port - 0x0120) // 8].read((port - 0x0120) // 2 % 4)
        self.ins.append((port, value))
        return value

    def write(self, port, value):
        value = u16(value)
        self.outs.append((port, value))
        if port == 0x0100: self.mask = value & 255
        else:
            self.touched.add((port - 0x0120) // 8)
            self.slots[(port - 0x0120) // 8].write((port - 0x0120) // 2 % 4, value)

    def line(self):
        return max((k for k in range(8) if self.mask >> k & 1 and self.slots[k].flag), default=None)


# Helpers of several modules.
class Ring:
    def __init__(self, size): self.items, self.size = [], size
    def put(self, value):
        if len(self.items) >= self.size: return False
        self.items.append(value)
        return True


class Mean:
    def __init__(self, depth): self.values = [0] * depth
    def add(self, value):
        self.values = self.values[1:] + [value]
        return sum(self.values) // len(self.values)


class Station:
    def __init__(self):
        self.board = Board()
        self.slots = 0                                      # more than its handlers have taken
        self.now = 0xFFF0                                   # ClockM
        self.lit = 0                                        # LampsM
        self.shown = [0] * 8                                # DisplayM
        self.obeyed = self.wrong = self.lost = self.good = self.bad = 0   # CountersM
        self.last = self.stable = self.same = 0             # DebounceM
        self.typed = Ring(6)                                # LineM
        self.filled, self.frame = 0, [0, 0]                 # FrameM
        self.largest, self.values, self.count, self.noted_at = 0, [0] * 8, 0, 0   # LogM
        self.alarms = [[0, 0, 0], [0, 0, 0]]                # AlarmM: the beat, the control
        self.target, self.level, self.gathered = 2000, 0, 0               # HeaterM
        self.level_mean, self.window_mean = Mean(4), Mean(8)
        self.samples = []                                   # StatsM
        self.beats = 0                                      # CommandM
        self.boot()

    def boot(self):
        board = self.board
        def enable(line): board.write(0x0100, board.read(0x0100) | 1 << line)
        board.write(0x012A, 100)
        board.write(0x0128, 1)
        enable(1)
        enable(2)
        board.write(0x013E, 7)
        board.write(0x013A, 1)
        enable(3)
        enable(4)
        board.write(0x0142, 1)
        enable(5)
        self.alarms[0] = [2, 2, 1]
        self.alarms[1] = [3, 3, 1]

    # LampsM, DisplayM, LogM, SerialM
    def lamp(self, k, on):
        self.lit = self.lit | 1 << k if on else self.lit & ~(1 << k)
        self.board.write(0x0120, self.lit)

    def toggle(self, k):
        self.lit ^= 1 << k
        self.board.write(0x0120, self.lit)

    def show(self, field, value):
        value = u16(value)
        if self.shown[field] != value:
            self.shown[field] = value
            self.board.write(0x0150 + 2 * field, value)

    def note(self, kind, value):
        self.slots += 1600
        value = u16(value)
        self.values = self.values[1:] + [value]
        if value > self.largest:
            self.largest = value
            self.show(5, value ^ self.noted_at ^ kind)
        self.count = u16(self.count + 1)
        self.show(6, self.count)
        self.show(7, sum(self.values) ^ kind)

    def answer(self, number):
        self.slots += 550 * len(str(number))
        for c in str(number) + "\n": self.board.write(0x0130, ord(c))

    # Line 1: ClockM, AlarmM, BlinkM, HeaterM
    def line_1(self):
        self.slots += 650
        self.now = self.noted_at = u32(self.now + 1)
        for id, rang in ((0, self.beat), (1, self.control)):
            alarm = self.alarms[id]
            if alarm[0] == 0: continue
            alarm[0] -= 1
            if alarm[0] > 0: continue
            if alarm[2]: alarm[0] = alarm[1]
            rang()

    def beat(self):
        self.slots += 500
        self.toggle(0)
        self.beats = u16(self.beats + 1)
        if self.beats & 15 == 0: self.note(6, self.beats)

    def control(self):
        self.slots += 2000
        difference = s32(self.target - self.level)
        self.gathered = min(max(s32(self.gathered + difference), -20000), 20000)
        power = s16(divided(s32(difference * 3 + (self.gathered >> 2)), 16))
        self.lamp(1, power > 0)
        self.show(1, power)

    # Line 2: SerialM, LineM, CommandM
    def line_2(self):
        self.slots += 450
        state = self.board.read(0x0132)
        byte = self.board.read(0x0130)
        if state & 2: self.lose()
        if byte == 10:
            if self.typed.items: self.close_line()
        elif not self.typed.put(byte): self.lose()

    def lose(self):
        self.lost = u32(self.lost + 1)
        self.note(7, self.lost)

    def close_line(self):
        self.slots += 800 + 300 * len(self.typed.items)
        letter, digits = self.typed.items[0], self.typed.items[1:]
        self.typed.items = []
        number = 0
        for c in digits:
            if u8(c - 48) <= 9: number = u16(number * 10 + u8(c - 48))
        if self.obey(chr(letter), number):
            self.obeyed += 1
            self.show(4, self.obeyed)
        else:
            self.wrong += 1
            self.note(4, self.wrong << 8 | letter)

    def choose(self, target):
        self.target, self.gathered = u16(target), 0
        self.note(1, self.target)

    def obey(self, letter, number):
        if letter == "t": self.choose(number)
        elif letter == "q": self.answer(self.target)
        elif letter == "w": self.answer(self.wrong % 1000)
        elif letter == "s": self.board.write(0x0138, number)
        elif letter == "a": self.board.write(0x013E, u8(number))
        elif letter == "r": self.board.write(0x013A, number & 1)
        elif letter == "b":
            self.alarms[0] = [u8(number), u8(number), 1]
            self.answer(int(u8(number) > 0))
        else: return False
        return True

    # Line 3: RadioM, FrameM, CommandM, BlinkM
    def line_3(self):
        self.slots += 320
        lost = self.board.read(0x013C) & 2
        byte = self.board.read(0x0138) & 255
        if lost: self.drop()
        if self.filled < 2:
            self.frame[self.filled] = byte
            self.filled += 1
            return
        self.slots += 2100
        if binascii.crc_hqx(bytes(self.frame), 0xFFFF) & 255 != byte:
            self.drop()
            return
        self.filled = 0
        self.good += 1
        if self.good % 8 == 0: self.note(9, self.good)
        kind, value = self.frame
        if kind == 1: self.choose(value * 16)
        elif kind in (2, 3):
            if kind == 2: self.board.write(0x0138, 0xFE00 | value)
            self.note(5, value)
        else: self.wrong += 1
        self.lamp(2, value & 1)

    def drop(self):
        self.filled = 0
        self.bad += 1
        self.note(8, self.bad)

    # Line 4: SensorM, HeaterM, StatsM
    def line_4(self):
        self.slots += 1550
        value = self.board.read(0x0140) & 0x0FFF
        self.board.write(0x0142, 1)
        self.level = self.level_mean.add(value)
        self.show(0, self.level)
        mean = self.window_mean.add(value)
        self.samples.append(value)
        if len(self.samples) < 8: return
        self.slots += 6000
        squares = 0
        for sample in self.samples: squares = u32(squares + s32((sample - mean) ** 2))
        found = min(squares // 8, 0xFFFF)
        self.show(2, found)
        self.show(3, max(self.samples) - min(self.samples))
        self.note(2, found)
        self.samples = []

    # Line 5: KeysM, DebounceM, CommandM
    def line_5(self):
        self.slots += 330
        levels = self.board.read(0x0148) & 15
        if levels != self.last:
            self.last, self.same = levels, 1
            return
        self.same = min(self.same + 1, 3)
        changed = levels ^ self.stable
        if self.same < 3 or changed == 0: return
        self.stable = levels
        self.slots += 900
        for key in range(4):
            if not changed >> key & 1: continue
            if not levels >> key & 1: self.note(3, key + 8)
            elif key == 0: self.choose(self.target + 50)
            elif key == 1: self.choose(self.target - 50)
            else: self.note(3, key)

    def enter(self):
        line = self.board.line()
        self.board.slots[line].flag = False
        self.board.enters.append(line)
        self.board.touched = set()
        getattr(self, f"line_{line}")()


class Clash(Exception):
    """An arrival comes to a device that the first handler of its group reads or sets."""


def run_group(station, group):
    """The arrivals of a group, (slot in the group, line, value), come to a mote that sleeps."""
    touched = None
    for slot in sorted({row[0] for row in group}):
        for _, line, value in (row for row in group if row[0] == slot):
            if touched is not None and line in touched: raise Clash
            station.board.slots[line].arrive(value)
        if touched is None and station.board.line() is not None:
            station.enter()
            touched = station.board.touched
    while station.board.line() is not None: station.enter()


LINES = ["t2100", "q", "s1234", "x1", "b3", "t1900", "a9", "w", "hello", "a7", "r0", "r1", "q", "t1234567", "b2", "", "s65535", "r1", "t65000", "z", "t2050", "t-7",
         "b0", "w", "r1", "b1", "q9", "T5", "b4", "s40000", "t99999"]
KEYS = [1, 1, 1, 1, 0, 1, 0, 0, 0, 0, 2, 0, 2, 2, 2, 2, 0, 0, 0, 0, 4, 5, 4, 0, 4, 4, 0, 0, 0, 8, 9, 8, 3, 3, 3, 3, 12, 3, 12, 12, 12, 0x1C, 0xF0, 0, 0]


class Source:
    """What comes next to each line: bytes of LINES, levels of KEYS, frames of which some are wrong, and samples."""

    def __init__(self, rng):
        self.rng, self.typed, self.line, self.key, self.level = rng, [], 0, 0, 1900

    def value(self, line, station):
        return [None, self.ticks, self.byte, self.word, self.sample, self.levels][line](station)

    def ticks(self, station): return self.rng.choice([50, 30, 25, 60, 40, 100, 20, 99])

    def byte(self, station):
        if not self.typed:
            self.typed = [ord(c) for c in LINES[self.line % len(LINES)] + "\n"]
            self.line += 1
        return self.typed.pop(0)

    def word(self, station):
        own = station.board.slots[3].addr
        if station.filled == 0: byte = self.rng.choice([1, 2, 3, 2, 3, 77])
        elif station.filled == 1: byte = self.rng.randrange(256)
        else: byte = (binascii.crc_hqx(bytes(station.frame), 0xFFFF) + self.rng.choice([0, 0, 0, 0, 0, 0, 1])) & 255
        return self.rng.choice([own, own, 255, 255, 8, 100]) << 8 | byte

    def sample(self, station):
        self.level = min(max(self.level + self.rng.randrange(-120, 121), 1000), 3000)
        return self.rng.choice([self.level] * 40 + [65535, 0])

    def levels(self, station):
        self.key += 1
        return KEYS[(self.key - 1) % len(KEYS)]


def drawn_group(rng, source, station, size):
    group, at = [], 0
    spread = rng.random() < 0.5
    for _ in range(size):
        line = rng.choices(range(1, 6), SHARES)[0]
        if rng.random() < 0.5 and line in (row[1] for row in group): line = rng.choice(range(1, 6))
        group.append((at, line, source.value(line, station)))
        if spread: at = min(at + rng.randrange(0, 4), 8)
    return group


def schedule():
    """The rows, and the station behind them."""
    rng = random.Random(SEED)
    station, source, rows, slot = Station(), Source(rng), [], FIRST
    while len(rows) < ARRIVALS:
        size = 1 if rng.random() < 0.75 else rng.randrange(2, 8)
        size = min(size, ARRIVALS - len(rows))
        while True:
            next_station, next_source = copy.deepcopy((station, source))
            next_source.rng = rng
            group = drawn_group(rng, next_source, next_station, size)
            try: run_group(next_station, group)
            except Clash: continue
            break
        rows += [(slot + at, line, value) for at, line, value in group]
        slot += int(SCALE * (next_station.slots - station.slots)) + SPACE
        station, source = next_station, next_source
    return rows, station


def checksum(outs):
    total = 0
    for port, value in outs:
        for number in (port, value): total = (total * 31 + number) % 2 ** 32
    return total


def row(arrivals, enters, ins, outs, faults=0):
    return f"races 0 arrivals {arrivals} enters {enters} ins {ins} outs {len(outs)} faults {faults} checksum {checksum(outs)} same"


def small_rows():
    """The rows of the small applications, gone through by hand."""
    enable = [(0x0100, 4)]
    yield "run LostC, $ arrive 2 7: 1000 calls, 5 rows"
    for first, second in (((0x0130, 1), (0x0120, 2)), ((0x0130, 1), (0x0120, 1)), ((0x0130, 2), (0x0120, 2)), ((0x0130, 2), (0x0120, 1)),
                          ((0x0120, 1), (0x0130, 2))):
        yield row(1, 1, 0, enable + [first, second])
    boot, handler = ([(0x0130, v + k) for k in range(3)] for v in (10, 20))
    yield "run NestC, 3$ arrive 2 1: 1000 calls, 5 rows"
    yield row(1, 1, 0, enable + handler + boot)
    for k in (3, 2, 1, 0): yield row(1, 1, 0, enable + boot + handler[:k])
    yield "run FaultC two.txt: " + row(2, 2, 2, enable + [(0x0120, 7)], 1)
    outs = [(0x0100, 16), (0x012A, 250), (0x0128, 1), (0x0100, 18)]
    for mean in (1, 3, 7): outs += [(0x0142, 1), (0x0120, mean)]
    yield "run MeterAppC slow.txt --budget 40000: " + row(6, 6, 5, outs)
    yield "run MeterAppC slow.txt --budget 10001: " + row(1, 1, 2, outs[:4])
    yield "run MeterAppC slow.txt --budget 25001: " + row(4, 4, 3, outs[:7])


def texts():
    """The rows of the schedule, and all that run_rows prints."""
    rows, station = schedule()
    board = station.board
    call = f"{CALL} {rows[-1][0] + ROOM}"
    last = call + ": " + row(len(rows), len(board.enters), len(board.ins), board.outs)
    return [f"{slot} arrive {line} {value}" for slot, line, value in rows], [*small_rows(), last], call


def main():
    rows, printed, call = texts()
    if sys.argv[1:] == ["schedule"]: print("\n".join(rows))
    elif sys.argv[1:] == ["expected"]: print("\n".join(printed))
    elif sys.argv[1:] == ["check"]:
        crate = os.path.join(os.path.dirname(os.path.abspath(__file__)), "..", "crates", "run_rows")
        stdin, stdout = (open(os.path.join(crate, name)).read() for name in ("stdin", "stdout"))
        is_so = stdin.endswith("\n".join(["\n+ station.txt", *rows, "> " + call]) + "\n") and stdout == "\n".join(printed) + "\n"
        print("as in the crate" if is_so else "not as in the crate")
        sys.exit(not is_so)
    else: sys.exit(__doc__)


if __name__ == "__main__":
    main()
