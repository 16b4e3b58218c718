"""Random cases of `crates/stream_cases`: what is done with one end, from a seed. `crates/stream_cases/src/random.rt` makes the same
words from the same numbers."""

from connection_model import (ACK, CONTINUATION, DATA, END_HEADERS, END_STREAM, GOAWAY, GREATEST_WINDOW, HEADERS, LONGEST_PAYLOAD, PADDED,
                              PING, PRIORITY, PUSH_PROMISE, RST_STREAM, SETTINGS, WINDOW_UPDATE, WITH_PRIORITY)

REQUESTS = ["8386844001630164", "838684", "828785418cf1e3c2e5f23a6ba0ab90f4ff", "838604032f612f", "203fe11f8386844001670168", "838684be",
            "0207434f4e4e45435401026464", "0207434f4e4e454354010264640401" + "2f"]
REPLIES = ["88", "88", "884001630164", "8d", "0803313030", "0803313030", "4803313033", ""]
TRAILERS = ["000b677270632d7374617475730130"] * 3 + ["400b677270632d7374617475730132"] * 2 + ["", "", "84"]
FIELDS = (
    ["0001410162", "000a636f6e6e656374696f6e0178", "0002746504677a6970", "04012f", "00000162", "000161020a0a", "0003613a620163", "0f2a0178"]
    + ["0002746508747261696c657273"] * 2 + ["1001650166"] * 2 + ["0f0d0131"] * 2 + ["5886a8eb10649cbf"] * 2
    + ["408825a849e95ba97d7f8925a849e95bb8e8b4bf"] * 2 + ["be"] + ["4001630164"] * 4 + ["0006636f6f6b696500"] * 2
    + ["0001610162"] * 7
)
FATAL_FIELDS = ["80", "ffff00", "20", "3fe21f", "000561", "ff", "ff808080808000", "ffffffffff7f"]


class Numbers:
    """The numbers of `case_words`: the high half of a linear congruence."""

    def __init__(self, seed):
        self.state = seed % 2**32

    def next(self):
        self.state = (self.state * 6_364_136_223_846_793_005 + 1_442_695_040_888_963_407) % 2**64
        return self.state >> 32

    def below(self, bound):
        return self.next() % bound

    def coin(self):
        return self.next() % 2 == 1

    def eight(self):
        return self.next().to_bytes(4, "big") + self.next().to_bytes(4, "big")


def number(value):
    return value.to_bytes(4, "big")


class Words:
    def __init__(self, server, numbers):
        self.numbers = numbers
        self.server = server
        self.heavy = numbers.below(4) == 0
        self.opened = 0
        self.joins = False
        self.text = ""

    def step(self):
        kind = self.numbers.below(36)
        if self.opened == 0 or kind <= 5:
            self.begin()
        elif kind <= 11:
            self.data()
        elif kind <= 15:
            self.more_headers()
        elif kind == 16:
            stream = self.some_stream()
            self.frame(RST_STREAM, 0, stream, number(self.numbers.below(14)))
        elif kind <= 18:
            self.update()
        elif kind == 19:
            self.settings()
        elif kind == 20:
            self.ping(0)
        elif kind == 21:
            self.without_meaning()
        elif kind == 22:
            self.seldom_broken()
        else:
            self.call(kind)

    def call(self, kind):
        if kind >= 33:
            return self.word("keep take")
        stream = self.some_stream()
        if kind <= 24:
            self.word(f"head:{stream}:{self.numbers.below(2)}")
        elif kind <= 27:
            most = 40_000 if self.numbers.below(3) == 0 else 500
            self.word(f"send:{stream}:{self.numbers.below(most) + 1}")
        elif kind <= 29:
            self.word(f"finish:{stream}:0")
        elif kind == 30:
            self.word(f"reset:{stream}:{self.numbers.below(14)}")
        else:
            self.word(f"back:{stream}:{self.numbers.below(20_000) + 1}")

    def some_stream(self):
        seldom = self.numbers.below(160) == 0
        old = self.numbers.below(8) == 0
        if seldom:
            return self.numbers.below(self.opened * 2 + 4)
        back = self.numbers.below(max(1, self.opened if old else min(self.opened, 5)))
        return max(0, self.opened - 1 - back) * 2 + 1

    def begin(self):
        if not self.server:
            self.opened += 1
            return self.word("open")
        if self.numbers.below(16) == 0:
            self.opened += self.numbers.below(3)
        stream = self.opened * 2 + 1
        self.opened += 1
        at = self.numbers.below(8)
        end = self.numbers.below(4) == 0
        self.headers(stream, end, self.block(REQUESTS[at]))

    def more_headers(self):
        stream = self.some_stream()
        first = not self.server and self.numbers.below(4) != 0
        at = self.numbers.below(8)
        end = self.numbers.below(4) == 0 or not first
        self.headers(stream, end, self.block(REPLIES[at] if first else TRAILERS[at]))

    def block(self, digits):
        for _ in range(self.numbers.below(3)):
            digits += FIELDS[self.numbers.below(32)]
        if self.numbers.below(128) == 0:
            digits += FATAL_FIELDS[self.numbers.below(8)]
        return bytes.fromhex(digits)

    def headers(self, stream, end, block):
        split = self.numbers.below(6) == 0
        padded = self.numbers.below(8) == 0
        with_priority = self.numbers.below(8) == 0
        first = self.part_of(block) if split else len(block)
        flags = (END_STREAM if end else 0) | (0 if split else END_HEADERS)
        payload, pad = b"", 0
        if padded:
            flags |= PADDED
            pad = self.numbers.below(20)
            payload += bytes([pad])
        if with_priority:
            flags |= WITH_PRIORITY
            payload += bytes([0, 0, 0, 0, 16])
        self.frame(HEADERS, flags, stream, payload + block[:first] + bytes(pad))
        if split:
            self.continuations(stream, block[first:])

    def continuations(self, stream, rest):
        if self.numbers.below(24) == 0:
            self.ping(0)
        at = 0
        if self.numbers.coin():
            at = self.part_of(rest)
            self.frame(CONTINUATION, 0, stream, rest[:at])
        self.frame(CONTINUATION, END_HEADERS, stream, rest[at:])

    def part_of(self, octets):
        return self.numbers.below(len(octets) + 1)

    def data(self):
        stream = self.some_stream()
        count = self.data_len()
        end = self.numbers.below(4) == 0
        padded = self.numbers.below(8) == 0
        flags = END_STREAM if end else 0
        if not padded:
            self.frame_header(count, DATA, flags, stream)
            return self.many("61", count)
        pad = self.numbers.below(20)
        count = min(count, 16_000)
        self.frame_header(count + pad + 1, DATA, flags | PADDED, stream)
        self.text += f"{pad:02x}"
        self.many("61", count)
        self.many("00", pad)

    def data_len(self):
        kind = self.numbers.below(8)
        long = self.numbers.coin()
        if kind == 0:
            return 0
        if kind == 1:
            return self.numbers.below(5_000)
        return LONGEST_PAYLOAD if self.heavy and long else self.numbers.below(300)

    def update(self):
        whole = self.numbers.below(3) == 0
        stream = self.some_stream()
        seldom = self.numbers.below(8) == 0
        kind = self.numbers.below(8)
        if kind == 0 and (not whole or seldom):
            increment = 0
        elif kind == 1 and (not whole or seldom):
            increment = GREATEST_WINDOW - self.numbers.below(70_000)
        else:
            increment = self.numbers.below(70_000) + 1
        self.frame(WINDOW_UPDATE, 0, 0 if whole else stream, number(increment))

    def settings(self):
        payload = b""
        for _ in range(self.numbers.below(3)):
            name, value = self.setting()
            if self.numbers.below(40) == 0:
                value = self.numbers.next()
            payload += bytes([0, name]) + number(value)
        self.frame(SETTINGS, 0, 0, payload)

    def setting(self):
        kind = self.numbers.below(8)
        if kind == 0:
            return 1, self.numbers.below(9_000)
        if kind == 1:
            return 2, 0
        if kind == 2:
            return 3, self.numbers.below(100) + 30
        if kind in (3, 4):
            return 4, self.initial_window()
        if kind == 5:
            return 5, self.numbers.below(1_000) + 16_384
        if kind == 6:
            return 6, self.numbers.below(100_000)
        return 99, self.numbers.next()

    def initial_window(self):
        kind = self.numbers.below(6)
        if kind == 0:
            return 0
        if kind == 1:
            return GREATEST_WINDOW - self.numbers.below(70_000)
        return self.numbers.below(100_000)

    def ping(self, flags):
        self.frame(PING, flags, 0, self.numbers.eight())

    def without_meaning(self):
        kind = self.numbers.below(6)
        seldom = self.numbers.below(10) == 0
        if kind <= 1:
            self.frame(PRIORITY, 0, self.some_stream(), bytes([0, 0, 0, 0, 16]))
        elif kind == 2 and (self.server or seldom):
            self.frame(GOAWAY, 0, 0, bytes([0, 0, 0, 0, 0, 0, 0, 0, 33]))
        elif kind == 3:
            self.frame(SETTINGS, ACK, 0, b"")
        elif kind == 4:
            self.ping(ACK)
        else:
            unknown = 10 + self.numbers.below(200)
            self.frame(unknown, 255, self.numbers.next(), bytes([1, 2, 3]))

    def seldom_broken(self):
        if self.numbers.below(12) != 0:
            return self.ping(0)
        stream = self.some_stream()
        kind = self.numbers.below(10)
        if kind == 0:
            self.frame(PUSH_PROMISE, END_HEADERS, stream, bytes([0, 0, 0, 2, 0x82]))
        elif kind == 1:
            self.frame_header(16_385, DATA, 0, stream)
        elif kind == 2:
            self.frame(CONTINUATION, END_HEADERS, stream, bytes([0x82]))
        elif kind == 3:
            self.frame(RST_STREAM, 0, stream, bytes([0, 0, 8]))
        elif kind == 4:
            self.frame(PING, 0, 0, bytes([1, 2, 3, 4, 5, 6, 7]))
        elif kind == 5:
            self.frame(WINDOW_UPDATE, 0, stream, bytes([0, 0, 0, 1, 0]))
        elif kind == 6:
            self.frame(SETTINGS, 0, 0, bytes([0, 1, 0, 0, 0]))
        elif kind == 7:
            self.frame(SETTINGS, 0, stream, b"")
        elif kind == 8:
            self.frame(DATA, PADDED, stream, bytes([4, 0, 0, 0]))
        else:
            octets = self.numbers.eight()
            self.frame(octets[0], octets[1], 1, octets[2:])

    def frame(self, kind, flags, stream, payload):
        self.frame_header(len(payload), kind, flags, stream)
        cut = self.numbers.below(64)
        for at, octet in enumerate(payload):
            self.text += (" " if at == cut else "") + f"{octet:02x}"

    def frame_header(self, length, kind, flags, stream):
        apart = self.numbers.below(4) != 0
        blank = " " if apart or not self.joins else ""
        cut = " " if self.numbers.below(4) == 0 else ""
        self.text += f"{blank}{length:06x}{kind:02x}{cut}{flags:02x}{stream:08x}"
        self.joins = True

    def many(self, digits, count):
        if count:
            self.word(f"{digits}*{count}")

    def word(self, word):
        self.joins = False
        self.text += " " + word


def case_words(role, seed, at, steps):
    """The words of a case."""
    words = Words(role == "server", Numbers(seed * 65_537 + at))
    for _ in range(steps):
        words.step()
    return words.text
