"""One end of an HTTP/2 connection, and what is done with it in the cases of `crates/stream_cases`.

It follows the documents (docs/frames.md, docs/streams.md, docs/header-blocks.md) and RFC 9113 and 7541, and shares no code with the
program; its author had read the program and its definitions too. What it answers is what the program has to answer.
"""

PROTOCOL_ERROR, FLOW_CONTROL_ERROR, STREAM_CLOSED, FRAME_SIZE_ERROR, REFUSED_STREAM, COMPRESSION_ERROR, ENHANCE_YOUR_CALM = 1, 3, 5, 6, 7, 9, 11
DATA, HEADERS, PRIORITY, RST_STREAM, SETTINGS, PUSH_PROMISE, PING, GOAWAY, WINDOW_UPDATE, CONTINUATION = range(10)
END_STREAM, ACK, END_HEADERS, PADDED, WITH_PRIORITY = 0x1, 0x1, 0x4, 0x8, 0x20
HEADER_TABLE_SIZE, ENABLE_PUSH, MAX_CONCURRENT_STREAMS, INITIAL_WINDOW_SIZE, MAX_FRAME_SIZE = 1, 2, 3, 4, 5
PREFACE = b"PRI * HTTP/2.0\r\n\r\nSM\r\n\r\n"
GREATEST_WINDOW = 2**31 - 1
FIRST_WINDOW = 65_535
SERVER_WINDOW = 1_048_576
OPEN_STREAMS = 64
LONGEST_PAYLOAD = 16_384
LONGEST_BLOCK = 32_768
MOST_CONTINUATIONS = 32
LARGEST_LIST = 16_384
LARGEST_TABLE = 4_096
ENTRY_OVERHEAD = 32
MOST_UNSENT = 262_144
GOAWAY_OCTETS = 17
ROOM_FOR_DATA = 32_768

STATIC_TABLE = [
    (":authority", ""), (":method", "GET"), (":method", "POST"), (":path", "/"), (":path", "/index.html"), (":scheme", "http"),
    (":scheme", "https"), (":status", "200"), (":status", "204"), (":status", "206"), (":status", "304"), (":status", "400"),
    (":status", "404"), (":status", "500"), ("accept-charset", ""), ("accept-encoding", "gzip, deflate"),
] + [
    (name, "") for name in
    "accept-language accept-ranges accept access-control-allow-origin age allow authorization cache-control content-disposition"
    " content-encoding content-language content-length content-location content-range content-type cookie date etag expect expires from"
    " host if-match if-modified-since if-none-match if-range if-unmodified-since last-modified link location max-forwards"
    " proxy-authenticate proxy-authorization range referer refresh retry-after server set-cookie strict-transport-security"
    " transfer-encoding user-agent vary via www-authenticate".split()
]
STATIC_TABLE = [(name.encode(), value.encode()) for name, value in STATIC_TABLE]

# The Huffman code (RFC 7541, Appendix B): the symbols by the length of their words. 256 is the end of string.
PRINTABLE = {
    5: "012aceiost", 6: " %-./3456789=A_bdfghlmnpru", 7: ":BCDEFGHIJKLMNOPQRSTUVWYjkqvwxyz", 8: "&*,;XZ", 10: "!\"()?", 11: "'+|", 12: "#>",
    13: "$@[]~", 14: "^}", 15: "<`{", 19: "\\",
}
OTHERS = {
    13: [0], 19: [195, 208], 20: [128, 130, 131, 162, 184, 194, 224, 226],
    21: [153, 161, 167, 172, 176, 177, 179, 209, 216, 217, 227, 229, 230],
    22: [129, 132, 133, 134, 136, 146, 154, 156, 160, 163, 164, 169, 170, 173, 178, 181, 185, 186, 187, 189, 190, 196, 198, 228, 232, 233],
    23: [1, 135, 137, 138, 139, 140, 141, 143, 147, 149, 150, 151, 152, 155, 157, 158, 165, 166, 168, 174, 175, 180, 182, 183, 188, 191, 197,
         231, 239],
    24: [9, 142, 144, 145, 148, 159, 171, 206, 215, 225, 236, 237], 25: [199, 207, 234, 235],
    26: [192, 193, 200, 201, 202, 205, 210, 213, 218, 219, 238, 240, 242, 243, 255],
    27: [203, 204, 211, 212, 214, 221, 222, 223, 241, 244, 245, 246, 247, 248, 250, 251, 252, 253, 254],
    28: [*range(2, 9), 11, 12, *range(14, 22), *range(23, 32), 127, 220, 249], 30: [10, 13, 22, 256],
}
END_OF_STRING = 256


def huffman_words():
    """The word of each symbol, as bits: words of one length are consecutive, and longer ones come after shorter ones."""
    words, code, before = {}, 0, 0
    for length in range(5, 31):
        code <<= length - before
        before = length
        for symbol in sorted([ord(character) for character in PRINTABLE.get(length, "")] + OTHERS.get(length, [])):
            words[symbol] = format(code, f"0{length}b")
            code += 1
    assert len(words) == 257 and code == 2**30
    return words


HUFFMAN = huffman_words()
HUFFMAN_SYMBOLS = {word: symbol for symbol, word in HUFFMAN.items()}


def huffman_coded(text):
    bits = "".join(HUFFMAN[octet] for octet in text)
    bits += "1" * (-len(bits) % 8)
    return bytes(int(bits[at:at + 8], 2) for at in range(0, len(bits), 8))


def huffman_text(octets):
    text, word = b"", ""
    for bit in "".join(format(octet, "08b") for octet in octets):
        word += bit
        if word in HUFFMAN_SYMBOLS:
            require(HUFFMAN_SYMBOLS[word] != END_OF_STRING, COMPRESSION_ERROR)
            text += bytes([HUFFMAN_SYMBOLS[word]])
            word = ""
    require(len(word) < 8 and "0" not in word, COMPRESSION_ERROR)
    return text


class BrokenRule(Exception):
    """A rule is broken: the connection ends with this error code."""

    def __init__(self, code):
        super().__init__(code)
        self.code = code


# ---- header blocks (RFC 7541)


def size_of(header):
    return len(header[0]) + len(header[1]) + ENTRY_OVERHEAD


class Table:
    """The dynamic table of one direction, the newest entry first."""

    def __init__(self):
        self.entries = []
        self.limit = LARGEST_TABLE

    def resize(self, limit):
        self.limit = limit
        while sum(map(size_of, self.entries)) > self.limit:
            self.entries.pop()

    def insert(self, header):
        self.entries.insert(0, header)
        self.resize(self.limit)


class Decoder:
    """The header blocks of one direction, as they are read."""

    def __init__(self):
        self.table = Table()

    def entry(self, index):
        if index == 0:
            raise BrokenRule(COMPRESSION_ERROR)
        if index <= len(STATIC_TABLE):
            return STATIC_TABLE[index - 1]
        if index - len(STATIC_TABLE) > len(self.table.entries):
            raise BrokenRule(COMPRESSION_ERROR)
        return self.table.entries[index - len(STATIC_TABLE) - 1]

    def integer(self, bits):
        full = 2**bits - 1
        value = self.octet() & full
        if value < full:
            return value
        for place in range(5):
            octet = self.octet()
            value += (octet & 127) << (7 * place)
            if octet < 128:
                if value >= 2**32:
                    raise BrokenRule(COMPRESSION_ERROR)
                return value
        raise BrokenRule(COMPRESSION_ERROR)

    def octet(self):
        if self.at >= len(self.octets):
            raise BrokenRule(COMPRESSION_ERROR)
        self.at += 1
        return self.octets[self.at - 1]

    def string(self):
        coded = self.at < len(self.octets) and self.octets[self.at] >= 128
        count = self.integer(7)
        if len(self.octets) - self.at < count:
            raise BrokenRule(COMPRESSION_ERROR)
        text = self.octets[self.at:self.at + count]
        self.at += count
        return huffman_text(text) if coded else text

    def block(self, octets):
        self.octets, self.at = octets, 0
        headers = []
        while self.at < len(octets):
            first = octets[self.at]
            if 32 <= first < 64:
                if headers:
                    raise BrokenRule(COMPRESSION_ERROR)
                limit = self.integer(5)
                if limit > LARGEST_TABLE:
                    raise BrokenRule(COMPRESSION_ERROR)
                self.table.resize(limit)
                continue
            if first >= 128:
                header = self.entry(self.integer(7))
            else:
                index = self.integer(6 if first >= 64 else 4)
                name = self.string() if index == 0 else self.entry(index)[0]
                header = (name, self.string())
            headers.append(header)
            if sum(map(size_of, headers)) > LARGEST_LIST:
                raise BrokenRule(ENHANCE_YOUR_CALM)
            if 64 <= first < 128:
                self.table.insert(header)
        return headers


class Encoder:
    """The header blocks of one direction, as they are written: by the least index that serves, strings coded where that is shorter."""

    def __init__(self):
        self.table = Table()
        self.allowed = []

    def allow(self, limit):
        """The peer allows a maximum size of the table."""
        self.allowed.append(min(limit, LARGEST_TABLE))

    def block(self, headers):
        octets = b""
        if self.allowed:
            if min(self.allowed) < self.table.limit:
                octets += self.update(min(self.allowed))
            if self.allowed[-1] != self.table.limit:
                octets += self.update(self.allowed[-1])
            self.allowed = []
        return octets + b"".join(self.field(header) for header in headers)

    def update(self, limit):
        self.table.resize(limit)
        return prefixed_integer(0x20, 5, limit)

    def field(self, header):
        entries = STATIC_TABLE + self.table.entries
        if header in entries:
            return prefixed_integer(0x80, 7, entries.index(header) + 1)
        names = [name for name, _ in entries]
        index = names.index(header[0]) + 1 if header[0] in names else 0
        joins = size_of(header) <= self.table.limit
        octets = prefixed_integer(0x40, 6, index) if joins else prefixed_integer(0x00, 4, index)
        if joins:
            self.table.insert(header)
        return octets + (b"" if index else string_octets(header[0])) + string_octets(header[1])


def prefixed_integer(mark, bits, value):
    full = 2**bits - 1
    if value < full:
        return bytes([mark + value])
    value -= full
    octets = bytes([mark + full])
    while value >= 128:
        octets += bytes([128 + value % 128])
        value //= 128
    return octets + bytes([value])


def string_octets(text):
    code = huffman_coded(text)
    if len(code) < len(text):
        return prefixed_integer(0x80, 7, len(code)) + code
    return prefixed_integer(0x00, 7, len(text)) + text


# ---- header lists (RFC 9113, sections 8.2 and 8.3)

CONNECTION_FIELDS = {b"connection", b"proxy-connection", b"keep-alive", b"transfer-encoding", b"upgrade"}
PSEUDO_FIELDS = {"request": {b":method", b":scheme", b":path", b":authority"}, "reply": {b":status"}, "trailers": set()}


def is_bad_name(name):
    return not name or any(octet <= 0x20 or 0x41 <= octet <= 0x5a or octet >= 0x7f for octet in name) or b":" in name[1:]


def is_malformed(kind, headers):
    names = [name for name, _ in headers]
    pseudo = [name for name in names if name.startswith(b":")]
    if names[:len(pseudo)] != pseudo or len(set(pseudo)) < len(pseudo) or not set(pseudo) <= PSEUDO_FIELDS[kind]:
        return True
    for name, value in headers:
        if is_bad_name(name) or any(octet in (0, 10, 13) for octet in value) or name in CONNECTION_FIELDS:
            return True
        if name == b"te" and value != b"trailers":
            return True
    if kind == "request":
        if b":method" not in pseudo:
            return True
        if (b":method", b"CONNECT") in headers:
            return b":scheme" in pseudo or b":path" in pseudo or b":authority" not in pseudo
        return b":scheme" not in pseudo or b":path" not in pseudo
    return kind == "reply" and b":status" not in pseudo


def is_informational(headers):
    status = dict(headers)[b":status"]
    return len(status) == 3 and status[:1] == b"1" and all(0x30 <= octet <= 0x39 for octet in status)


# ---- the connection (RFC 9113)


class Stream:
    def __init__(self, send_window):
        self.peer_ended = self.here_ended = self.begun = False
        self.send = send_window
        self.receive = FIRST_WINDOW


class Block:
    """A header block that is not whole."""

    def __init__(self, stream, end, wanted, octets):
        self.stream, self.end, self.wanted, self.octets, self.continued = stream, end, wanted, octets, 0


class Connection:
    def __init__(self, server):
        self.server = server
        self.unread = b""
        self.preface_left = PREFACE if server else b""
        self.first = True
        self.decoder, self.encoder = Decoder(), Encoder()
        self.streams = {}
        self.greatest = 0
        self.most = 2**32 - 1
        self.away = False
        self.initial = self.send = FIRST_WINDOW
        self.receive = SERVER_WINDOW if server else FIRST_WINDOW
        self.block = None
        self.broken = None
        self.output = b""
        if server:
            self.write(SETTINGS, 0, 0, bytes.fromhex("000300000040000600004000"))
            self.write(WINDOW_UPDATE, 0, 0, (SERVER_WINDOW - FIRST_WINDOW).to_bytes(4, "big"))
        else:
            self.output = PREFACE
            self.write(SETTINGS, 0, 0, bytes.fromhex("000200000000"))

    # -- what is put

    def write(self, kind, flags, stream, payload):
        self.output += len(payload).to_bytes(3, "big") + bytes([kind, flags]) + stream.to_bytes(4, "big") + payload

    def put(self, kind, flags, stream, payload):
        """Puts a frame, unless the connection has ended; whether it was put. One for which there is no room ends the connection."""
        if self.broken is not None:
            return False
        if len(self.output) + 9 + len(payload) + GOAWAY_OCTETS > MOST_UNSENT:
            self.break_with(ENHANCE_YOUR_CALM)
            return False
        self.write(kind, flags, stream, payload)
        return True

    def break_with(self, code):
        if self.broken is None:
            last = self.greatest if self.server else 0
            self.write(GOAWAY, 0, 0, last.to_bytes(4, "big") + code.to_bytes(4, "big"))
            self.broken = code
            self.streams = {}

    def put_reset(self, stream, code):
        if self.put(RST_STREAM, 0, stream, code.to_bytes(4, "big")):
            self.streams.pop(stream, None)

    def put_update(self, stream, octets):
        if self.put(WINDOW_UPDATE, 0, stream, octets.to_bytes(4, "big")) and stream == 0:
            self.receive = min(self.receive + octets, GREATEST_WINDOW)

    def return_octets(self, flow):
        if flow:
            self.put_update(0, flow)

    # -- what this end is asked to do

    def was_opened(self, stream):
        return stream % 2 == 1 and stream <= self.greatest

    def can_send(self, stream):
        return stream in self.streams and not self.streams[stream].here_ended

    def can_open(self):
        return not self.server and self.broken is None and self.greatest < GREATEST_WINDOW

    def open_call(self, headers):
        """The stream that is opened; None where as many are open as may be."""
        if len(self.streams) >= (0 if self.away else min(self.most, OPEN_STREAMS)):
            return None
        stream = self.greatest + 2 if self.greatest else 1
        if self.put(HEADERS, END_HEADERS, stream, self.encoder.block(headers)):
            self.greatest = stream
            self.streams[stream] = Stream(self.initial)
        return stream

    def head(self, stream, headers, end):
        if self.put(HEADERS, END_HEADERS | (END_STREAM if end else 0), stream, self.encoder.block(headers)) and end:
            self.end_here(stream)

    def poll_send(self, stream, count):
        """How many octets of so many zeros are put; 0 for Pending."""
        row = self.streams[stream]
        count = max(0, min(count, row.send, self.send, ROOM_FOR_DATA - len(self.output), LONGEST_PAYLOAD))
        if count:
            self.write(DATA, 0, stream, bytes(count))
            row.send -= count
            self.send -= count
        return count

    def finish(self, stream):
        if self.put(DATA, END_STREAM, stream, b""):
            self.end_here(stream)

    def give_back(self, stream, octets):
        if not self.server and stream in self.streams:
            self.put_update(stream, octets)
        self.put_update(0, octets)

    def end_here(self, stream):
        row = self.streams.get(stream)
        if row:
            row.here_ended = True
            if row.peer_ended:
                del self.streams[stream]

    def end_by_peer(self, stream):
        row = self.streams[stream]
        row.peer_ended = True
        if row.here_ended:
            del self.streams[stream]

    # -- what is read

    def feed(self, octets):
        """The events that these octets bring. An end that has ended with an error reads nothing more."""
        self.unread += octets
        events = []
        while self.broken is None:
            try:
                if not self.read_frame(events):
                    break
            except BrokenRule as error:
                self.break_with(error.code)
        return events

    def read_frame(self, events):
        """Reads the frame that stands next, where one does."""
        while self.preface_left and self.unread:
            if self.unread[0] != self.preface_left[0]:
                raise BrokenRule(PROTOCOL_ERROR)
            self.unread, self.preface_left = self.unread[1:], self.preface_left[1:]
        if len(self.unread) < 9:
            return False
        length, kind, flags = int.from_bytes(self.unread[:3], "big"), self.unread[3], self.unread[4]
        stream = int.from_bytes(self.unread[5:9], "big") % 2**31
        if length > LONGEST_PAYLOAD:
            raise BrokenRule(FRAME_SIZE_ERROR)
        if self.first and (kind != SETTINGS or flags & ACK):
            raise BrokenRule(PROTOCOL_ERROR)
        if (self.block is not None) != (kind == CONTINUATION) or (self.block is not None and self.block.stream != stream):
            raise BrokenRule(PROTOCOL_ERROR)
        if len(self.unread) < 9 + length:
            return False
        payload, self.unread = self.unread[9:9 + length], self.unread[9 + length:]
        self.first = False
        reader = {
            DATA: self.read_data, HEADERS: self.read_headers, PRIORITY: self.read_priority, RST_STREAM: self.read_reset,
            SETTINGS: self.read_settings, PUSH_PROMISE: self.read_push, PING: self.read_ping, GOAWAY: self.read_goaway,
            WINDOW_UPDATE: self.read_update, CONTINUATION: self.read_continuation,
        }.get(kind)
        if reader:
            reader(flags, stream, payload, events)
        return True

    def stream_error(self, stream, code, events, flow=0):
        events.append(f"reset {stream} {code}")
        self.put_reset(stream, code)
        self.return_octets(flow)

    def read_data(self, flags, stream, payload, events):
        require(stream != 0, PROTOCOL_ERROR)
        octets = payload
        if flags & PADDED:
            require(payload, FRAME_SIZE_ERROR)
            require(payload[0] < len(payload), PROTOCOL_ERROR)
            octets = payload[1:len(payload) - payload[0]]
        flow, end = len(payload), bool(flags & END_STREAM)
        require(self.was_opened(stream), PROTOCOL_ERROR)
        require(flow <= self.receive, FLOW_CONTROL_ERROR)
        row = self.streams.get(stream)
        self.receive -= flow
        if row is None:
            self.return_octets(flow)
        elif row.peer_ended:
            self.stream_error(stream, STREAM_CLOSED, events, flow)
        elif self.server and flow > row.receive:
            self.stream_error(stream, FLOW_CONTROL_ERROR, events, flow)
        else:
            if self.server:
                row.receive -= flow
            events.append(f"part {stream}{' end' if end else ''} {len(octets)} of {flow}")
            if end:
                self.end_by_peer(stream)

    def read_headers(self, flags, stream, payload, events):
        require(stream != 0, PROTOCOL_ERROR)
        octets, pad = payload, 0
        if flags & PADDED:
            require(octets, FRAME_SIZE_ERROR)
            pad, octets = octets[0], octets[1:]
        if flags & WITH_PRIORITY:
            require(len(octets) >= 5, FRAME_SIZE_ERROR)
            octets = octets[5:]
        require(pad <= len(octets), PROTOCOL_ERROR)
        octets = octets[:len(octets) - pad]
        require(stream % 2 == 1, PROTOCOL_ERROR)
        refusal = None
        if stream > self.greatest:
            require(self.server, PROTOCOL_ERROR)
            self.greatest = stream
            if len(self.streams) < OPEN_STREAMS:
                self.streams[stream] = Stream(self.initial)
            else:
                refusal = REFUSED_STREAM
        elif stream in self.streams and self.streams[stream].peer_ended:
            refusal = STREAM_CLOSED
        if refusal is not None:
            events.append(f"reset {stream} {refusal}")
        block = Block(stream, bool(flags & END_STREAM), refusal is None and stream in self.streams, octets)
        error = None
        try:
            self.gather(block, bool(flags & END_HEADERS), events)
        except BrokenRule as found:
            error = found
        if refusal is not None:
            self.put_reset(stream, refusal)
        if error:
            raise error

    def read_continuation(self, flags, stream, payload, events):
        block, self.block = self.block, None
        if block.continued == MOST_CONTINUATIONS:
            raise BrokenRule(ENHANCE_YOUR_CALM)
        block.octets += payload
        block.continued += 1
        self.gather(block, bool(flags & END_HEADERS), events)

    def gather(self, block, whole, events):
        if len(block.octets) > LONGEST_BLOCK:
            raise BrokenRule(ENHANCE_YOUR_CALM)
        if not whole:
            self.block = block
            return
        headers = self.decoder.block(block.octets)
        row = self.streams.get(block.stream)
        if not block.wanted or row is None:
            return
        if row.begun:
            fault = not block.end or is_malformed("trailers", headers)
        elif self.server:
            fault = is_malformed("request", headers)
        else:
            fault = is_malformed("reply", headers)
            if not fault and is_informational(headers):
                if not block.end:
                    return
                fault = True
        if fault:
            self.stream_error(block.stream, PROTOCOL_ERROR, events)
            return
        row.begun = True
        events.append(f"head {block.stream}{' end' if block.end else ''}" + "".join(f" {shown(name)}={shown(value)}" for name, value in headers))
        if block.end:
            self.end_by_peer(block.stream)

    def read_priority(self, flags, stream, payload, events):
        require(stream != 0, PROTOCOL_ERROR)
        require(len(payload) == 5, FRAME_SIZE_ERROR)

    def read_reset(self, flags, stream, payload, events):
        require(stream != 0, PROTOCOL_ERROR)
        require(len(payload) == 4, FRAME_SIZE_ERROR)
        require(self.was_opened(stream), PROTOCOL_ERROR)
        if stream in self.streams:
            del self.streams[stream]
            events.append(f"reset {stream} {int.from_bytes(payload, 'big')}")

    def read_settings(self, flags, stream, payload, events):
        require(stream == 0, PROTOCOL_ERROR)
        if flags & ACK:
            require(not payload, FRAME_SIZE_ERROR)
            return
        require(len(payload) % 6 == 0, FRAME_SIZE_ERROR)
        pairs = [(int.from_bytes(payload[at:at + 2], "big"), int.from_bytes(payload[at + 2:at + 6], "big")) for at in range(0, len(payload), 6)]
        require(all(value <= (1 if self.server else 0) for name, value in pairs if name == ENABLE_PUSH), PROTOCOL_ERROR)
        require(all(value <= GREATEST_WINDOW for name, value in pairs if name == INITIAL_WINDOW_SIZE), FLOW_CONTROL_ERROR)
        require(all(16_384 <= value <= 16_777_215 for name, value in pairs if name == MAX_FRAME_SIZE), PROTOCOL_ERROR)
        for name, value in pairs:
            if name == INITIAL_WINDOW_SIZE:
                more = value - self.initial
                require(all(row.send + more <= GREATEST_WINDOW for row in self.streams.values()), FLOW_CONTROL_ERROR)
                self.initial = value
                for row in self.streams.values():
                    row.send += more
            elif name == MAX_CONCURRENT_STREAMS:
                self.most = value
            elif name == HEADER_TABLE_SIZE:
                self.encoder.allow(value)
        self.put(SETTINGS, ACK, 0, b"")

    def read_push(self, flags, stream, payload, events):
        raise BrokenRule(PROTOCOL_ERROR)

    def read_ping(self, flags, stream, payload, events):
        require(stream == 0, PROTOCOL_ERROR)
        require(len(payload) == 8, FRAME_SIZE_ERROR)
        if not flags & ACK:
            self.put(PING, ACK, 0, payload)

    def read_goaway(self, flags, stream, payload, events):
        require(stream == 0, PROTOCOL_ERROR)
        require(len(payload) >= 8, FRAME_SIZE_ERROR)
        if not self.server:
            self.away = True

    def read_update(self, flags, stream, payload, events):
        require(len(payload) == 4, FRAME_SIZE_ERROR)
        increment = int.from_bytes(payload, "big") % 2**31
        if stream == 0:
            require(increment != 0, PROTOCOL_ERROR)
            require(self.send + increment <= GREATEST_WINDOW, FLOW_CONTROL_ERROR)
            self.send += increment
            return
        require(self.was_opened(stream), PROTOCOL_ERROR)
        row = self.streams.get(stream)
        if row is None:
            return
        if increment == 0:
            self.stream_error(stream, PROTOCOL_ERROR, events)
        elif row.send + increment > GREATEST_WINDOW:
            self.stream_error(stream, FLOW_CONTROL_ERROR, events)
        else:
            row.send += increment


def require(holds, code):
    if not holds:
        raise BrokenRule(code)


# ---- what is done with an end, word by word, and how it is written down

SHOWN = 64
LAST = 17


def shown(octets):
    return f"({len(octets)} octets)" if len(octets) > SHOWN else octets.decode("latin-1")


def octets_of(word):
    if word == "preface":
        return PREFACE
    if word == "settings":
        return bytes.fromhex("000000040000000000")
    digits, _, count = word.partition("*")
    return bytes.fromhex(digits) * int(count or 1)


class Session:
    """One case: an end, and a log of what happens on it."""

    def __init__(self, server, most_shown):
        self.conn = Connection(server)
        self.most_shown = most_shown
        self.next = 1
        self.log = ""

    def report(self, text):
        self.log += text + "; "

    def report_output(self):
        octets = self.conn.output
        if len(octets) <= self.most_shown:
            self.log += f"output {len(octets)} {octets.hex()}"
        else:
            self.log += f"output {len(octets)} .. {octets[len(octets) - LAST:].hex()}"

    def feed(self, octets):
        for event in self.conn.feed(octets):
            self.report(event)
        if self.conn.broken is not None and not self.log.endswith(f"broken {self.conn.broken}; "):
            self.report(f"broken {self.conn.broken}")

    def act(self, word):
        name, *numbers = word.split(":")
        stream, count = (int(number) for number in (numbers + ["0", "0"])[:2])
        conn = self.conn
        if name == "take":
            conn.output = b""
        elif name == "keep":
            self.report_output()
        elif name == "open":
            for _ in range(max(1, stream)):
                if not conn.can_open():
                    self.report("may not open")
                    continue
                opened = conn.open_call([(b":method", b"GET"), (b":scheme", b"http"), (b":path", b"/")])
                self.report("too many" if opened is None else f"opened {opened}")
        elif name == "head":
            if conn.can_send(stream):
                conn.head(stream, [(b":status", b"200")], count != 0)
            else:
                self.report("may not send")
        elif name == "send":
            self.send(stream, count)
        elif name == "finish":
            if conn.can_send(stream):
                conn.finish(stream)
            else:
                self.report("may not send")
        elif name == "reset":
            if conn.broken is None and conn.was_opened(stream):
                conn.put_reset(stream, count)
            else:
                self.report("may not reset")
        elif name == "back":
            if conn.broken is None and 0 < count <= SERVER_WINDOW:
                conn.give_back(stream, count)
            else:
                self.report("may not give back")
        elif name in ("visit", "fill"):
            events = 0
            for _ in range(stream):
                number = self.next.to_bytes(4, "big")
                self.next += 2
                events += len(conn.feed(bytes.fromhex("0000050104") + number + bytes.fromhex("838604012f")))
                if name == "visit":
                    events += len(conn.feed(bytes.fromhex("0000040300") + number + bytes(4)))
                else:
                    events += len(conn.feed(count.to_bytes(3, "big") + bytes(2) + number + bytes(count)))
            self.report(f"{events} events")
        else:
            self.feed(octets_of(word))

    def send(self, stream, count):
        sent = 0
        while sent < count:
            if self.conn.broken is not None or not self.conn.can_send(stream):
                return self.report("may not send")
            more = self.conn.poll_send(stream, count - sent)
            if not more:
                return self.report(f"sent {sent}, pending")
            sent += more
        return self.report(f"sent {sent}")


def answer(role, words, most_shown=SHOWN):
    """What happens where these words are done with an end."""
    server = role == "server"
    session = Session(server, most_shown)
    if words and words[0] == "new":
        words = words[1:]
    else:
        session.conn.output = b""
        for word in (["preface", "settings"] if server else ["settings"]):
            session.feed(octets_of(word))
        session.conn.output = b""
    for word in words:
        session.act(word)
    session.report_output()
    return session.log
