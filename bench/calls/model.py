#!/usr/bin/env python3
"""A model of the calls of `esi.cosim.ChannelServer` (docs/calls.md), apart from the repository's code.

    model.py CASES            writes the cases of crates/call_cases to CASES/stdin and their answers to CASES/stdout

It was written from the rules alone. Answers that were worked by hand are compared with it as it runs.
"""

import sys

SERVICE = "/esi.cosim.ChannelServer/"
HTTP, STATUS = "http", "status"


# ---- types and octets


def parse_type(text):
    ty, rest = type_at(text)
    assert rest == "", text
    return ty


def type_at(text):
    if text.startswith("void"):
        return ("void",), text[4:]
    if text.startswith("struct<"):
        fields, rest = [], text[7:]
        while True:
            _name, rest = rest.split(":", 1)
            field, rest = type_at(rest)
            fields.append(field)
            if rest[0] == ">":
                return ("struct", fields), rest[1:]
            assert rest[0] == ","
            rest = rest[1:]
    if text.startswith("array<"):
        item, rest = type_at(text[6:])
        assert rest[0] == ","
        count, rest = rest[1:].split(">", 1)
        return ("array", item, int(count)), rest
    assert text[:2] in ("ui", "si") or text[0] == "i", text
    start = 2 if text[:2] in ("ui", "si") else 1
    end = start
    while end < len(text) and text[end].isdigit():
        end += 1
    return ("bits", int(text[start:end])), text[end:]


def void_mask(ty):
    """The width of a type, and a number whose ones are the bits of its voids."""
    if ty[0] == "void":
        return 1, 1
    if ty[0] == "bits":
        return ty[1], 0
    if ty[0] == "struct":
        width, mask = 0, 0
        for field in ty[1]:  # the first field is the most significant
            w, m = void_mask(field)
            width, mask = width + w, mask << w | m
        return width, mask
    w, m = void_mask(ty[1])
    mask = 0
    for at in range(ty[2]):
        mask |= m << (w * at)
    return w * ty[2], mask


def is_value(octets, ty):
    width, mask = void_mask(ty)
    if len(octets) != (width + 7) // 8:
        return False
    number = int.from_bytes(octets, "little")
    return number >> width == 0 and number & mask == 0


# ---- messages


class Refused(Exception):
    pass


def varint(octets, at):
    value = 0
    for index in range(10):
        if at + index >= len(octets):
            raise Refused
        octet = octets[at + index]
        value |= (octet & 127) << (7 * index)
        if octet < 128:
            if value >= 1 << 64:
                raise Refused
            return value, at + index + 1
    raise Refused


def fields(octets):
    at = 0
    while at < len(octets):
        key, at = varint(octets, at)
        number, kind = key >> 3, key & 7
        if not 1 <= number < 1 << 29 or kind in (3, 4, 6, 7):
            raise Refused
        if kind == 0:
            value, at = varint(octets, at)
        else:
            size = {1: 8, 5: 4}.get(kind)
            if size is None:
                size, at = varint(octets, at)
            if at + size > len(octets):
                raise Refused
            value, at = octets[at : at + size], at + size
        yield number, kind, value


def text(value):
    try:
        value.decode("utf-8")
    except UnicodeDecodeError:
        raise Refused
    return value


def void_message(octets):
    for _ in fields(octets):
        pass


def addressed(octets):
    name, data = b"", b""
    for number, kind, value in fields(octets):
        if kind == 2 and number == 1:
            name = text(value)
        elif kind == 2 and number == 2:
            for inner, inner_kind, inner_value in fields(value):
                if inner == 1 and inner_kind == 2:
                    data = inner_value
    return name, data


def channel_name(octets):
    name = b""
    for number, kind, value in fields(octets):
        if kind == 2 and number == 1:
            name = text(value)
        elif kind == 2 and number == 3:
            text(value)
    return name


# ---- calls


class Design:
    def __init__(self, to_server, to_client):
        self.to_server, self.to_client = to_server, to_client

    def line(self):
        return "design " + " ".join(side_line(side) for side in (self.to_server, self.to_client))

    def find(self, name):
        for side, endpoints in (("server", self.to_server), ("client", self.to_client)):
            for index, (endpoint, _ty) in enumerate(endpoints):
                if endpoint.encode() == name:
                    return side, index
        return None


def side_line(side):
    return ";".join(f"{name}={ty}" for name, ty in side) or "-"


def classify(headers, body, design):
    if dict(reversed(headers)).get(":method") != "POST":
        return "http 405"
    types = [value for name, value in headers if name == "content-type"]
    if not types or not all(value.startswith("application/grpc") for value in types):
        return "http 415"
    path = dict(reversed(headers)).get(":path", "")
    procedure = path[len(SERVICE) :] if path.startswith(SERVICE) else ""
    if procedure not in ("GetManifest", "ListChannels", "SendToServer", "ConnectToClientChannel"):
        return "status 12"
    if procedure == "GetManifest":
        return "status 12"
    if len(body) < 5:
        return "status 3"
    if body[0] == 1:
        return "status 12"
    if body[0] > 1:
        return "status 3"
    message = body[5:]
    if int.from_bytes(body[1:5], "big") != len(message):
        return "status 3"
    try:
        if procedure == "ListChannels":
            void_message(message)
            return "list"
        if procedure == "SendToServer":
            name, data = addressed(message)
        else:
            name, data = channel_name(message), None
    except Refused:
        return "status 3"
    found = design.find(name)
    if found is None:
        return "status 5"
    side, index = found
    if side != ("server" if procedure == "SendToServer" else "client"):
        return "status 9"
    if procedure != "SendToServer":
        return f"attach {index}"
    if not is_value(data, parse_type(design.to_server[index][1])):
        return "status 3"
    return f"put {index} {data.hex()}"


# ---- what is written


def written_varint(value):
    out = bytearray()
    while value >= 128:
        out.append(128 | value & 127)
        value >>= 7
    out.append(value)
    return bytes(out)


def span(number, octets):
    return written_varint(number << 3 | 2) + written_varint(len(octets)) + octets


def prefix(message, flag=0, length=None):
    return bytes([flag]) + (len(message) if length is None else length).to_bytes(4, "big") + message


def send(name, data):
    return span(1, name.encode()) + span(2, span(1, data))


def spaced(ty):
    """The type's text with one space after a comma or a colon."""
    return ty.replace(",", ", ").replace(":", ": ")


def listing(design):
    out = b""
    for direction, side in ((0, design.to_server), (1, design.to_client)):
        for name, ty in side:
            desc = span(1, name.encode()) + (b"\x10\x01" if direction else b"") + span(3, spaced(ty).encode())
            out += span(1, desc)
    return prefix(out)


def reply(kind, status):
    begin = [(":status", "200"), ("content-type", "application/grpc")]
    trailers = [("grpc-status", str(status))]
    lists = {"http": [(":status", str(status))], "only": begin + trailers, "begin": begin, "trailers": trailers}
    return " ".join(f"{name}={value}" for name, value in lists[kind])


# ---- the cases


class Cases:
    def __init__(self):
        self.stdin, self.stdout, self.design = [], [], None

    def title(self, words):
        for out in (self.stdin, self.stdout):
            out.append(f"# {words}")

    def of(self, design):
        self.design = design
        for out in (self.stdin, self.stdout):
            out.append(design.line())

    def line(self, line, answer):
        self.stdin.append(line)
        self.stdout.append(f"{line} -> {answer}")

    def call(self, headers, body, by_hand=None):
        answer = classify(headers, body, self.design)
        assert by_hand is None or answer == by_hand, (headers, body, answer, by_hand)
        fields_line = " ".join(f"{name}={value}" for name, value in headers)
        self.line(f"call {fields_line} | {body.hex()}", answer)


def head(path, method="POST", content="application/grpc"):
    out = [(":method", method), (":scheme", "http"), (":path", SERVICE + path)]
    if content is not None:
        out.append(("content-type", content))
    return out + [("te", "trailers")]


SEND, ATTACH, LIST, MANIFEST = "SendToServer", "ConnectToClientChannel", "ListChannels", "GetManifest"


def all_cases():
    cases = Cases()
    pipe = Design([("in", "ui8")], [("out", "ui8")])
    adder = Design([("add[0].arg", "struct<a:ui8,b:ui8>")], [("add[0].result", "ui9")])
    none = bytes(5)

    cases.title("Examples worked by hand: a pipe of two stages")
    cases.of(pipe)
    cases.call(head(MANIFEST), none, "status 12")
    cases.call(head("Unknown"), none, "status 12")
    cases.call(head(LIST, content="text/html"), none, "http 415")
    cases.call(head(LIST), none, "list")
    cases.line("list", "00000000190a090a02696e1a037569380a0c0a036f757410011a03756938")
    assert listing(pipe).hex() == "00000000190a090a02696e1a037569380a0c0a036f757410011a03756938"
    cases.call(head(SEND), prefix(send("in", b"\x2a")), "put 0 2a")
    cases.call(head(ATTACH), prefix(span(1, b"out")), "attach 0")
    for kind, status in (("http", 405), ("http", 415), ("only", 12), ("only", 3), ("begin", None), ("trailers", 0)):
        cases.line(f"reply {kind}" + ("" if status is None else f" {status}"), reply(kind, status))

    cases.title("The adder: a struct of two octets")
    cases.of(adder)
    cases.call(head(SEND), bytes.fromhex("00000000120a0a6164645b305d2e61726712040a020503"), "put 0 0503")
    cases.line("list", listing(adder).hex())

    cases.title("Each rule alone")
    cases.of(pipe)
    whole = prefix(send("in", b"\x07"))
    cases.call(head(SEND, method="GET"), whole, "http 405")
    cases.call(head(SEND, method="post"), whole, "http 405")
    cases.call(head(SEND)[1:], whole, "http 405")
    cases.call(head(SEND, content=None), whole, "http 415")
    cases.call(head(SEND, content="application/grpcx"), whole, "put 0 07")
    cases.call(head(SEND, content="application/grpc+proto"), whole, "put 0 07")
    cases.call(head(SEND, content="application/grp"), whole, "http 415")
    cases.call(head(SEND, content="Application/grpc"), whole, "http 415")
    cases.call(head(SEND) + [("content-type", "text/html")], whole, "http 415")
    cases.call([("content-type", "text/html")] + head(SEND), whole, "http 415")
    cases.call(head(SEND) + [("content-type", "application/grpc+json")], whole, "put 0 07")
    cases.call([(":method", "POST"), ("content-type", "application/grpc")], whole, "status 12")
    for path in ("", "SendToServe", "SendToServer/", "sendtoserver", "ListChannels2"):
        cases.call(head(path), whole, "status 12")
    cases.call(head(MANIFEST), b"", "status 12")
    for length in range(6):
        cases.call(head(LIST), bytes(length), "status 3" if length != 5 else "list")
    for flag, answer in ((0, "list"), (1, "status 12"), (2, "status 3"), (255, "status 3")):
        cases.call(head(LIST), prefix(b"", flag=flag), answer)
    cases.call(head(SEND), prefix(send("in", b"\x07"), length=8), "status 3")
    cases.call(head(SEND), prefix(send("in", b"\x07"), length=10), "status 3")
    cases.call(head(LIST), prefix(b"", length=1 << 24), "status 3")
    cases.call(head(LIST), prefix(b"\x08"), "status 3")
    cases.call(head(LIST), prefix(b"\x08\x01"), "list")
    cases.call(head(SEND), prefix(b"\x0b"), "status 3")
    cases.call(head(SEND), prefix(b"\x0a\x01\xff"), "status 3")
    cases.call(head(ATTACH), prefix(span(1, b"out") + b"\x1a\x01\xff"), "status 3")
    cases.call(head(SEND), prefix(b""), "status 5")
    cases.call(head(SEND), prefix(send("inn", b"\x07")), "status 5")
    cases.call(head(ATTACH), prefix(span(1, b"zz")), "status 5")
    cases.call(head(SEND), prefix(send("out", b"\x07")), "status 9")
    cases.call(head(ATTACH), prefix(span(1, b"in")), "status 9")
    cases.call(head(SEND), prefix(send("in", b"")), "status 3")
    cases.call(head(SEND), prefix(send("in", b"\x07\x00")), "status 3")
    cases.call(head(SEND), prefix(span(1, b"in")), "status 3")
    cases.call(head(ATTACH), prefix(span(1, b"out") + b"\x10\x00" + span(3, b"anything")), "attach 0")
    cases.call(head(ATTACH), prefix(span(1, b"in") + span(1, b"out")), "attach 0")

    cases.title("Neighbouring rules, both broken: the first is told")
    broken_message = b"\x0b"
    pairs = [
        (head(SEND, method="GET", content="text/html"), whole, "http 405"),
        (head("Unknown", content="text/html"), whole, "http 415"),
        (head(MANIFEST, content="text/html"), none, "http 415"),
        (head("Unknown"), b"", "status 12"),
        (head(MANIFEST), b"", "status 12"),
        (head(SEND), b"\x01\x00\x00\x00", "status 3"),
        (head(SEND), prefix(send("in", b"\x07"), flag=1, length=3), "status 12"),
        (head(SEND), prefix(broken_message, flag=1), "status 12"),
        (head(SEND), prefix(send("zz", b"\x07"), flag=2), "status 3"),
        (head(SEND), prefix(send("zz", b"\x07"), flag=2, length=3), "status 3"),
        (head(SEND), prefix(send("zz", b"\x07"), length=3), "status 3"),
        (head(SEND), prefix(send("zz", b"\x07") + broken_message), "status 3"),
        (head(ATTACH), prefix(span(1, b"in") + broken_message), "status 3"),
        (head(SEND), prefix(send("zz", b"")), "status 5"),
        (head(SEND), prefix(send("out", b"")), "status 9"),
    ]
    for headers, body, answer in pairs:
        cases.call(headers, body, answer)

    cases.title("Octets that are no value of the channel's type, and those that are")
    types = ["ui9", "void", "ui1024", "struct<a:ui8,b:void>", "array<struct<x:i3,y:void>,3>", "array<void,2>", "si7"]
    wide = Design([(f"c{at}", ty) for at, ty in enumerate(types)], [("c0", "ui8"), ("back", "ui8")])
    cases.of(wide)
    cases.line("list", listing(wide).hex())
    tries = [b"", b"\x00", b"\x01", b"\x02", b"\x7f", b"\x80", b"\xff", b"\x00\x00", b"\x08\x00", b"\x08\x02", b"\xff\x01", b"\x00\x01"]
    tries += [b"\x66\x06", b"\x66\x0e", b"\x66\x16", b"\xee\x0e", b"\x77\x07", bytes(128), b"\xff" * 128, bytes(127), bytes(129)]
    for at in range(len(types)):
        for data in tries:
            cases.call(head(SEND), prefix(send(f"c{at}", data)))
    cases.call(head(ATTACH), prefix(span(1, b"c0")), "status 9")
    cases.call(head(ATTACH), prefix(span(1, b"back")), "attach 1")
    return cases


def main():
    folder = sys.argv[1]
    cases = all_cases()
    for name, lines in (("stdin", cases.stdin), ("stdout", cases.stdout)):
        with open(f"{folder}/{name}", "w", encoding="utf-8") as file:
            file.write("".join(line + "\n" for line in lines))
    print(len(cases.stdin), "lines")


if __name__ == "__main__":
    main()
