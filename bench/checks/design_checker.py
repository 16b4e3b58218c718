"""Reads a design text and checks it by the rules of docs/design-text.md, "Checks". It is written from that page alone, and
shares nothing with the compiler, so that each can be held against the other. It reads texts of the grammar only."""

import re

KEYWORDS = set(
    "esi pipe stages bundle service module top to_hw from_hw port in out request as implement inst chan drive stage buffer "
    "fifo map scan fork join as_fifo as_vr void struct array union".split())
OPERATORS = set("lit make cast zext slice not and or xor add sub eq lt cat mux".split())
TOKEN = re.compile(r"[ \t\r\n]+|//[^\n]*|(?P<word>[A-Za-z_][A-Za-z0-9_]*)|(?P<number>0x[0-9a-f]+|[0-9]+)|(?P<sign>[;:,.={}()<>\[\]])")
TYPE_WORD = re.compile(r"^(ui|si|i)([0-9]+)$")


class NoDesign(Exception):
    """The text is none of the grammar."""


class Broken(Exception):
    """A type does not fit at a place."""


# ---- types: ("ui", 8), ("void",), ("struct", ((name, type), ..)), ("array", type, count)

def width(ty):
    if ty[0] == "void":
        return 1
    if ty[0] == "struct":
        return sum(width(part) for _, part in ty[1])
    if ty[0] == "array":
        return width(ty[1]) * ty[2]
    return ty[1]


def nesting(ty):
    if ty[0] == "struct":
        return 1 + max(nesting(part) for _, part in ty[1])
    if ty[0] == "array":
        return 1 + nesting(ty[1])
    return 1


def is_bits(ty):
    return ty[0] in ("ui", "si", "i")


def has_void(ty):
    if ty[0] == "struct":
        return any(has_void(part) for _, part in ty[1])
    if ty[0] == "array":
        return has_void(ty[1])
    return ty[0] == "void"


# ---- the reader

def tokens_of(text):
    at = 0
    while at < len(text):
        match = TOKEN.match(text, at)
        if not match:
            raise NoDesign(at)
        if match.lastgroup:
            yield match.lastgroup, match.group(), at
        at = match.end()
    yield "end", "", at


class Reader:
    def __init__(self, text):
        self.tokens = list(tokens_of(text))
        self.next = 0

    def peek(self):
        return self.tokens[self.next][1]

    def at(self):
        return self.tokens[self.next][2]

    def take(self, *texts):
        kind, text, at = self.tokens[self.next]
        if texts and text not in texts:
            raise NoDesign(at)
        self.next += 1
        return text

    def name(self):
        kind, text, at = self.tokens[self.next]
        if kind != "word" or text in KEYWORDS or TYPE_WORD.match(text):
            raise NoDesign(at)
        self.next += 1
        return text, at

    def number(self):
        kind, text, at = self.tokens[self.next]
        if kind != "number":
            raise NoDesign(at)
        self.next += 1
        return int(text, 0), at

    def list_of(self, one, end):
        """Parts between commas, maybe none, up to the sign `end`."""
        parts = []
        if self.peek() != end:
            parts.append(one())
            while self.peek() == ",":
                self.take(",")
                parts.append(one())
        self.take(end)
        return parts

    def type(self):
        word, at = self.peek(), self.at()
        match = TYPE_WORD.match(word)
        if match:
            self.take()
            ty = (match.group(1), int(match.group(2)))
        elif word == "void":
            self.take()
            ty = ("void",)
        elif word == "struct":
            self.take()
            self.take("<")
            ty = ("struct", tuple(self.list_of(self.field, ">")))
            if len({name for name, _ in ty[1]}) != len(ty[1]) or not ty[1]:
                raise NoDesign(at)
        else:
            self.take("array")
            self.take("<")
            item = self.type()
            self.take(",")
            count, _ = self.number()
            self.take(">")
            ty = ("array", item, count)
        if not 1 <= width(ty) <= 1024 or nesting(ty) > 16:
            raise NoDesign(at)
        return ty

    def field(self):
        name, _ = self.name()
        self.take(":")
        return name, self.type()

    # an application id, as (name, number or None)
    def id(self):
        name, at = self.name()
        number = None
        if self.peek() == "[":
            self.take()
            number, _ = self.number()
            self.take("]")
        return (name, number), at

    # a reference, as (id or None, name, place of the first octet, place of the last name)
    def reference(self):
        whole, at = self.id()
        if whole[1] is None and self.peek() != ".":
            return None, whole[0], at, at
        self.take(".")
        name, place = self.name()
        return whole, name, at, place

    def expression(self):
        at = self.at()
        word = self.peek()
        if word in OPERATORS and self.tokens[self.next + 1][1] == "(":
            self.take()
            self.take("(")
            base = self.operator(word, at)
            self.take(")")
        else:
            base = ("variable", at, self.name()[0])
        while self.peek() in (".", "["):
            if self.take() == ".":
                base = ("field", at, base, self.name()[0])
            else:
                base = ("item", at, base, self.number()[0])
                self.take("]")
        return base

    def operator(self, word, at):
        def operand():
            self.take(",")
            return self.expression()
        if word == "lit":
            ty = self.type()
            self.take(",")
            return word, at, ty, self.number()[0]
        if word == "make":
            ty = self.type()
            parts = []
            while self.peek() == ",":
                parts.append(operand())
            return word, at, ty, parts
        if word == "cast":
            ty = self.type()
            return word, at, ty, operand()
        if word == "zext":
            number, _ = self.number()
            return word, at, number, operand()
        if word == "slice":
            high, _ = self.number()
            self.take(",")
            low, _ = self.number()
            return word, at, high, low, operand()
        if word == "not":
            return word, at, self.expression()
        if word == "mux":
            return word, at, self.expression(), operand(), operand()
        return word, at, self.expression(), operand()

    def binding(self):
        name, at = self.name()
        self.take(":")
        return name, at, self.reference()

    def operation(self):
        word = self.take("stage", "fork", "as_fifo", "as_vr", "buffer", "fifo", "join", "map", "scan")
        op = {"op": word}
        if word in ("buffer", "fifo"):
            op["number"] = self.number()
        op["sources"] = [self.reference()]
        if word == "join":
            self.take(",")
            op["sources"].append(self.reference())
        if word == "map":
            self.take("(")
            op["variable"] = self.name()
            self.take(")")
            op["body"] = self.expression()
        if word == "scan":
            self.take("(")
            op["state"] = self.name()
            self.take(":")
            op["type"] = self.type()
            self.take("=")
            op["initial"] = self.number()[0]
            self.take(",")
            op["variable"] = self.name()
            self.take(")")
            op["body"] = self.expression()
        return op

    def statement(self):
        at = self.at()
        word = self.take("request", "inst", "chan", "drive")
        if word == "request":
            service = self.name()
            self.take(".")
            port = self.name()
            self.take("as")
            made = {"kind": word, "at": at, "service": service, "port": port, "id": self.id()}
        elif word == "inst":
            whole = self.id()
            self.take("=")
            module = self.name()
            self.take("(")
            made = {"kind": word, "at": at, "id": whole, "module": module, "bindings": self.list_of(self.binding, ")")}
        elif word == "chan":
            names = [self.name()]
            while self.peek() == ",":
                self.take()
                names.append(self.name())
            self.take("=")
            made = {"kind": word, "at": at, "names": names, **self.operation()}
        else:
            sink = self.reference()
            self.take("=")
            made = {"kind": word, "at": at, "sink": sink, "source": self.reference()}
        self.take(";")
        return made

    def module_port(self):
        way = self.take("in", "out")
        name = self.name()
        self.take(":")
        return {"way": way, "name": name, "type": self.type()}

    def design(self):
        self.take("esi")
        if self.number()[0] != 1:
            raise NoDesign(self.at())
        self.take(";")
        if self.peek() == "pipe":
            self.take()
            self.type()
            self.take("stages")
            stages = self.number()
            self.take(";")
            self.take("")
            return {"pipe": stages}
        design = {"pipe": None, "items": [], "bodies": []}
        while self.peek() != "top":
            design["items"].append(self.declaration())
        self.take("top")
        name = self.name()
        self.take("{")
        statements, implements = [], []
        while self.peek() != "}":
            if self.peek() == "implement":
                self.take()
                implements.append(self.name())
                self.take(";")
            else:
                statements.append(self.statement())
        self.take("}")
        self.take("")
        design["top"] = {"kind": "top", "name": name, "ports": [], "statements": statements, "implements": implements}
        return design

    def declaration(self):
        kind = self.take("bundle", "service", "module")
        name = self.name()
        parts = []
        if kind == "module":
            self.take("(")
            ports = self.list_of(self.module_port, ")")
            self.take("{")
            while self.peek() != "}":
                parts.append(self.statement())
            self.take("}")
            return {"kind": kind, "name": name, "ports": ports, "statements": parts, "implements": []}
        self.take("{")
        while self.peek() != "}" or not parts:
            if kind == "bundle":
                member = self.name()
                self.take(":")
                way = self.take("to_hw", "from_hw")
                parts.append({"name": member, "way": way, "type": self.type()})
            else:
                self.take("port")
                port = self.name()
                self.take(":")
                parts.append({"name": port, "bundle": self.name()})
            self.take(";")
        self.take("}")
        return {"kind": kind, "name": name, "parts": parts}


# ---- what names stand for

def found(things, name):
    for thing in things:
        if thing["name"][0] == name:
            return thing
    return None


class Body:
    """A body, with what can be named in it."""

    def __init__(self, design, body, modules):
        self.ports, self.statements, self.implements = body["ports"], body["statements"], body["implements"]
        self.modules = modules
        self.bundles = [i for i in design["items"] if i["kind"] == "bundle"]
        self.services = [i for i in design["items"] if i["kind"] == "service"]

    def bundle(self, request):
        service = found(self.services, request["service"][0])
        port = service and found(service["parts"], request["port"][0])
        return port and found(self.bundles, port["bundle"][0])

    def owner(self, whole):
        for s in self.statements:
            if s["kind"] in ("request", "inst") and s["id"][0] == whole:
                return s
        return None

    def look_up(self, reference):
        """The kind and the type of what is referred to; or the place of what is not declared; or None where nothing is said."""
        whole, name, at, place = reference
        if whole is None:
            port = found(self.ports, name)
            if port:
                return port["way"] + " port", port["type"]
            for s in self.statements:
                if s["kind"] == "chan" and name in [n for n, _ in s["names"]]:
                    return "channel", None
            return at
        owner = self.owner(whole)
        if not owner:
            return at
        if owner["kind"] == "request":
            bundle = self.bundle(owner)
            if not bundle:
                return None
            member = found(bundle["parts"], name)
            return (member["way"] + " member", member["type"]) if member else place
        module = found(self.modules, owner["module"][0])
        if not module:
            return None
        port = found(module["ports"], name)
        return ("instance's " + port["way"] + " port", port["type"]) if port else place

    def kind(self, reference):
        looked = self.look_up(reference)
        return looked[0] if isinstance(looked, tuple) else None

    def elements(self):
        return [s for s in self.statements if s["kind"] in ("chan", "inst")]


SOURCES = ("in port", "channel", "to_hw member", "instance's out port")
SINKS = ("from_hw member", "out port")


def sources(s):
    if s["kind"] == "chan":
        return s["sources"]
    if s["kind"] == "inst":
        return [r for _, _, r in s["bindings"]]
    if s["kind"] == "drive":
        return [s["source"]]
    return []


def uses(s):
    return [s["sink"], s["source"]] if s["kind"] == "drive" else sources(s)


def thing(reference):
    return reference[0], reference[1]


def bodies_of(design):
    bodies, modules = [], []
    for item in design["items"]:
        if item["kind"] == "module":
            bodies.append(Body(design, item, list(modules)))
            modules.append(item)
    bodies.append(Body(design, design["top"], modules))
    return bodies


# ---- the rules; each gives the place that is reported, or None

def seconds(names):
    """The places of names that stood before."""
    seen = set()
    for name, at in names:
        if name in seen:
            yield at
        seen.add(name)


def first(places):
    return min(places, default=None)


def declared_twice(design, bodies):
    spaces = [[i["name"] for i in design["items"]]]
    spaces += [[p["name"] for p in i["parts"]] for i in design["items"] if i["kind"] != "module"]
    for b in bodies:
        channels = [n for s in b.statements if s["kind"] == "chan" for n in s["names"]]
        spaces.append([p["name"] for p in b.ports] + channels)
        spaces.append([s["id"] for s in b.statements if "id" in s])
        spaces.append(b.implements)
        spaces += [[s["state"], s["variable"]] for s in b.statements if s.get("op") == "scan"]
    return first(at for space in spaces for at in seconds(space))


def expression_names(e, known):
    if e[0] == "variable":
        if e[2] not in known:
            yield e[1]
    for part in e[2:]:
        if isinstance(part, list):
            for one in part:
                yield from expression_names(one, known)
        elif isinstance(part, tuple) and len(part) > 1 and part[0] in NODES:
            yield from expression_names(part, known)


NODES = OPERATORS | {"variable", "field", "item"}


def not_declared(design, bodies):
    places = []
    bundles, services = bodies[-1].bundles, bodies[-1].services

    def look(things, name):
        there = found(things, name[0])
        if not there:
            places.append(name[1])
        return there
    for service in services:
        for port in service["parts"]:
            look(bundles, port["bundle"])
    for b in bodies:
        for name in b.implements:
            look(services, name)
        for s in b.statements:
            if s["kind"] == "request":
                service = look(services, s["service"])
                if service:
                    look(service["parts"], s["port"])
            if s["kind"] == "inst":
                module = look(b.modules, s["module"])
                for port, at, _ in s["bindings"]:
                    if module:
                        look(module["ports"], (port, at))
            for r in uses(s):
                looked = b.look_up(r)
                if isinstance(looked, int):
                    places.append(looked)
            if s.get("op") in ("map", "scan"):
                known = {s["variable"][0]} | ({s["state"][0]} if s["op"] == "scan" else set())
                places += expression_names(s["body"], known)
    return first(places)


def count_out_of_range(design, bodies):
    places = []
    for b in bodies:
        for s in b.statements:
            if s["kind"] != "chan":
                continue
            low, high = (2, 8) if s["op"] == "fork" else (1, 1)
            if not low <= len(s["names"]) <= high:
                places.append(s["at"])
            if s["op"] in ("buffer", "fifo"):
                low = 1 if s["op"] == "buffer" else 2
                if not low <= s["number"][0] <= 64:
                    places.append(s["number"][1])
    return first(places)


def wrong_direction(design, bodies):
    places = []
    for b in bodies:
        for s in b.statements:
            places += [r[2] for r in sources(s) if b.kind(r) not in SOURCES]
            if s["kind"] == "drive" and b.kind(s["sink"]) not in SINKS:
                places.append(s["sink"][2])
            if s["kind"] == "inst":
                module = found(b.modules, s["module"][0])
                places += [r[2] for port, _, r in s["bindings"] if found(module["ports"], port)["way"] == "out"]
    return first(places)


def used_twice(design, bodies):
    places = []
    for b in bodies:
        places += seconds([(thing(r), r[2]) for s in b.statements for r in uses(s)])
        for s in b.statements:
            if s["kind"] == "inst":
                places += seconds([(port, at) for port, at, _ in s["bindings"]])
    return first(places)


def unused(design, bodies):
    places = []
    for b in bodies:
        used = {thing(r) for s in b.statements for r in uses(s)}
        places += [p["name"][1] for p in b.ports if (None, p["name"][0]) not in used]
        for s in b.statements:
            if s["kind"] == "chan":
                places += [at for name, at in s["names"] if (None, name) not in used]
            if s["kind"] == "request":
                places += [s["at"] for m in b.bundle(s)["parts"] if (s["id"][0], m["name"][0]) not in used]
            if s["kind"] == "inst":
                bound = {port for port, _, _ in s["bindings"]}
                for port in found(b.modules, s["module"][0])["ports"]:
                    if port["way"] == "out" and (s["id"][0], port["name"][0]) not in used:
                        places.append(s["at"])
                    if port["way"] == "in" and port["name"][0] not in bound:
                        places.append(s["at"])
    return first(places)


def made_by(b):
    """For what an element makes, its number."""
    makers = {}
    for number, s in enumerate(b.elements()):
        if s["kind"] == "chan":
            makers.update(((None, name), number) for name, _ in s["names"])
        else:
            for port in found(b.modules, s["module"][0])["ports"]:
                makers[s["id"][0], port["name"][0]] = number
    return makers


def needs_of(b):
    makers = made_by(b)
    return [{makers[thing(r)] for r in sources(s) if thing(r) in makers} for s in b.elements()]


def depends_on_itself(design, bodies):
    places = []
    for b in bodies:
        needs = needs_of(b)
        for number, s in enumerate(b.elements()):
            reached, waiting = set(), [number]
            while waiting:
                for other in needs[waiting.pop()] - reached:
                    reached.add(other)
                    waiting.append(other)
            if number in reached:
                places.append(s["at"])
    return first(places)


def in_order(b):
    """The elements in element order, then the drives."""
    needs, elements, placed = needs_of(b), b.elements(), []
    while len(placed) < len(elements):
        ready = [n for n in range(len(elements)) if n not in placed and needs[n] <= set(placed)]
        placed.append(ready[0])
    return [elements[n] for n in placed] + [s for s in b.statements if s["kind"] == "drive"]


def wrong_signalling(design, bodies):
    for b in bodies:
        fifos = {(None, n) for s in b.statements if s.get("op") in ("fifo", "as_fifo") for n, _ in s["names"]}
        for s in in_order(b):
            for r in sources(s):
                if (thing(r) in fifos) != (s.get("op") == "as_vr"):
                    return r[2]
    return None


def fits(ty, number):
    return number == 0 if ty[0] == "void" else is_bits(ty) and number < 2 ** ty[1]


def type_of(e, known):
    word, at = e[0], e[1]

    def must(holds):
        if not holds:
            raise Broken(at)
    if word == "variable":
        return known[e[2]]
    if word in ("field", "item"):
        ty = type_of(e[2], known)
        if word == "field":
            must(ty[0] == "struct" and e[3] in dict(ty[1]))
            return dict(ty[1])[e[3]]
        must(ty[0] == "array" and e[3] < ty[2])
        return ty[1]
    if word == "lit":
        must(fits(e[2], e[3]))
        return e[2]
    if word == "make":
        ty, parts = e[2], [type_of(part, known) for part in e[3]]
        must(ty[0] in ("struct", "array"))
        wanted = [part for _, part in ty[1]] if ty[0] == "struct" else [ty[1]] * ty[2]
        must(parts == wanted)
        return ty
    if word == "cast":
        of = type_of(e[3], known)
        must(width(of) == width(e[2]) and not has_void(e[2]))
        return e[2]
    if word == "zext":
        of = type_of(e[3], known)
        must(of[0] in ("ui", "i") and of[1] <= e[2] <= 1024)
        return of[0], e[2]
    if word == "slice":
        of = type_of(e[4], known)
        must(e[3] <= e[2] < width(of))
        return "i", e[2] - e[3] + 1
    operands = [type_of(operand, known) for operand in e[2:]]
    a = operands[0]
    if word == "not":
        must(is_bits(a))
        return a
    if word == "mux":
        must(a in (("ui", 1), ("i", 1)) and operands[1] == operands[2])
        return operands[1]
    b = operands[1]
    if word == "cat":
        must(width(a) + width(b) <= 1024)
        return "i", width(a) + width(b)
    must(a == b)
    if word == "eq":
        return "ui", 1
    must(is_bits(a))
    if word == "lt":
        must(a[0] == "ui" and a[1] <= 64)
        return "ui", 1
    if word in ("add", "sub"):
        must(a[0] in ("ui", "si") and a[1] <= 64)
    return a


def first_octet(e):
    return e[1]


def made_type(s, taken):
    """The type of the channels of a statement, from those of its sources."""
    if s["op"] == "join":
        ty = ("struct", (("l", taken[0]), ("r", taken[1])))
        if width(ty) > 1024 or nesting(ty) > 16:
            raise Broken(s["sources"][0][2])
        return ty
    if s["op"] == "map":
        return type_of(s["body"], {s["variable"][0]: taken[0]})
    if s["op"] == "scan":
        state = s["type"]
        if not fits(state, s["initial"]):
            raise Broken(first_octet(s["body"]))
        if type_of(s["body"], {s["variable"][0]: taken[0], s["state"][0]: state}) != state:
            raise Broken(first_octet(s["body"]))
        return state
    return taken[0]


def wrong_type(design, bodies):
    for b in bodies:
        types = {}

        def type_at(r):
            return types[thing(r)] if thing(r) in types else b.look_up(r)[1]
        try:
            for s in in_order(b):
                if s["kind"] == "chan":
                    made = made_type(s, [type_at(r) for r in s["sources"]])
                    types.update(((None, name), made) for name, _ in s["names"])
                elif s["kind"] == "inst":
                    module = found(b.modules, s["module"][0])
                    for port, _, r in s["bindings"]:
                        if type_at(r) != found(module["ports"], port)["type"]:
                            raise Broken(r[2])
                elif type_at(s["source"]) != type_at(s["sink"]):
                    raise Broken(s["source"][2])
        except Broken as broken:
            return broken.args[0]
    return None


def totals(bodies):
    """Size, endpoints to the server and to the client of the top."""
    known = {}
    for b in bodies:
        size = to_server = to_client = 0
        for s in b.statements:
            if s["kind"] == "chan":
                size += s["number"][0] if s["op"] == "buffer" else 1
            if s["kind"] == "request":
                size += 1
                ways = [m["way"] for m in b.bundle(s)["parts"]]
                to_server += ways.count("to_hw")
                to_client += ways.count("from_hw")
            if s["kind"] == "inst":
                more = known[s["module"][0]]
                size, to_server, to_client = size + 1 + more[0], to_server + more[1], to_client + more[2]
        known[len(known)] = (size, to_server, to_client)
        modules = bodies[-1].modules
        if len(known) and b is not bodies[-1]:
            known[modules[bodies.index(b)]["name"][0]] = (size, to_server, to_client)
    return size, to_server, to_client


def too_much(part, limit):
    def rule(design, bodies):
        return design["top"]["name"][1] if totals(bodies)[part] > limit else None
    return rule


RULES = [
    (302, declared_twice), (301, not_declared), (312, count_out_of_range), (306, wrong_direction), (305, used_twice), (304, unused),
    (307, depends_on_itself), (308, wrong_signalling), (303, wrong_type), (309, too_much(0, 1024)), (310, too_much(1, 32)),
    (311, too_much(2, 32))]


def line_and_column(text, at):
    before = text[:at]
    return before.count("\n") + 1, at - (before.rfind("\n") + 1) + 1


def answer(text):
    """`accepted`, or `refused NUMBER LINE:COLUMN`."""
    design = Reader(text).design()
    if design["pipe"]:
        broken = None if 1 <= design["pipe"][0] <= 64 else (312, design["pipe"][1])
    else:
        bodies, broken = bodies_of(design), None
        for number, rule in RULES:
            at = rule(design, bodies)
            if at is not None:
                broken = number, at
                break
    if not broken:
        return "accepted"
    line, column = line_and_column(text, broken[1])
    return f"refused {broken[0]} {line}:{column}"
