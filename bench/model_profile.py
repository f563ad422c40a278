"""The profile's text once more, slowly and plainly: a profile of it, or the first fault with its line.

The rules are those of docs/PROFILE.md. `read_profile` answers a `Profile` or raises `Fault`.
"""

from math import gcd

SECOND = 10**9
MOST_RATE, MOST = 12_500_000_000, 2**40
NOT_TEXT, BAD_LINE, UNKNOWN_KEY, BAD_NUMBER, OUT_OF_RANGE, TWICE, MISSING, NO_SUCH_NAME, TOO_LARGE = range(1, 10)
COLOURS = ("green", "yellow", "red")
NAME_CHARACTERS = set("abcdefghijklmnopqrstuvwxyz0123456789_")


class Fault(Exception):
    """The first fault of a text: its line, or 0 for the whole, and its number."""

    def __init__(self, line, kind):
        super().__init__(line, kind)
        self.line, self.kind = line, kind


class Wrong(Exception):
    """A fault of the words of a line, by its number."""


# ---- words and numbers

def number(word):
    if not (1 <= len(word) <= 20 and all(c in "0123456789" for c in word)) or int(word) >= 2**64:
        raise Wrong(BAD_NUMBER)
    return int(word)


def within(least, most):
    """A value that is one number of a range."""
    def value(words):
        if len(words) != 1:
            raise Wrong(BAD_NUMBER)
        got = number(words[0])
        if not least <= got <= most:
            raise Wrong(OUT_OF_RANGE)
        return got
    return value


ANY_NUMBER = within(0, 2**64)


def numbers(count, least, most):
    def value(words):
        got = [number(word) for word in words]
        if len(got) != count:
            raise Wrong(BAD_NUMBER)
        if not all(least <= one <= most for one in got):
            raise Wrong(OUT_OF_RANGE)
        return got
    return value


def one_of(*choices):
    def value(words):
        if len(words) != 1 or words[0] not in choices:
            raise Wrong(BAD_NUMBER)
        return words[0]
    return value


def or_word(value, *choices):
    def either(words):
        return words[0] if len(words) == 1 and words[0] in choices else value(words)
    return either


def entry(words):
    """C Q COLOUR: class, queue and colour."""
    if len(words) != 3 or words[2] not in COLOURS:
        raise Wrong(BAD_NUMBER)
    traffic_class, queue = number(words[0]), number(words[1])
    if traffic_class > 12 or queue > (3 if traffic_class == 12 else 0):
        raise Wrong(OUT_OF_RANGE)
    return traffic_class, queue, words[2]


def code(words):
    if words == ["dscp"]:
        return "dscp"
    if words[:1] != ["fixed"]:
        raise Wrong(BAD_NUMBER)
    return entry(words[1:])


def prefix(words):
    """a.b.c.d/n: the address's first n bits, and n."""
    if len(words) != 1 or words[0].count("/") != 1:
        raise Wrong(BAD_NUMBER)
    address, bits = words[0].split("/")
    octets, bits = [number(octet) for octet in address.split(".")], number(bits)
    if len(octets) != 4:
        raise Wrong(BAD_NUMBER)
    if bits > 32 or max(octets) > 255:
        raise Wrong(OUT_OF_RANGE)
    return int.from_bytes(bytes(octets), "big") >> (32 - bits), bits


def name(words):
    if len(words) != 1 or not 1 <= len(words[0]) <= 32 or not set(words[0]) <= NAME_CHARACTERS:
        raise Wrong(BAD_NUMBER)
    return words[0]


def stretch(word, most=None):
    """A or A-B: the first number and the last."""
    ends = [number(end) for end in word.split("-")]
    if len(ends) > 2:
        raise Wrong(BAD_NUMBER)
    first, last = ends[0], ends[-1]
    if first > last or (most is not None and last > most):
        raise Wrong(OUT_OF_RANGE)
    return first, last


# ---- the keys of each kind of section: the value, and its default, or REQUIRED

REQUIRED = object()
POOL = {
    "slots": (within(1, 1_048_576), 65_536),
    "slot bytes": (within(64, 262_144), 2_048),
    "ring size": (within(1, 65_536), 8_192),
}
PORT = {
    "line rate": (within(1_000_000, MOST_RATE), REQUIRED),
    "subports": (within(1, 8), REQUIRED),
    "frame overhead": (within(0, 255), 24),
    "mtu": (within(60, 262_144), 1_522),
    "burst": (within(1, 256), 32),
    "quantum": (within(1, 1_000_000_000), 65_536),
    "drain": (within(0, MOST), None),
    "drain ms": (within(0, 100_000), None),
}
SHAPING = {"tb size": within(1, MOST), "tc period": ANY_NUMBER}
RATE_FORM = {"tb rate": within(1, MOST_RATE)}
WHOLE_FORM = {"tb credits": within(1, MOST), "tb period": within(1, MOST)}
PIPE_PROFILE = {
    "tc 12 wrr weights": (numbers(4, 1, 255), [1, 1, 1, 1]),
    "tc 12 oversubscription weight": (within(1, 255), 1),
}
SUBPORT = {
    "profile": (ANY_NUMBER, REQUIRED),
    "pipes": (within(1, 4_096), REQUIRED),
    "queue sizes": (numbers(13, 0, 65_536), REQUIRED),
    "oversubscription": (one_of("yes", "no"), "no"),
}
RULE = {
    "input": (or_word(within(0, 15), "any"), "any"),
    "vlan": (or_word(within(0, 4_095), "none", "any"), "any"),
    "proto": (one_of("ipv4", "ipv6", "mpls", "other", "any"), "any"),
    "src": (or_word(prefix, "any"), "any"),
    "dst": (or_word(prefix, "any"), "any"),
    "port": (ANY_NUMBER, REQUIRED),
    "subport": (ANY_NUMBER, REQUIRED),
    "pipe": (or_word(ANY_NUMBER, "vlan", "host"), REQUIRED),
    "code": (code, REQUIRED),
    "meter": (name, None),
}
KIND = one_of("srtcm", "trtcm", "rfc4115")
METER_RATES = {"srtcm": ("cir",), "trtcm": ("cir", "pir"), "rfc4115": ("cir", "eir")}
METER_SIZES = {"srtcm": ("cbs", "ebs"), "trtcm": ("cbs", "pbs"), "rfc4115": ("cbs", "ebs")}


class Section:
    """A section's head, line, and what its lines gave: by key, and by class or pipe in `many`."""

    def __init__(self, kind, head, line):
        self.kind, self.head, self.line = kind, head, line
        self.given, self.lines, self.many, self.form, self.first = {}, {}, [], None, True

    def read(self, line, key, words):
        """A key line: what it gives is kept; the least of its faults is raised."""
        value, label, span = self.known(key)
        faults, got = [], None
        try:
            got = value(words)
        except Wrong as wrong:
            faults.append(wrong.args[0])
        if span is not None:
            try:
                span = stretch(span, 12 if self.kind in ("subport profile", "pipe profile") else None)
                if any(first <= span[1] and span[0] <= last for first, last, _, _ in self.many):
                    faults.append(TWICE)
            except Wrong as wrong:
                faults.append(wrong.args[0])
        elif self.is_taken(label):
            faults.append(TWICE)
        if faults:
            raise Wrong(min(faults))
        if span is None:
            self.given[label], self.lines[label] = got, line
        else:
            self.many.append((*span, got, line))
        self.first = False

    def is_taken(self, label):
        pair = {"drain": ["drain ms"], "drain ms": ["drain"]}.get(label, [])
        if self.kind == "meter" and label[1:] == "ir rate":
            pair = [label[:3] + " bytes", label[:3] + " period"]
        elif self.kind == "meter" and label[1:] in ("ir bytes", "ir period"):
            pair = [label[:3] + " rate"]
        return any(other in self.given for other in [label, *pair])

    def known(self, key):
        """The value that a key takes, the key as it is kept, and its stretch of classes or pipes, if any."""
        text = " ".join(key)
        tables = {"pool": POOL, "port": PORT, "subport": SUBPORT, "rule": RULE, "pipe profile": PIPE_PROFILE}
        if text in tables.get(self.kind, {}):
            return tables[self.kind][text][0], text, None
        if self.kind in ("subport profile", "pipe profile"):
            return self.known_shaping(key, text)
        if self.kind == "subport" and len(key) == 2 and key[0] == "pipe":
            return ANY_NUMBER, text, key[1]
        if self.kind == "codes" and len(key) == 1:
            code_point = number(key[0]) if self.is_number(key[0]) else None
            return self.coded(code_point), code_point, None
        if self.kind == "meter":
            return self.known_meter(text)
        raise Wrong(UNKNOWN_KEY)

    @staticmethod
    def is_number(word):
        try:
            return number(word) >= 0
        except Wrong:
            return False

    @staticmethod
    def coded(code_point):
        def value(words):
            faults = [BAD_NUMBER] if code_point is None else [OUT_OF_RANGE] if code_point > 63 else []
            try:
                got = entry(words)
            except Wrong as wrong:
                faults.append(wrong.args[0])
            if faults:
                raise Wrong(min(faults))
            return got
        return value

    def known_shaping(self, key, text):
        if text in SHAPING:
            return SHAPING[text], text, None
        ending = key[2] if len(key) == 3 and key[0] == "tc" else None
        form = "rate" if text in RATE_FORM or ending == "rate" else "whole" if text in WHOLE_FORM or ending == "credits" else None
        if form is None or self.form not in (None, form):
            raise Wrong(UNKNOWN_KEY)
        self.form = form
        if ending:
            return within(0, MOST_RATE if form == "rate" else MOST), text, key[1]
        return {**RATE_FORM, **WHOLE_FORM}[text], text, None

    def known_meter(self, text):
        if self.first and text != "kind":
            raise Wrong(BAD_LINE)
        kind = self.given.get("kind")
        if text == "kind":
            return KIND, text, None
        if text == "mode":
            return one_of("blind", "aware"), text, None
        if text in COLOURS:
            return one_of("pass", "drop"), text, None
        if text in METER_SIZES[kind]:
            return within(0, MOST), text, None
        if text[:3] in METER_RATES[kind] and text[3:] in (" rate", " bytes", " period"):
            least, most = {" rate": (0, MOST_RATE), " bytes": (0, MOST), " period": (1, MOST)}[text[3:]]
            return within(least, most), text, None
        raise Wrong(UNKNOWN_KEY)

    def lacks(self):
        """Whether a required key, class or pipe isn't there."""
        given = self.given
        tables = {"port": PORT, "subport": SUBPORT, "rule": RULE}
        if any(key not in given for key, (_, default) in tables.get(self.kind, {}).items() if default is REQUIRED):
            return True
        if self.kind == "subport":
            return self.covered(given["pipes"]) < given["pipes"]
        if self.kind in ("subport profile", "pipe profile"):
            own = RATE_FORM if self.form == "rate" else WHOLE_FORM
            return any(key not in given for key in [*SHAPING, *own]) or self.covered(13) < 13
        if self.kind == "meter":
            kind = given.get("kind")
            return kind is None or any(size not in given for size in METER_SIZES[kind]) or any(
                rate + " rate" not in given and not {rate + " bytes", rate + " period"} <= set(given) for rate in METER_RATES[kind])
        return False

    def covered(self, count):
        return sum(max(0, min(last, count - 1) - first + 1) for first, last, _, _ in self.many)

    def each(self, count):
        """What was given to each number below `count`."""
        row = [None] * count
        for first, last, value, _ in self.many:
            for place in range(first, min(last, count - 1) + 1):
                row[place] = value
        return row

    def meter_rate(self, which):
        """A meter's rate: bytes, and the nanoseconds in which they come."""
        if which + " rate" not in self.given:
            return self.given[which + " bytes"], self.given[which + " period"]
        rate = self.given[which + " rate"]
        common = gcd(rate, SECOND)
        return (rate // common, SECOND // common) if rate else (0, 1)

    def is_across(self):
        """Whether a range across its keys is broken."""
        given = self.given
        if self.kind in ("subport profile", "pipe profile"):
            return not 1 <= given["tc period"] <= (10_000 if self.form == "rate" else MOST)
        if self.kind == "meter" and given["kind"] == "srtcm":
            return given["cbs"] == 0 and given["ebs"] == 0
        if self.kind == "meter" and given["kind"] == "trtcm":
            (committed, its_time), (peak, peak_time) = self.meter_rate("cir"), self.meter_rate("pir")
            return given["cbs"] == 0 or given["pbs"] == 0 or peak * its_time < committed * peak_time
        return False


# ---- sections

def head_of(words):
    """The kind and the numbers, or the name, of a head."""
    text = " ".join(words)
    if text in ("red", "pool", "codes dscp"):
        return text.split()[0], ()
    if len(words) == 2 and words[0] in ("port", "rule"):
        return words[0], (within(0, 15 if words[0] == "port" else 255)(words[1:]),)
    if len(words) == 3 and words[1] == "profile" and words[0] in ("subport", "pipe"):
        return " ".join(words[:2]), (within(0, 63 if words[0] == "subport" else 255)(words[2:]),)
    if len(words) == 3 and words[0] == "subport":
        return "subport", (number(words[1]), number(words[2]))
    if len(words) == 2 and words[0] == "meter":
        return "meter", (name(words[1:]),)
    raise Wrong(UNKNOWN_KEY)


def sections_of(text):
    """The sections of a text, in its order, or the first fault of a line."""
    sections, heads, current = [], set(), None
    lines = text.split(b"\n")
    for at, line in enumerate(lines, 1):
        if at < len(lines) and line.endswith(b"\r"):
            line = line[:-1]
        line = line.split(b";")[0]
        try:
            if not all(byte == 9 or 32 <= byte <= 126 for byte in line):
                raise Wrong(NOT_TEXT)
            plain = line.decode("ascii").strip(" \t")
            if plain.startswith("[") and plain.endswith("]"):
                kind, head = head_of(plain[1:-1].split())
                if (kind, head) in heads and kind != "red":
                    raise Wrong(TWICE)
                heads.add((kind, head))
                current = Section(kind, head, at)
                sections.append(current)
            elif plain and (current is None or current.kind != "red"):
                if "=" not in plain or current is None:
                    raise Wrong(BAD_LINE)
                key, value = plain.split("=", 1)
                current.read(at, key.split(), value.split())
        except Wrong as wrong:
            raise Fault(at, wrong.args[0]) from None
    return sections


def shaping_of(section, line):
    """A shaping at a line: the bucket's (size, credits, period), the classes' credits, their period."""
    given, classes = section.given, section.each(13)
    if section.form != "rate":
        return (given["tb size"], given["tb credits"], given["tb period"]), classes, given["tc period"]
    common, period = gcd(given["tb rate"], line), given["tc period"]
    bucket = given["tb size"], given["tb rate"] // common, line // common
    return bucket, [rate * period // 1000 for rate in classes], line * period // 1000


def default_codes():
    table = {code_point: (12, 1, "green") for code_point in range(64)}
    table.update({46: (0, 0, "green"), 48: (1, 0, "green"), 56: (1, 0, "green"), 40: (2, 0, "green"), 32: (3, 0, "green")})
    for traffic_class, assured in ((4, 4), (5, 3), (6, 2), (7, 1)):
        table.update({8 * assured + 2 * drop: (traffic_class, 0, COLOURS[drop - 1]) for drop in (1, 2, 3)})
    table.update({24: (8, 0, "green"), 16: (9, 0, "green"), 0: (12, 0, "green"), 8: (12, 3, "green")})
    return table


class Profile:
    """What a text says; raises `Fault` where it is none."""

    def __init__(self, text):
        if len(text) > 1_048_576:
            raise Fault(0, TOO_LARGE)
        self.sections = sections_of(text)
        self.by_head = {(section.kind, section.head): section for section in self.sections}
        self.refuse_missing()
        self.refuse_unnamed()
        for section in self.sections:
            if section.is_across():
                raise Fault(section.line, OUT_OF_RANGE)
        self.build()
        self.refuse_large()

    def all_of(self, kind):
        return sorted((s for s in self.sections if s.kind == kind), key=lambda section: section.head)

    def at(self, kind, *head):
        return self.by_head.get((kind, head))

    def refuse_missing(self):
        ports = self.all_of("port")
        last = ports[-1].head[0] if ports else 0
        wanted = [("port", n) for n in range(last + 1)]
        wanted += [("subport", p.head[0], s) for p in ports for s in range(p.given.get("subports", 0))]
        if any(self.at(*head) is None for head in wanted):
            raise Fault(0, MISSING)
        for section in self.sections:
            if section.lacks():
                raise Fault(section.line, MISSING)

    def refuse_unnamed(self):
        lines = []
        for section in self.sections:
            given, line_at = section.given, section.lines
            if section.kind == "subport":
                port = self.at("port", section.head[0])
                if port is None or section.head[1] >= port.given["subports"]:
                    lines.append(section.line)
                if self.at("subport profile", given["profile"]) is None:
                    lines.append(line_at["profile"])
                lines += [at for _, last, kind, at in section.many
                          if last >= given["pipes"] or self.at("pipe profile", kind) is None]
            elif section.kind == "rule":
                port = self.at("port", given["port"])
                subport = self.at("subport", given["port"], given["subport"])
                if port is None:
                    lines.append(line_at["port"])
                elif given["subport"] >= port.given["subports"]:
                    lines.append(line_at["subport"])
                elif isinstance(given["pipe"], int) and given["pipe"] >= subport.given["pipes"]:
                    lines.append(line_at["pipe"])
                if "meter" in given and self.at("meter", given["meter"]) is None:
                    lines.append(line_at["meter"])
        if lines:
            raise Fault(min(lines), NO_SUCH_NAME)

    def build(self):
        """The numbers that a run needs, by name."""
        pool = self.at("pool")
        self.pool = {key: pool.given.get(key, default) if pool else default for key, (_, default) in POOL.items()}
        self.codes = default_codes()
        if self.at("codes"):
            self.codes.update(self.at("codes").given)
        self.rules = [{key: rule.given.get(key, default) for key, (_, default) in RULE.items()} for rule in self.all_of("rule")]
        self.meters = [self.meter(section) for section in self.sections if section.kind == "meter"]
        self.skipped = [section.line for section in self.sections if section.kind == "red"]
        self.ports = [self.port(section) for section in self.all_of("port")]

    def port(self, section):
        given = {key: section.given.get(key, default) for key, (_, default) in PORT.items()}
        line, ms = given["line rate"], given["drain ms"]
        given["drain"] = given["drain"] if given["drain"] is not None else line * (1000 if ms is None else ms) // 1000
        given["subports"] = [self.subport(self.at("subport", section.head[0], n), line) for n in range(given["subports"])]
        return given

    def subport(self, section, line):
        given = {key: section.given.get(key, default) for key, (_, default) in SUBPORT.items()}
        given["shaping"] = shaping_of(self.at("subport profile", given["profile"]), line)
        sizes = given["queue sizes"]
        given["queue sizes"] = sizes + [sizes[12]] * 3
        kinds = section.each(given["pipes"])
        given["pipes"] = [self.pipe(self.at("pipe profile", kind), line) for kind in kinds]
        return given

    @staticmethod
    def pipe(section, line):
        weights, weight = (section.given.get(key, default) for key, (_, default) in PIPE_PROFILE.items())
        return {"shaping": shaping_of(section, line), "weights": weights, "weight": weight}

    @staticmethod
    def meter(section):
        """A meter's rates and sizes, and the colours whose packets it drops."""
        given, kind = section.given, section.given["kind"]
        rates, sizes = METER_RATES[kind], METER_SIZES[kind]
        actions = zip(COLOURS, ("pass", "pass", "drop"))
        return {
            "name": section.head[0], "kind": kind, "aware": given.get("mode") == "aware",
            "cir": section.meter_rate("cir"), "other rate": section.meter_rate(rates[1]) if len(rates) > 1 else (0, 1),
            "cbs": given["cbs"], "other size": given[sizes[1]],
            "drops": {colour for colour, action in actions if given.get(colour, action) == "drop"},
        }

    def refuse_large(self):
        subports = [subport for port in self.ports for subport in port["subports"]]
        places = sum(len(subport["pipes"]) * sum(subport["queue sizes"]) for subport in subports)
        pipes = sum(len(subport["pipes"]) for subport in subports)
        if places > 4_194_304 or pipes > 65_536 or self.pool["slots"] * self.pool["slot bytes"] > 2**31 or len(self.meters) > 64:
            raise Fault(0, TOO_LARGE)


def read_profile(text):
    return Profile(text)
