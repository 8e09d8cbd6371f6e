"""What a feed answers for a stream, in the lines of `fegzund trace`: a plain reader, one message after the other, to
compare the definitions with."""

LONGEST = 2147483647


class Refused(Exception):
    def __init__(self, number, row=None, index=None):
        super().__init__(number)
        self.number, self.row, self.index = number, row, index


class TooLong(Exception):
    """A column with more slots than are worth computing."""


def signed(bs, at, n):
    return int.from_bytes(bs[at : at + n], "little", signed=True)


def unsigned(bs, at, n):
    return int.from_bytes(bs[at : at + n], "little")


def slip(meta):
    if len(meta) < 64:
        raise Refused(5)
    t = len(meta) - 64
    if meta[t + 60 :] != b"SLP1" or meta[t + 3] > 1:
        raise Refused(5)
    lists = []
    for j, width in enumerate([24, 16, 16, 8]):
        count, back = unsigned(meta, t + 28 + 8 * j, 4), unsigned(meta, t + 32 + 8 * j, 4)
        if count == 0:
            lists.append([])
            continue
        if back > t or count * width > back:
            raise Refused(5)
        at = t - back
        lists.append([meta[at + width * k : at + width * (k + 1)] for k in range(count)])
    rows = [
        dict(kind=r[0], flag=r[1], tag=r[2], parameter=unsigned(r, 4, 4), id=signed(r, 8, 8), end=unsigned(r, 16, 4))
        for r in lists[0]
    ]
    return dict(
        version=signed(meta, t, 2),
        type=meta[t + 2],
        delta=meta[t + 3] == 1,
        body=signed(meta, t + 4, 8),
        length=signed(meta, t + 12, 8),
        id=signed(meta, t + 20, 8),
        rows=rows,
        nodes=[(signed(n, 0, 8), signed(n, 8, 8)) for n in lists[1]],
        buffers=[(signed(n, 0, 8), signed(n, 8, 8)) for n in lists[2]],
        counts=[signed(n, 0, 8) for n in lists[3]],
    )


class Flat:
    """FlatBuffers: nothing is read outside the bytes."""

    def __init__(self, bs):
        self.bs = bs

    def number(self, at, n, sign=False):
        if at < 0 or at + n > len(self.bs):
            raise Refused(5)
        return int.from_bytes(self.bs[at : at + n], "little", signed=sign)

    def table(self, at):
        vtable = at - self.number(at, 4, True)
        return at, vtable, self.number(vtable, 2)

    def field(self, t, slot):
        at, vtable, size = t
        entry = 4 + 2 * slot
        if entry + 2 > size:
            return None
        off = self.number(vtable + entry, 2)
        return at + off if off else None

    def scalar(self, t, slot, n, sign=True, default=0):
        p = self.field(t, slot)
        return default if p is None else self.number(p, n, sign)

    def target(self, t, slot):
        p = self.field(t, slot)
        if p is None:
            return None
        to = p + self.number(p, 4)
        if to > len(self.bs):
            raise Refused(5)
        return to

    def vector(self, p, width):
        n = self.number(p, 4)
        if p + 4 + n * width > len(self.bs):
            raise Refused(5)
        return [(p + 4 + k * width) for k in range(n)]

    def items(self, t, slot, width):
        p = self.target(t, slot)
        return None if p is None else self.vector(p, width)

    # ---- a schema

    def int_type(self, t):
        width = {8: 1, 16: 2, 32: 4, 64: 8}.get(self.scalar(t, 0, 4))
        flag = 1 if self.scalar(t, 1, 1, False) else 0
        return (0, 0, 0) if width is None else (3, flag, width)

    def type_row(self, t, number, kids):
        """Kind, flag and parameter; and the children's tags."""
        none = (0, 0, 0), [0] * kids
        plain = {
            1: (1, 0), 6: (2, 0), 4: (4, 0), 5: (4, 1), 19: (5, 0), 20: (5, 1), 23: (6, 0), 24: (6, 1), 12: (7, 0), 21: (8, 0),
            25: (9, 0), 26: (10, 0), 13: (12, 0),
        }  # fmt: skip
        if number in plain:
            return (*plain[number], 0), [0] * kids
        if number == 17:
            p = self.field(t, 3)
            if p is None:
                return none
            self.number(p, 4)
            return (7, 0, 0), [0] * kids
        if number not in (2, 3, 7, 8, 9, 10, 11, 14, 15, 16, 18):
            return none
        p = self.target(t, 3)
        if p is None:
            return none
        y = self.table(p)
        width = None
        if number == 2:
            return self.int_type(y), [0] * kids
        if number == 3:
            width = {0: 2, 1: 4, 2: 8}.get(self.scalar(y, 0, 2))
        if number == 7:
            precision, scale, bits = self.scalar(y, 0, 4), self.scalar(y, 1, 4), self.scalar(y, 2, 4, True, 128)
            if 0 <= precision <= 255 and -128 <= scale <= 127:
                width = {32: 4, 64: 8, 128: 16, 256: 32}.get(bits)
        if number == 8:
            width = {0: 4, 1: 8}.get(self.scalar(y, 0, 2, True, 1))
        if number == 9:
            width = {(0, 32): 4, (1, 32): 4, (2, 64): 8, (3, 64): 8}.get((self.scalar(y, 0, 2, True, 1), self.scalar(y, 1, 4, True, 32)))
        if number in (10, 18):
            width = 8 if 0 <= self.scalar(y, 0, 2, True, 0 if number == 10 else 1) <= 3 else None
        if number == 11:
            width = {0: 4, 1: 8, 2: 16}.get(self.scalar(y, 0, 2))
        if number == 15:
            n = self.scalar(y, 0, 4)
            width = n if 1 <= n <= 1024 else None
        if number == 16:
            n = self.scalar(y, 0, 4)
            return ((11, 0, n) if n >= 0 else (0, 0, 0)), [0] * kids
        if number == 14:
            mode = self.scalar(y, 0, 2)
            ids = self.items(y, 1, 4)
            tags = list(range(kids)) if ids is None else [self.number(q, 4, True) for q in ids]
            if mode not in (0, 1) or len(tags) != kids or not all(0 <= g <= 127 for g in tags):
                return none
            return (14 + mode, 0, 0), tags
        return ((0, 0, 0) if width is None else (3, 0, width)), [0] * kids

    def walk(self, at, tag, depth):
        if depth > 16:
            raise Refused(5)
        t = self.table(at)
        number = self.scalar(t, 2, 1, False)
        kids = self.items(t, 5, 4) or []
        (kind, flag, parameter), tags = self.type_row(t, number, len(kids))
        mine = [dict(kind=kind, flag=flag, tag=tag, parameter=parameter, id=0)]
        p = self.target(t, 4)
        if p is not None:
            if depth + 1 > 16:
                raise Refused(5)
            d = self.table(p)
            id = self.scalar(d, 0, 8)
            q = self.target(d, 1)
            kind, flag, parameter = (3, 1, 4) if q is None else self.int_type(self.table(q))
            index = dict(kind=13 if kind else 0, flag=flag, tag=tag, parameter=parameter, id=id if kind else 0)
            mine[0]["tag"] = 0
            mine = [index] + mine
        first = self.count
        self.count += len(mine)
        below = []
        for k, g in zip(kids, tags):
            below += self.walk(k + self.number(k, 4), g, depth + len(mine))
        for r in mine:
            r["end"] = self.count
        return mine + below

    def batch(self, p):
        t = self.table(p)
        long = self.scalar(t, 0, 8)
        nodes, buffers, counts = self.items(t, 1, 16), self.items(t, 2, 16), self.items(t, 4, 8)
        packed = self.field(t, 3)
        if packed is not None:
            self.number(packed, 4)
        pair = lambda q: (self.number(q, 8, True), self.number(q + 8, 8, True))
        return dict(
            length=long,
            nodes=[pair(q) for q in nodes or []],
            buffers=[pair(q) for q in buffers or []],
            counts=[self.number(q, 8, True) for q in counts or []],
            marked=packed is not None or nodes is None or buffers is None,
        )

    def message(self):
        t = self.table(self.number(0, 4))
        m = dict(version=self.scalar(t, 0, 2), type=self.scalar(t, 1, 1, False), body=self.scalar(t, 3, 8))
        m.update(rows=[], length=0, nodes=[], buffers=[], counts=[], marked=False, id=0, delta=False)
        if not 1 <= m["type"] <= 3:
            return m
        p = self.target(t, 2)
        if p is None:
            raise Refused(5)
        if m["type"] == 1:
            h = self.table(p)
            if self.scalar(h, 0, 2) == 1:
                raise Refused(5)
            self.count = 0
            for k in self.items(h, 1, 4) or []:
                m["rows"] += self.walk(k + self.number(k, 4), 0, 1)
            if len(m["rows"]) > 256:
                raise Refused(5)
        elif m["type"] == 2:
            h = self.table(p)
            m["id"], m["delta"] = self.scalar(h, 0, 8), self.scalar(h, 2, 1, False) != 0
            q = self.target(h, 1)
            if q is None:
                m["marked"] = True
            else:
                m.update(self.batch(q))
        else:
            m.update(self.batch(p))
        return m


def admit(rows):
    def need(so):
        if not so:
            raise Refused(9)

    need(len(rows) <= 256)

    def walk(k, stop, depth):
        found = []
        while k < stop:
            need(depth <= 16)
            r = rows[k]
            need(k < r["end"] <= stop)
            kids = walk(k + 1, r["end"], depth + 1)
            kind = r["kind"]
            need(1 <= kind <= 15 and r["flag"] <= 1)
            if kind <= 6:
                need(not kids)
            if 7 <= kind <= 11:
                need(len(kids) == 1)
            if kind == 13:
                need(len(kids) == 1 and rows[kids[0]]["kind"] in (2, 3, 4, 5))
                need(r["parameter"] in (1, 2, 4, 8))
            if kind in (14, 15):
                tags = [rows[c]["tag"] for c in kids]
                need(len(kids) <= 127 and all(t <= 127 for t in tags) and len(set(tags)) == len(tags))
            if kind == 3:
                need(1 <= r["parameter"] <= 1024)
            if kind == 11:
                need(r["parameter"] <= LONGEST)
            found.append(k)
            k = r["end"]
        need(k == stop)
        return found

    return walk(0, len(rows), 1)


def is_text(bs):
    try:
        bs.decode("utf-8", "strict")
        return True
    except UnicodeDecodeError:
        return False


class Reader:
    """The columns of one message."""

    def __init__(self, rows, message, body, held):
        self.rows, self.version, self.body, self.held = rows, message["version"], body, held
        self.nodes, self.buffers, self.counts = list(message["nodes"]), list(message["buffers"]), list(message["counts"])
        self.table = []

    def node(self, k, decoded):
        if not self.nodes:
            raise Refused(14, k)
        long, nulls = self.nodes.pop(0)
        if decoded:
            if not 0 <= nulls <= long <= LONGEST or (self.rows[k]["kind"] == 1 and nulls != long):
                raise Refused(15, k)
        return long, nulls

    def buffer(self, k, decoded):
        if not self.buffers:
            raise Refused(17, k)
        offset, long = self.buffers.pop(0)
        if not decoded:
            return None
        if offset < 0 or long < 0 or offset + long > len(self.body):
            raise Refused(18, k)
        return offset, self.body[offset : offset + long]

    def count(self, k):
        if not self.counts:
            raise Refused(16, k)
        c = self.counts.pop(0)
        if c < 0 or c + 2 > len(self.buffers):
            raise Refused(16, k)
        return c

    def row(self, k, decoded):
        r = self.rows[k]
        kind = r["kind"]
        own = {1: 0, 2: 2, 3: 2, 4: 3, 5: 3, 7: 2, 8: 2, 9: 3, 10: 3, 11: 1, 12: 1, 13: 2, 14: 1, 15: 2}
        if kind == 6 and decoded:
            c = self.count(k)
            parts = [self.buffer(k, decoded) for _ in range(c + 2)]
            long, nulls = self.node(k, decoded)
        elif kind == 6:
            long, nulls = self.node(k, decoded)
            parts = [self.buffer(k, decoded) for _ in range(self.count(k) + 2)]
        else:
            long, nulls = self.node(k, decoded)
            if kind in (14, 15) and self.version < 4:
                self.buffer(k, decoded)
            parts = [self.buffer(k, decoded) for _ in range(own[kind])]
        if decoded:
            entry = dict(row=k, long=long, cells=None)
            at = len(self.table)
            self.table.append(entry)
        kids = []
        if kind != 13:
            c = k + 1
            while c < r["end"]:
                kids.append((self.rows[c]["tag"], len(self.table)))
                self.row(c, decoded)
                c = self.rows[c]["end"]
        if decoded:
            entry["cells"] = self.rules(k, r, long, nulls, parts, kids)

    def rules(self, k, r, long, nulls, parts, kids):
        kind = r["kind"]

        def whole(so):
            if not so:
                raise Refused(19, k, long)

        present = [True] * long
        if nulls > 0 and kind not in (1, 14, 15):
            bits = parts[0][1]
            whole(8 * len(bits) >= long)
            present = [bits[i // 8] >> (i % 8) & 1 == 1 for i in range(long)]
            whole(present.count(False) == nulls)
        if long > 0:

            def reach(j, n):
                whole(len(parts[j][1]) >= n)

            if kind == 2:
                whole(8 * len(parts[1][1]) >= long)
            if kind in (3, 13):
                reach(1, long * r["parameter"])
            if kind in (4, 7):
                reach(1, 4 * (long + 1))
            if kind in (5, 8):
                reach(1, 8 * (long + 1))
            if kind == 6:
                reach(1, 16 * long)
            if kind == 9:
                reach(1, 4 * long), reach(2, 4 * long)
            if kind == 10:
                reach(1, 8 * long), reach(2, 8 * long)
            if kind in (14, 15):
                reach(0, long)
            if kind == 15:
                reach(1, 4 * long)
        lengths = [self.table[e]["long"] for _, e in kids]
        if kind == 11:
            whole(lengths[0] >= long * r["parameter"])
        if kind in (12, 14):
            whole(all(n == long for n in lengths))
        values = None
        if kind == 13:
            values = self.held.get(r["id"])
            if values is not None:
                with_row, mine = values["row"], self.rows[k + 1]
                whole(all(with_row[f] == mine[f] for f in ("kind", "flag", "parameter")))
        if long > 10000:
            raise TooLong
        cells = []
        for i in range(long):

            def slot(so):
                if not so:
                    raise Refused(19, k, i)

            def text(place, bs):
                slot(r["flag"] == 0 or is_text(bs))
                return f"part body {place} {len(bs)} {bs.hex() or '-'}"

            width = 8 if kind in (5, 8, 10) else 4
            if kind == 1:
                cell = "absent"
            elif kind == 2:
                cell = f"bit {parts[1][1][i // 8] >> (i % 8) & 1}"
            elif kind == 3:
                w = r["parameter"]
                cell = f"part body {parts[1][0] + w * i} {w} {parts[1][1][w * i:w * i + w].hex()}"
            elif kind in (4, 5, 7, 8):
                a, b = signed(parts[1][1], width * i, width), signed(parts[1][1], width * (i + 1), width)
                slot(0 <= a <= b <= (len(parts[2][1]) if kind < 7 else lengths[0]))
                cell = text(parts[2][0] + a, parts[2][1][a:b]) if kind < 7 else f"span {kids[0][1]} {a} {b - a}"
            elif kind == 6:
                v = parts[1][1][16 * i : 16 * i + 16]
                n = signed(v, 0, 4)
                slot(n >= 0)
                if n <= 12:
                    slot(not any(v[4 + n :]))
                    cell = text(parts[1][0] + 16 * i + 4, v[4 : 4 + n])
                else:
                    j, o = signed(v, 8, 4), signed(v, 12, 4)
                    slot(0 <= j < len(parts) - 2)
                    place, bs = parts[2 + j]
                    slot(0 <= o and o + n <= len(bs) and bs[o : o + 4] == v[4:8])
                    cell = text(place + o, bs[o : o + n])
            elif kind in (9, 10):
                a, n = signed(parts[1][1], width * i, width), signed(parts[2][1], width * i, width)
                slot(a >= 0 and n >= 0 and a + n <= lengths[0])
                cell = f"span {kids[0][1]} {a} {n}"
            elif kind == 11:
                cell = f"span {kids[0][1]} {r['parameter'] * i} {r['parameter']}"
            elif kind == 12:
                cell = f"group {kids[0][1] if kids else 'none'} {i}"
            elif kind == 13:
                w = r["parameter"]
                n = (signed if r["flag"] else unsigned)(parts[1][1], w * i, w)
                cell = "absent"
                if present[i]:
                    slot(values is not None and 0 <= n < len(values["values"]))
                    place, bs = values["values"][n]
                    if bs is not None:
                        cell = f"part store {place} {len(bs)} {bs.hex() or '-'} value {n}"
            else:
                tag = signed(parts[0][1], i, 1)
                chosen = [(e, n) for (t, e), n in zip(kids, lengths) if t == tag]
                slot(len(chosen) == 1)
                o = i if kind == 14 else signed(parts[1][1], 4 * i, 4)
                slot(0 <= o < chosen[0][1])
                cell = f"link {chosen[0][0]} {o}"
            cells.append(cell if present[i] else "absent")
        return cells


class Feed:
    def __init__(self, options):
        self.o = options
        self.rows, self.tops = None, None
        self.order, self.values, self.by = [], {}, {}
        self.lines, self.batches = ["open ok"], 0

    def held(self):
        """By id: the value row that it was read by, and each value's place in the store with its bytes."""
        at, found = 0, {}
        for i in self.order:
            listed = []
            for bs in self.values[i]:
                listed.append((at + 4, bs))
                at += 4 + (0 if bs is None else len(bs))
            found[i] = dict(row=self.by[i], values=listed)
        self.used = at
        return found

    def act(self, m, body):
        if m["type"] > 3:
            raise Refused(7)
        if m["type"] == 0:
            return
        if m["type"] == 1:
            if self.rows is not None:
                raise Refused(8)
            self.tops = admit(m["rows"])
            self.rows = m["rows"]
            self.lines.append(f"schema {len(self.rows)} rows")
            for k, r in enumerate(self.rows):
                self.lines.append(
                    f"row {k} kind {r['kind']} flag {r['flag']} tag {r['tag']} parameter {r['parameter']} id {r['id']} end {r['end']}"
                )
            return
        if self.rows is None:
            raise Refused(10)
        if m["type"] == 2:
            named = [k for k, r in enumerate(self.rows) if r["kind"] == 13 and r["id"] == m["id"]]
            if not named:
                raise Refused(11)
        if m.get("marked"):
            raise Refused(12)
        if len(m["nodes"]) > self.o["nodes"] or len(m["buffers"]) > self.o["buffers"] or len(m["counts"]) > self.o["counts"]:
            raise Refused(13)
        reader = Reader(self.rows, m, body, self.held())
        choice = self.o["columns"]
        if m["type"] == 2:
            reader.row(named[0] + 1, True)
            shown = [0]
        else:
            starts = {}
            for c, k in enumerate(self.tops):
                decoded = choice is None or c in choice
                starts[c] = len(reader.table)
                reader.row(k, decoded)
            if choice is not None and any(c >= len(self.tops) for c in choice):
                raise Refused(20)
            shown = [starts[c] for c in (range(len(self.tops)) if choice is None else choice)]
        if reader.counts:
            raise Refused(21)
        if not 0 <= m["length"] <= LONGEST or any(reader.table[e]["long"] != m["length"] for e in shown):
            raise Refused(22)
        if m["type"] == 2:
            self.store(m, named[0] + 1, reader.table[0]["cells"])
            return
        self.lines.append(f"batch {self.batches} length {m['length']}")
        self.batches += 1
        self.lines += [f"place {j} entry {e}" for j, e in enumerate(shown)]
        for e, entry in enumerate(reader.table):
            for i, cell in enumerate(entry["cells"][: self.o["cells"]]):
                self.lines.append(f"cell {e} {i} {cell}")

    def store(self, m, k, cells):
        values = []
        for cell in cells:
            words = cell.split(" ")
            if words[0] == "absent":
                values.append(None)
            elif words[0] == "bit":
                values.append(bytes([int(words[1])]))
            else:
                values.append(b"" if words[4] == "-" else bytes.fromhex(words[4]))
        i = m["id"]
        if m["delta"]:
            if i not in self.values:
                raise Refused(23)
            values = self.values[i] + values
        if i not in self.values:
            if len(self.order) == 64:
                raise Refused(24)
            self.order.append(i)
        self.values[i], self.by[i] = values, self.rows[k]
        self.held()
        if self.used > self.o["store"]:
            raise Refused(24)

    def run(self, data):
        at, message = 0, 0
        try:
            while at < len(data):
                rest = data[at:]
                opening = 8 if rest[:4] == b"\xff\xff\xff\xff" else 4
                if len(rest) < opening:
                    return self.end("finish refused 25")
                size = unsigned(rest, opening - 4, 4)
                if size == 0:
                    at, message = at + opening, message + 1
                    if at < len(data):
                        raise Refused(3)
                    return self.end("finish ok")
                if size > self.o["message"]:
                    raise Refused(4)
                if len(rest) < opening + size:
                    return self.end("finish refused 25")
                meta = rest[opening : opening + size]
                m = slip(meta) if self.o["slip"] else Flat(meta).message()
                if not 0 <= m["body"] <= self.o["body"]:
                    raise Refused(6)
                if len(rest) < opening + size + m["body"]:
                    return self.end("finish refused 25")
                self.act(m, rest[opening + size : opening + size + m["body"]])
                at, message = at + opening + size + m["body"], message + 1
        except Refused as x:
            told = f"refused {x.number} message {message} position {at}"
            if x.row is not None:
                told += f" row {x.row}"
            if x.index is not None:
                told += f" index {x.index}"
            self.lines.append(told)
            return self.end(f"finish {told}")
        return self.end("finish ok")

    def end(self, line):
        self.lines.append(line)
        return self.lines


def options(words):
    found = dict(message=1048576, body=16777216, store=1048576, nodes=4096, buffers=4096, counts=4096, columns=None, cells=64, slip=False)
    names = {"--message-hold": "message", "--body-hold": "body"}
    for name, value in zip(words[1::2], words[2::2]):
        if name == "--columns":
            found["columns"] = None if value == "all" else [] if value == "none" else [int(n) for n in value.split(",")]
        elif name == "--reading":
            found["slip"] = value == "slip"
        elif name not in ("--pieces", "--column-table"):
            found[names.get(name, name[2:])] = int(value)
    return found
