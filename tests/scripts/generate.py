#!/usr/bin/env python3
"""Writes the scripts every-*, alias-*, rooms-* and mixed-* of played/ with the output that they must have. What they must print comes from the model of the rules below,
which is written from docs/RULES.md and docs/SCRIPT.md and shares nothing with the kernel.

    python3 generate.py            writes them
    python3 generate.py --reached  lists, by rule, which refusals of which kall they reach where
"""
import copy
import pathlib
import random
import sys

LAYERS = {1: "SPROC SSTOP SDEPTH SVALUE", 2: "SPATH SINDEX SNULL STEMPL SGONE SRTS SFULL",
          3: "STYPE SROOM SNAMES SARGS SCHK SMASK", 4: "SLIM"}
NUMBERS = ("SPROC SSTOP SPATH SINDEX SNULL STEMPL SGONE SRTS STYPE SFULL SLIM SROOM SNAMES "
           "SDEPTH SARGS SCHK SVALUE SMASK").split()
DLT, ENV, LOAD, STO, APP, KILL, GET, PUT, ADDR, MDFY, UCNF, CALL, ERASE = range(13)


class Refused(Exception):
    def __init__(self, signal, detail=0):
        self.signal, self.detail = signal, detail

    def __str__(self):
        layer = next(n for n, names in LAYERS.items() if self.signal in names.split())
        return f"-{NUMBERS.index(self.signal) + 1} {self.signal} detail {self.detail} layer {layer}"


class Bits:
    name, full, invalid = "bits", 8191, 2 ** 21

    def valid(self, code): return code < 2 ** 21
    def read(self, code): return code if self.valid(code) else 0
    def grants(self, code, right): return right <= 20 and self.read(code) >> right & 1 == 1
    def restrict(self, code, mask): return self.read(code) & self.read(mask)
    def strip(self, code): return self.read(code) & ~(1 << MDFY | 1 << UCNF)
    def add_delete(self, code): return self.read(code) | 1
    # A code with all rights but these.
    def without(self, *rights): return self.full & ~sum(1 << r for r in rights)


class Steps:
    name, full, invalid = "steps", 3, 4
    FIRST = {DLT: 0, ENV: 3, ERASE: 3, LOAD: 1, GET: 1, CALL: 1, **{r: 1 for r in range(13, 21)}}

    def valid(self, code): return code < 4
    def read(self, code): return code if self.valid(code) else 0
    def grants(self, code, right): return self.FIRST.get(right, 2) <= self.read(code)
    def restrict(self, code, mask): return min(self.read(code), self.read(mask))
    def strip(self, code): return min(self.read(code), 1)
    def add_delete(self, code): return self.read(code)
    def without(self, *rights): return max(0, min(self.FIRST.get(r, 2) for r in rights) - 1)


class Cap:
    def __init__(self, name, code): self.name, self.code = name, code
    def with_code(self, code): return Cap(self.name, code)


class Template:
    def __init__(self, code, *rest): self.code, self.rest = code, rest
    def with_code(self, code): return Template(code, *self.rest)


class Scene:
    """A scene of objects, by share and number, and of processes with one name space each."""

    def __init__(self, rule):
        self.rule, self.kinds, self.lists, self.data, self.spaces = rule, {}, {}, {}, {}
        self.given = [0] * 9

    def living(self, share):
        return sum(1 for s, _ in self.kinds if s == share)

    # A new object of a share.
    def create(self, share, kind, data):
        if self.living(share) == (32 if share == 0 else 16):
            raise Refused("SROOM")
        if self.given[share] == 60000:
            raise Refused("SNAMES")
        self.given[share] += 1
        name = share, self.given[share]
        self.kinds[name], self.lists[name], self.data[name] = kind, [None] * (0 if kind == 1 else 8), data
        return name

    # set-up
    def enrol(self):
        if len(self.spaces) == 8:
            raise Refused("SROOM")
        process = len(self.spaces) + 1
        self.spaces[process] = [None] * 12
        return process

    def make(self, kind, count, buffer):
        if kind not in (1, 2, 3) and not 16 <= kind <= 255:
            raise Refused("STYPE")
        if count > (0 if kind == 3 else 64) or count > len(buffer):
            raise Refused("SLIM")
        return self.create(0, kind, list(buffer[:count]))[1]

    def owned(self, owner, n):
        if owner == "process":
            if n not in self.spaces:
                raise Refused("SPROC")
            return self.spaces[n]
        if (0, n) not in self.kinds:
            raise Refused("SGONE")
        return self.lists[0, n]

    def fill(self, owner, n, slot, what, check):
        slots = self.owned(owner, n)
        if not 1 <= slot <= len(slots):
            raise Refused("SINDEX")
        if slots[slot - 1] is not None:
            raise Refused("SFULL")
        check()
        slots[slot - 1] = what
        return 0

    def plant(self, owner, n, slot, name, code):
        def check():
            if (0, name) not in self.kinds:
                raise Refused("SGONE")
            if not self.rule.valid(code):
                raise Refused("SMASK")
        return self.fill(owner, n, slot, Cap((0, name), code), check)

    def template(self, owner, n, slot, code, kind, wants, gives):
        def check():
            if kind not in (0, 1, 2, 3) and not 16 <= kind <= 255:
                raise Refused("STYPE")
            if not all(map(self.rule.valid, (code, wants, gives))):
                raise Refused("SMASK")
        return self.fill(owner, n, slot, Template(code, kind, wants, gives), check)

    # slots, by the list that they stand in
    def slot(self, slots, index, at):
        if not 1 <= index <= len(slots):
            raise Refused("SINDEX", at)
        return slots[index - 1]

    def empty(self, slots, index, at):
        if self.slot(slots, index, at) is not None:
            raise Refused("SFULL", at)

    def held(self, slots, index, rights, at):
        found = self.slot(slots, index, at)
        if found is None:
            raise Refused("SNULL", at)
        if not all(self.rule.grants(found.code, r) for r in rights):
            raise Refused("SRTS", at)
        return found

    def object(self, slots, index, rights, at):
        found = self.slot(slots, index, at)
        if found is None:
            raise Refused("SNULL", at)
        if isinstance(found, Template):
            raise Refused("STEMPL", at)
        if found.name not in self.kinds:
            raise Refused("SGONE", at)
        if not all(self.rule.grants(found.code, r) for r in rights):
            raise Refused("SRTS", at)
        return found

    # Where the path ends: the slots that its last index is one of, and whether the way was clear.
    def walk(self, process, path, step, pretarget):
        slots, clear = self.spaces[process], True
        for at, index in enumerate(path[:-1], 1):
            cap = self.object(slots, index, pretarget if at == len(path) - 1 else step, at)
            clear = clear and self.rule.grants(cap.code, UCNF)
            slots = self.lists[cap.name]
        return slots, clear

    def begin(self, process, path=None, mask=None):
        if process not in self.spaces:
            raise Refused("SPROC")
        if mask is not None and not self.rule.valid(mask):
            raise Refused("SMASK")
        if path is not None and not 1 <= len(path) <= 6:
            raise Refused("SPATH")

    def masked(self, code, mask):
        return code if mask is None else self.rule.restrict(code, mask)

    @staticmethod
    def length(slots):
        return max((i for i, s in enumerate(slots, 1) if s is not None), default=0)

    # the kalls
    def LENTH(self, p):
        self.begin(p)
        return self.length(self.spaces[p])

    def read(self, p, path, right):
        self.begin(p, path)
        slots, _ = self.walk(p, path, [LOAD], [LOAD])
        return self.object(slots, path[-1], [right], len(path)).name

    def CLENTH(self, p, path):
        return self.length(self.lists[self.read(p, path, LOAD)])

    def DLENTH(self, p, path):
        return len(self.data[self.read(p, path, GET)])

    def GETDATA(self, p, path, disp, knt, buffer):
        data = self.data[self.read(p, path, GET)]
        if not 1 <= disp <= len(data) or not 1 <= knt <= len(buffer):
            raise Refused("SLIM")
        block = data[disp - 1:disp - 1 + knt]
        buffer[:len(block)] = block
        return len(block)

    def LOAD(self, p, new, path):
        self.begin(p, path)
        mine = self.spaces[p]
        self.empty(mine, new, 0)
        slots, clear = self.walk(p, path, [LOAD], [LOAD])
        found = self.held(slots, path[-1], [], len(path))
        code = found.code if clear else self.rule.strip(found.code)
        mine[new - 1] = found.with_code(self.rule.add_delete(code))
        return 0

    def put(self, p, path, cur, mask, rights, moves):
        self.begin(p, path, mask)
        mine = self.spaces[p]
        found = self.held(mine, cur, rights + ([ENV] if len(path) > 1 else []), 0)
        slots, _ = self.walk(p, path, [LOAD, UCNF], [STO, MDFY])
        self.empty(slots, path[-1], len(path))
        code = found.code if moves else self.rule.add_delete(found.code)
        slots[path[-1] - 1] = found.with_code(self.masked(code, mask))
        if moves:
            mine[cur - 1] = None
        return 0

    def PASS(self, p, path, cur, mask):
        return self.put(p, path, cur, mask, [DLT], True)

    def STORE(self, p, path, cur, mask):
        if path != [cur]:
            return self.put(p, path, cur, mask, [], False)
        self.begin(p, path, mask)
        mine = self.spaces[p]
        found = self.held(mine, cur, [DLT], 0)
        mine[cur - 1] = found.with_code(self.masked(found.code, mask))
        return 0

    def TAKE(self, p, new, path):
        self.begin(p, path)
        mine = self.spaces[p]
        self.empty(mine, new, 0)
        slots, clear = self.walk(p, path, [LOAD, UCNF], [KILL, LOAD, MDFY])
        found = self.held(slots, path[-1], [DLT], len(path))
        slots[path[-1] - 1] = None
        mine[new - 1] = found if clear else found.with_code(self.rule.strip(found.code))
        return 0

    def add(self, p, path, cur, mask, rights, moves):
        self.begin(p, path, mask)
        mine = self.spaces[p]
        found = self.held(mine, cur, rights, 0)
        slots, _ = self.walk(p, path, [LOAD, UCNF], [LOAD, UCNF])
        into = self.lists[self.object(slots, path[-1], [MDFY, APP], len(path)).name]
        end = self.length(into)
        if end >= len(into):
            raise Refused("SLIM")
        code = found.code if moves else self.rule.add_delete(found.code)
        into[end] = found.with_code(self.masked(code, mask))
        if moves:
            mine[cur - 1] = None
        return 0

    def APPEND(self, p, path, cur, mask):
        return self.add(p, path, cur, mask, [ENV], False)

    def PASSAPPEND(self, p, path, cur, mask):
        return self.add(p, path, cur, mask, [ENV, DLT], True)

    def DELETE(self, p, path):
        self.begin(p, path)
        slots, _ = self.walk(p, path, [LOAD, UCNF], [MDFY, KILL])
        self.held(slots, path[-1], [DLT], len(path))
        slots[path[-1] - 1] = None
        return 0

    def INTERCHANGE(self, p, path, cur, mask):
        self.begin(p, path, mask)
        mine = self.spaces[p]
        found = self.held(mine, cur, [DLT], 0)
        slots, clear = self.walk(p, path, [LOAD, UCNF], [MDFY, KILL, LOAD, STO])
        other = self.held(slots, path[-1], [DLT], len(path))
        mine[cur - 1] = other if clear else other.with_code(self.rule.strip(other.code))
        slots[path[-1] - 1] = found.with_code(self.masked(found.code, mask))
        return 0


    def making(self, p, kind, path, mask, data):
        self.begin(p, path, mask)
        slots, _ = self.walk(p, path, [LOAD, UCNF], [STO, MDFY])
        self.empty(slots, path[-1], len(path))
        if data is None:
            raise Refused("SLIM")
        name = self.create(p, kind, data)
        slots[path[-1] - 1] = Cap(name, self.masked(self.rule.full, mask))
        return 0

    def DATA(self, p, path, knt, mask, buffer):
        return self.making(p, 1, path, mask, None if knt > min(64, len(buffer)) else buffer[:knt])

    def UNIV(self, p, path):
        return self.making(p, 2, path, None, [])

    def written(self, p, path, right):
        self.begin(p, path)
        slots, _ = self.walk(p, path, [LOAD, UCNF], [LOAD, UCNF])
        return self.object(slots, path[-1], [right, MDFY], len(path)).name

    def PUTDATA(self, p, path, disp, knt, buffer):
        data = self.data[self.written(p, path, PUT)]
        if disp == 0 or knt == 0 or knt > len(buffer) or disp - 1 + knt > len(data):
            raise Refused("SLIM")
        data[disp - 1:disp - 1 + knt] = buffer[:knt]
        return 0

    def ADDATA(self, p, path, knt, buffer):
        name = self.written(p, path, ADDR)
        data, most = self.data[name], 0 if self.kinds[name] == 3 else 64
        if knt == 0 or knt > len(buffer) or len(data) + knt > most:
            raise Refused("SLIM")
        data += buffer[:knt]
        return 0

    def ERASE(self, p, path):
        name = self.written(p, path, ERASE)
        del self.kinds[name], self.lists[name], self.data[name]
        return 0


class Script:
    """A script with what it must print, line by line, as the model plays it."""

    def __init__(self, rule, about, element="words"):
        self.scene, self.out, self.reached = Scene(rule), [], set()
        self.text = [f"# Written by generate.py: {about}.", f"rule {rule.name}", f"element {element}", ""]
        self.opened, self.more = False, 0.5 if element == "floats" else 0

    def say(self, line, head, call, buffer=None):
        before = None if buffer is None else list(buffer)
        try:
            answer = call()
        except Refused as fault:
            assert buffer == before
            answer = fault
            if self.opened:
                self.reached.add((head.split()[-1], fault.signal, fault.detail))
        if before is not None:
            line += " :" + "".join(f" {x}" for x in before)
        self.text.append(line)
        self.out.append(f"{head}: {answer}" + ("" if buffer is None else " :" + "".join(f" {x}" for x in buffer)))

    def enrol(self):
        self.say("enrol", "enrol", self.scene.enrol)

    def make(self, kind, data=()):
        data = list(data)
        self.say(f"make {kind} {len(data)}", "make", lambda: self.scene.make(kind, len(data), data), data)

    def plant(self, owner, n, slot, name, code):
        self.say(f"plant {owner} {n} {slot} {name} {code}", "plant",
                 lambda: self.scene.plant(owner, n, slot, name, code))

    def template(self, owner, n, slot, code):
        self.say(f"template {owner} {n} {slot} {code} 0 0 0", "template",
                 lambda: self.scene.template(owner, n, slot, code, 0, 0, 0))

    def open(self):
        self.opened = True
        self.text += ["open", ""]
        self.out.append("open: 0")

    def ask(self, p, kall, path=None, n=None, mask=None, disp=1, knt=1, room=2):
        """`n` is Ncur or Nnew; GETDATA has a buffer with `room` elements."""
        line, words, buffer = f"{p} {kall}", [p], None
        shown = None if path is None else ".".join(map(str, path)) or "-"
        if kall in ("LOAD", "TAKE"):
            line, words = f"{line} {n} {shown}", [p, n, path]
        elif kall in ("PASS", "STORE", "APPEND", "PASSAPPEND", "INTERCHANGE"):
            line += f" {shown} {n}" + ("" if mask is None else f" mask {mask}")
            words = [p, path, n, mask]
        elif kall in ("GETDATA", "PUTDATA"):
            buffer = [7 + i + self.more for i in range(room)]
            line, words = f"{line} {shown} {disp} {knt}", [p, path, disp, knt, buffer]
        elif kall == "ADDATA":
            buffer = [30 + i + self.more for i in range(room)]
            line, words = f"{line} {shown} {knt}", [p, path, knt, buffer]
        elif kall == "DATA":
            buffer = [50 + i + self.more for i in range(room)]
            line += f" {shown} {knt}" + ("" if mask is None else f" mask {mask}")
            words = [p, path, knt, mask, buffer]
        elif path is not None:
            line, words = f"{line} {shown}", [p, path]
        self.say(line, f"{p} {kall}", lambda: getattr(self.scene, kall)(*words), buffer)

    def refused(self, *words, **more):
        """Asks where it is refused: what is done would change the scene for the cases to come."""
        trial = copy.deepcopy(self)
        trial.ask(*words, **more)
        if len(trial.reached) > len(self.reached) or trial.out[-1].split()[2].startswith("-"):
            self.ask(*words, **more)

    def reckon(self):
        self.text += ["", "reckon"]
        self.out.append("reckon: " + " ".join(str(self.scene.living(share)) for share in range(9)))

    def write(self, name):
        here = pathlib.Path(__file__).parent / "played"
        (here / f"{name}.scene").write_text("\n".join(self.text) + "\n")
        (here / f"{name}.out").write_text("\n".join(self.out) + "\n")


READING = ["CLENTH", "DLENTH", "GETDATA", "LOAD"]
CARRYING = ["PASS", "STORE", "APPEND", "PASSAPPEND", "INTERCHANGE"]
MASKED = CARRYING + ["DATA"]
WRITING = ["PUTDATA", "ADDATA", "ERASE"]
WITH_PATH = READING + ["TAKE", "DELETE"] + CARRYING + ["DATA", "UNIV"] + WRITING
# What the last position of a path must be, and the rights that are asked of it.
TARGET = {"CLENTH": ("object", [LOAD]), "DLENTH": ("object", [GET]), "GETDATA": ("object", [GET]),
          "LOAD": ("held", []), "PASS": ("empty", []), "STORE": ("empty", []), "TAKE": ("held", [DLT]),
          "APPEND": ("object", [MDFY, APP]), "PASSAPPEND": ("object", [MDFY, APP]),
          "DELETE": ("held", [DLT]), "INTERCHANGE": ("held", [DLT]), "DATA": ("empty", []), "UNIV": ("empty", []),
          "PUTDATA": ("object", [PUT, MDFY]), "ADDATA": ("object", [ADDR, MDFY]), "ERASE": ("object", [ERASE, MDFY])}
PRETARGET = {**{k: [LOAD] for k in READING}, "PASS": [STO, MDFY], "STORE": [STO, MDFY],
             "TAKE": [KILL, LOAD, MDFY], "APPEND": [LOAD, UCNF], "PASSAPPEND": [LOAD, UCNF],
             "DELETE": [MDFY, KILL], "INTERCHANGE": [MDFY, KILL, LOAD, STO], "DATA": [STO, MDFY], "UNIV": [STO, MDFY],
             **{k: [LOAD, UCNF] for k in WRITING}}
STEP = {k: [LOAD] if k in READING else [LOAD, UCNF] for k in WITH_PATH}
CUR = {"PASS": [DLT, ENV], "STORE": [ENV], "APPEND": [ENV], "PASSAPPEND": [ENV, DLT], "INTERCHANGE": [DLT]}
# Slots of the name space and of every list on the way: 1 leads on with all rights.
ON, EMPTY, TEMPLATE, LOW_TEMPLATE = 1, 2, 3, 4
GONE = 8
FULL_LIST, DATA_OBJECT, ENDED, CHAIN = 7, 8, 9, 6


def lacking(rule, kall):
    """Codes that lack each right that the kall asks for on a path."""
    wanted = sorted(set(STEP[kall] + PRETARGET[kall] + TARGET[kall][1]))
    return sorted({rule.without(r) for r in wanted})


def every(rule, kall):
    """Each refusal of the kall, at each position of a path where there can be one."""
    s = Script(rule, f"each refusal of {kall} where it can come up, under {rule.name}")
    s.enrol()
    s.enrol()
    for i in range(CHAIN):
        s.make(2, [10 + i, 20 + i, 30 + i])
    s.make(2)
    s.make(1, [1, 2, 3])
    s.make(2)
    codes = lacking(rule, kall)
    for at in range(CHAIN + 1):
        owner = ("process", 1) if at == 0 else ("object", at)
        leads = min(at + 1, CHAIN)
        s.plant(*owner, ON, leads, rule.full)
        s.template(*owner, TEMPLATE, rule.full)
        s.template(*owner, LOW_TEMPLATE, 0)
        for i, code in enumerate(codes[:3]):
            s.plant(*owner, 5 + i, leads, code)
        s.plant(*owner, GONE, ENDED, rule.full)
    for slot in range(1, 9):
        s.plant("object", FULL_LIST, slot, 1, rule.full)
    s.plant("process", 1, 10, FULL_LIST, rule.full)
    s.plant("process", 1, 11, DATA_OBJECT, rule.full)
    s.plant("process", 1, 12, 1, rule.full)
    s.plant("process", 2, ON, 1, rule.full)
    s.plant("process", 2, 12, 1, rule.full)
    for i, code in enumerate(codes):
        s.plant("process", 2, 3 + i, 1, code)
    s.open()
    s.ask(1, "ERASE", [GONE])
    n = {"LOAD": EMPTY, "TAKE": EMPTY}.get(kall, 12 if kall in CUR else None)
    low = range(5, 5 + len(codes[:3]))
    for p in (0, 3, 9, 4294967295):
        s.ask(p, kall, [], n, mask=rule.invalid if kall in MASKED else None)
    if kall in MASKED:
        for mask in (rule.invalid, 4294967295):
            s.ask(1, kall, [], n, mask)
    for path in ([], [ON] * 7):
        s.ask(1, kall, path, 0 if n else None)
    if kall in ("LOAD", "TAKE"):
        for new in (0, 13, 4294967295, ON, TEMPLATE):
            s.ask(1, kall, [EMPTY, 1], new)
    if kall in CUR:
        for cur in (0, 13, 4294967295, EMPTY, LOW_TEMPLATE, *low):
            s.refused(1, kall, [EMPTY, 1], cur)
    for length in range(2, 7):
        for at in range(1, length):
            way, rest = [ON] * (at - 1), [ON] * (length - at)
            for index in (0, 13, 4294967295, EMPTY, TEMPLATE, GONE, *low):
                s.refused(1, kall, way + [index] + rest, n)
    for i in range(len(codes)):
        s.refused(2, kall, [3 + i, ON], n)
        s.refused(2, kall, [3 + i, EMPTY], n)
        s.refused(2, kall, [3 + i], n)
    kind, _ = TARGET[kall]
    for way in [[ON] * k for k in range(6)]:
        for index in (0, 13, ON, EMPTY, TEMPLATE, LOW_TEMPLATE, GONE, *low):
            if way + [index] != [n]:
                s.refused(1, kall, way + [index], n)
    s.refused(1, kall, [11, 1], n)
    if kall in ("GETDATA", "PUTDATA"):
        for disp, knt in ((0, 1), (4, 1), (3, 2), (4294967295, 1), (1, 0), (1, 3), (1, 4294967295), (4294967295, 4294967295)):
            s.refused(1, kall, [11], disp=disp, knt=knt)
    if kall == "ADDATA":
        for knt, room in ((0, 2), (3, 2), (4294967295, 2), (62, 70), (64, 70)):
            s.refused(1, kall, [11], knt=knt, room=room)
    if kall == "DATA":
        for knt, room in ((3, 2), (65, 70), (4294967295, 2)):
            s.refused(1, kall, [EMPTY], knt=knt, room=room)
    if kall in ("APPEND", "PASSAPPEND"):
        s.ask(1, kall, [10], n)
        s.ask(1, kall, [11], n)

    def look():
        s.ask(1, "LENTH")
        for k in range(1, 7):
            s.ask(1, "CLENTH", [ON] * k)
            s.ask(1, "DLENTH", [ON] * k)
            s.ask(1, "GETDATA", [ON] * k, knt=8, room=8)

    look()
    s.ask(1, kall, {"empty": [ON, EMPTY], "held": [ON, ON], "object": [ON, ON]}[kind], n)
    look()
    s.reckon()
    return s


def lengths(rule):
    s = Script(rule, f"LENTH, under {rule.name}")
    s.enrol()
    s.make(2)
    s.open()
    for p in (0, 1, 2, 9, 4294967295):
        s.ask(p, "LENTH")
    s.reckon()
    return s


def alias(rule):
    """The path and Ncur in one slot, an object put into itself, Nnew on the path."""
    s = Script(rule, f"slots and objects that meet themselves, under {rule.name}")
    less = rule.without(LOAD)
    for _ in range(2):
        s.enrol()
    for _ in range(4):
        s.make(2, [5])
    for p in (1, 2):
        for slot in (1, 2, 3, 4):
            s.plant("process", p, slot, slot, rule.full)
        s.plant("process", p, 5, 1, rule.without(UCNF))
        s.template("process", p, 6, rule.full)
    for n in range(1, 5):
        s.plant("object", n, 1, n % 4 + 1, rule.full)
    s.open()

    def look(p=1):
        s.ask(p, "LENTH")
        for path in ([1], [2], [3], [4], [1, 1], [1, 2], [1, 2, 2], [2, 2]):
            s.ask(p, "CLENTH", path)

    s.ask(1, "PASS", [1], 1)
    s.ask(1, "PASS", [1], 1, mask=0)
    s.ask(1, "STORE", [1], 1)
    s.ask(1, "INTERCHANGE", [1], 1)
    look()
    s.ask(1, "STORE", [1, 2], 1)                  # object 1 into its own list
    s.ask(1, "CLENTH", [1, 2, 2, 2, 2, 2])
    s.ask(1, "APPEND", [1, 2], 1)
    s.ask(1, "APPEND", [1], 1, mask=less)
    look()
    s.ask(1, "INTERCHANGE", [1, 1], 1)            # the pretarget's own slot changes
    look()
    s.ask(1, "INTERCHANGE", [5, 2], 5)            # and by a way that is not clear
    look()
    for new, path in ((1, [1, 1]), (7, [7, 1]), (7, [7]), (7, [2, 7]), (7, [1])):
        s.ask(1, "LOAD", path=path, n=new)
        s.ask(1, "TAKE", path=path, n=new)
    look()
    s.ask(1, "PASS", [2, 2], 2)                   # the only way to object 2 goes into it
    s.ask(1, "PASSAPPEND", [3], 3)
    s.ask(1, "PASSAPPEND", [3, 1], 4, mask=less)
    look()
    s.ask(1, "STORE", [7], 7, mask=less)          # in place, only restricted
    s.ask(1, "INTERCHANGE", [6], 6, mask=less)
    s.ask(1, "STORE", [6], 6, mask=0)
    s.ask(1, "DELETE", [6])
    s.ask(1, "DELETE", [6])
    look()
    s.ask(2, "DELETE", [1, 1])
    s.ask(2, "DELETE", [1])
    look(2)
    s.reckon()
    return s


def rooms(rule, element):
    """Objects are made, written and ended until there is no room, and again."""
    s = Script(rule, f"room for 16 objects of a process, under {rule.name}, with {element}", element)
    for _ in range(2):
        s.enrol()
    for _ in range(3):
        s.make(2)
    for p in (1, 2):
        for slot in (1, 2, 3):
            s.plant("process", p, slot, slot, rule.full)
    s.open()
    s.ask(1, "UNIV", [4])
    for path in [[a, b] for a in (1, 2) for b in range(1, 9)][:15]:
        s.ask(1, "DATA", path, knt=len(path), room=3)
    s.ask(1, "UNIV", [5])                         # the seventeenth
    s.ask(1, "DATA", [5], knt=65, room=70)        # and what is refused before it
    s.ask(1, "ERASE", [1, 3])
    s.ask(1, "CLENTH", [1, 3])
    s.ask(1, "GETDATA", [1, 3])
    s.ask(1, "UNIV", [1, 3])                      # the slot keeps its capability
    s.ask(1, "DELETE", [1, 3])
    s.ask(1, "UNIV", [1, 3])                      # its place serves again: nothing of before is there
    s.ask(1, "DLENTH", [1, 3])
    s.ask(1, "CLENTH", [1, 3])
    s.ask(1, "DATA", [5])
    s.ask(2, "DATA", [5], knt=64, room=64)        # another share has room
    s.ask(2, "ADDATA", [5], knt=1)
    s.ask(2, "PUTDATA", [5], disp=64, knt=1)
    s.ask(2, "PUTDATA", [5], disp=64, knt=2)
    s.ask(2, "GETDATA", [5], disp=62, knt=8, room=8)
    for slot, mask in ((6, 0), (7, rule.without(PUT)), (8, rule.without(ERASE))):
        s.ask(2, "DATA", [slot], mask=mask, knt=2)
        for kall in ("ADDATA", "PUTDATA", "DLENTH", "GETDATA", "ERASE", "DELETE"):
            s.ask(2, kall, [slot])
    s.ask(2, "STORE", [3, 1], 5)
    s.ask(1, "DLENTH", [3, 1])                    # what one made, the other reads
    s.ask(2, "ERASE", [5])
    s.ask(1, "DLENTH", [3, 1])
    s.ask(1, "LOAD", [3, 1], 5)                   # a capability for what has ended is a slot still
    s.ask(1, "ERASE", [5])
    s.ask(1, "ERASE", [1])
    s.ask(1, "CLENTH", [1, 1])
    s.reckon()
    return s


def mixed(rule, seed):
    """Kalls at random over a scene at random."""
    r = random.Random(f"{rule.name} {seed}")
    s = Script(rule, f"kalls at random, seed {seed}, under {rule.name}")
    some = [rule.full] * 6 + [rule.without(x) for x in (DLT, ENV, LOAD, STO, APP, KILL, GET, MDFY, UCNF)]
    some += [rule.without(x) for x in (PUT, ADDR, ERASE)] + [0, 1, 2, 3]
    for _ in range(3):
        s.enrol()
    for _ in range(9):
        s.make(r.choice((1, 2, 2, 2, 3, 16, 255)), [] if r.random() < .3 else range(r.randrange(1, 9)))
    for p in (1, 2, 3):
        for slot in range(1, 13):
            if r.random() < .7:
                s.plant("process", p, slot, r.randrange(1, 11), r.choice(some))
            elif r.random() < .5:
                s.template("process", p, slot, r.choice(some))
    for n in range(1, 10):
        for slot in range(1, 9):
            if r.random() < .5:
                s.plant("object", n, slot, r.randrange(1, 10), r.choice(some))
    s.open()

    def path():
        k = r.choice((1, 1, 2, 2, 2, 3, 3, 4, 6, 7) if r.random() < .2 else (1, 2, 2, 3))
        return [r.randrange(0, 14) if i == 0 else r.randrange(1, 9) for i in range(k)]

    for _ in range(250):
        kall = r.choice(["LENTH"] + WITH_PATH)
        p = r.choice((1, 1, 1, 2, 2, 3, 4) if r.random() < .1 else (1, 1, 2, 3))
        if kall == "LENTH":
            s.ask(p, kall)
            continue
        mask = r.choice((None, r.choice(some), rule.invalid)) if kall in MASKED else None
        room = r.randrange(60, 70) if r.random() < .1 else r.randrange(0, 9)
        s.ask(p, kall, path(), r.randrange(0, 14), mask, r.randrange(0, 9), r.randrange(0, room + 2), room)
    s.reckon()
    return s


def main():
    scripts = {}
    for rule in (Bits(), Steps()):
        scripts[f"every-LENTH-{rule.name}"] = lengths(rule)
        for kall in WITH_PATH:
            scripts[f"every-{kall}-{rule.name}"] = every(rule, kall)
        scripts[f"alias-{rule.name}"] = alias(rule)
        for element in ("words", "floats"):
            scripts[f"rooms-{rule.name}-{element}"] = rooms(rule, element)
        for seed in range(1, 9):
            scripts[f"mixed-{rule.name}-{seed}"] = mixed(rule, seed)
    if sys.argv[1:] == ["--reached"]:
        for rule in ("bits", "steps"):
            reached = set().union(*(s.reached for n, s in scripts.items() if n.startswith("every-") and n.endswith(rule)))
            for kall in ["LENTH"] + WITH_PATH:
                by = {}
                for k, signal, at in sorted(reached):
                    if k == kall:
                        by.setdefault(signal, []).append(str(at))
                print(rule, kall, "; ".join(f"{s} {','.join(by[s])}" for s in NUMBERS if s in by))
        return
    for name, script in scripts.items():
        script.write(name)
    print(f"{len(scripts)} scripts, {sum(len(s.out) for s in scripts.values())} lines")


if __name__ == "__main__":
    main()
