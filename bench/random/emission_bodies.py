"""Random methods for `slow_emission.py`: class files whose methods pass the kind check, and the state before each of
their instructions.

A method is a row of blocks. A local variable has one type at the front of all of them, so each frame is known. In blocks
stand statements that leave the stack as it was, conditional jumps out of them, and at their ends jumps, switches, returns
and throws. An operand may wait on the stack while a jump is made, and a new object may wait for its constructor.
"""
import class_bytes

JUMPS_BY_INT = ["if" + name for name in ("eq", "ne", "lt", "ge", "gt", "le")]
JUMPS_BY_INTS = ["if_icmp" + name for name in ("eq", "ne", "lt", "ge", "gt", "le")]
JUMPS_BY_REFERENCE = ["ifnull", "ifnonnull"]
JUMPS_BY_REFERENCES = ["if_acmpeq", "if_acmpne"]
LETTERS = {"int": "i", "long": "l", "float": "f", "double": "d"}
ZEROS = {"int": "iconst_0", "long": "lconst_0", "float": "fconst_0", "double": "dconst_0"}
DESCRIPTORS = {"int": "I", "long": "J", "float": "F", "double": "D", "class:A": "LA;", "class:[I": "[I"}
THROWN = "java/lang/Throwable"


def letter(kind):
    return LETTERS.get(kind, "a")


def is_double(kind):
    return kind in ("long", "double")


def slots(kinds):
    """Local variables of these types, one behind the other."""
    found = []
    for kind in kinds:
        found += [kind, "top"] if is_double(kind) else [kind]
    return found


class Label:
    """A place where jumps lead: `stack` is what waits there, and `at` its instruction."""

    def __init__(self, stack=()):
        self.stack, self.at, self.wanted = list(stack), None, False


class Maker:
    """Makes one method."""

    def __init__(self, rng, number):
        self.rng, self.number = rng, number
        self.insns, self.states, self.frames = [], [], {}
        self.rows, self.lines, self.vars, self.types = [], [], [], []
        self.locals, self.stack, self.most_stack, self.live = [], [], 0, True
        self.make()

    def chance(self, of):
        return self.rng.random() < of

    # -- instructions

    def put(self, words, takes=0, gives=()):
        """Puts an instruction that takes so many values and leaves these."""
        self.states.append((list(self.locals), list(self.stack)))
        self.insns.append(words)
        if takes:
            del self.stack[-takes:]
        self.stack += gives
        self.most_stack = max(self.most_stack, sum(2 if is_double(kind) else 1 for kind in self.stack))

    def place(self, label, locals_, frame):
        """The label stands here, with a frame where one is wanted."""
        label.at = len(self.insns)
        if frame or label.wanted or not self.live:
            self.locals, self.stack, self.live = list(locals_), list(label.stack), True
            self.frames[label.at] = (list(locals_), list(label.stack))
            self.most_stack = max(self.most_stack, len(self.stack))

    def load(self, slot):
        kind = self.locals[slot]
        self.put([letter(kind) + "load", str(slot)], 0, [kind])

    def store(self, slot):
        kind = self.stack[-1]
        self.put([letter(kind) + "store", str(slot)], 1)
        self.locals[slot] = kind
        if is_double(kind):
            self.locals[slot + 1] = "top"

    def holding(self, wanted):
        """The local variables of which this holds."""
        return [slot for slot, kind in enumerate(self.locals) if wanted(kind)]

    def push(self, wanted):
        """Pushes an int or a reference."""
        if wanted == "int":
            found = self.holding(lambda kind: kind == "int")
            if found and self.chance(0.6):
                self.load(self.rng.choice(found))
            else:
                self.put(self.rng.choice([["iconst_3"], ["bipush", "-7"], ["sipush", "300"], ["ldc", "int:70000"]]), 0, ["int"])
        else:
            found = self.holding(lambda kind: kind.startswith("class:") or kind == "null")
            if found and self.chance(0.7):
                self.load(self.rng.choice(found))
            else:
                self.put(["aconst_null"], 0, ["null"])

    # -- statements

    def statement(self):
        self.rng.choice([self.nop, self.count, self.copy, self.call, self.sum, self.clear, self.make_object, self.frame_here])()

    def nop(self):
        self.put(["nop"])

    def frame_here(self):
        """A frame to which no jump leads."""
        self.frames[len(self.insns)] = (list(self.locals), list(self.stack))

    def count(self):
        found = self.holding(lambda kind: kind == "int")
        if found:
            self.put(["iinc", str(self.rng.choice(found)), str(self.rng.choice([1, -1, 1000]))])

    def copy(self):
        found = self.holding(lambda kind: kind in LETTERS)
        if found:
            slot = self.rng.choice(found)
            self.load(slot)
            self.store(self.rng.choice(self.holding(lambda kind: kind == self.locals[slot])))

    def call(self):
        self.put(["invokestatic", "A.g:()V"])

    def sum(self):
        self.push("int")
        self.push("int")
        self.put(["iadd"], 2, ["int"])
        self.put(["pop"], 1)

    def clear(self):
        found = self.holding(lambda kind: kind == "class:A")
        if found and self.chance(0.5):
            self.put(["aconst_null"], 0, ["null"])
            self.store(self.rng.choice(found))

    def make_object(self):
        """A new object that waits while a jump is made, perhaps in a local variable too."""
        kind = "new:%d" % len(self.insns)
        self.put(["new", "A"], 0, [kind])
        self.put(["dup"], 1, [kind, kind])
        kept = self.spare is not None and self.chance(0.5)
        if kept:
            self.store(self.spare)
        else:
            self.put(["pop"], 1)
        if self.chance(0.7):
            locals_, label = list(self.locals), Label(self.stack)
            self.jump(label)
            if self.chance(0.5):
                self.nop()
            self.place(label, locals_, True)
        self.put(["invokespecial", "A.<init>:()V"], 1)
        self.locals = ["class:A" if each == kind else each for each in self.locals]
        if kept:
            self.put(["aconst_null"], 0, ["null"])
            self.store(self.spare)

    # -- control flow

    def jump(self, label):
        """A conditional jump, with what waits at the label on the stack."""
        label.wanted = True
        op = self.rng.choice(self.rng.choice([JUMPS_BY_INT, JUMPS_BY_INTS, JUMPS_BY_REFERENCE, JUMPS_BY_REFERENCES]))
        wanted = "int" if op in JUMPS_BY_INT + JUMPS_BY_INTS else "reference"
        takes = 2 if op in JUMPS_BY_INTS + JUMPS_BY_REFERENCES else 1
        for _ in range(takes):
            self.push(wanted)
        self.put([op, label], takes)

    def leave(self):
        """A conditional jump out of the block, and what waits on the stack is dropped behind it."""
        fresh = [label for label in self.labels if not label.wanted]
        label = self.rng.choice(fresh if fresh and self.chance(0.5) else self.labels)
        for _ in label.stack:
            self.push("int")
        self.jump(label)
        if self.chance(0.2):
            self.frame_here()
        for _ in label.stack:
            self.put(["pop"], 1)

    def switch(self):
        """A switch whose targets all have as much on the stack."""
        like = self.rng.choice(self.labels)
        targets = [label for label in self.labels if label.stack == like.stack]
        for _ in like.stack:
            self.push("int")
        self.push("int")
        found = [self.rng.choice(targets) for _ in range(self.rng.randrange(1, 7))]
        for label in found:
            label.wanted = True
        if self.chance(0.5):
            self.put(["tableswitch", found[0], str(self.rng.randrange(-5, 5)), *found[1:], found[0]], 1)
        else:
            self.put(["lookupswitch", found[0], *((3 * key - 4, label) for key, label in enumerate(found[1:]))], 1)

    def end(self, following):
        """Ends a block. `following` is the next one's label, if there is one."""
        choice = self.rng.choice(["fall", "fall", "goto", "switch", "return", "throw"])
        if choice == "fall" and following is not None:
            for _ in following.stack:
                self.push("int")
            return
        if choice in ("fall", "goto"):
            label = self.rng.choice(self.labels)
            label.wanted = True
            for _ in label.stack:
                self.push("int")
            self.put(["goto", label])
        elif choice == "switch":
            self.switch()
        elif choice == "return":
            if self.returns:
                self.put([ZEROS[self.returns]], 0, [self.returns])
            self.put([letter(self.returns) + "return" if self.returns else "return"], 1 if self.returns else 0)
        else:
            self.put(["aconst_null"], 0, ["null"])
            self.put(["athrow"], 1)
        self.stack, self.live = [], False

    # -- the method

    def make(self):
        rng = self.rng
        self.is_init = self.chance(0.08)
        self.static = not self.is_init and self.chance(0.7)
        self.kinds = [rng.choice(list(DESCRIPTORS)) for _ in range(rng.randrange(0, 4))]
        self.returns = None if self.is_init else rng.choice([None, "int", "long", "double"])
        receiver = [] if self.static else ["this" if self.is_init else "class:A"]
        self.args = len(slots(receiver + self.kinds))
        self.locals = slots(receiver + self.kinds)
        kinds = [rng.choice(["int", "long", "float", "double", "class:A"]) for _ in range(rng.randrange(0, 4))]
        gap = rng.choice([0, 0, 0, 1, 252])
        added = len(self.locals) + gap
        self.spare = added + len(slots(kinds)) if self.chance(0.5) else None
        self.max_locals = added + len(slots(kinds)) + (1 if self.spare is not None else 0)
        self.locals += ["top"] * (self.max_locals - len(self.locals))
        self.prologue(added, kinds)
        self.blocks()
        self.tables()

    def prologue(self, added, kinds):
        """Local variables get their types here."""
        if self.is_init:
            if self.chance(0.5):
                label = Label()
                self.jump(label)
                self.nop()
                self.place(label, self.locals, True)
            self.put(["aload", "0"], 0, ["this"])
            self.put(["invokespecial", "java/lang/Object.<init>:()V"], 1)
            self.locals[0] = "class:A"
        slot = added
        for kind in kinds:
            if kind in ZEROS:
                self.put([ZEROS[kind]], 0, [kind])
            else:
                self.put(["aconst_null"], 0, ["null"])
                self.put(["checkcast", "A"], 1, ["class:A"])
            self.store(slot)
            slot += 2 if is_double(kind) else 1
        if 0 < self.args < self.max_locals and self.spare != self.args and self.chance(0.04):
            self.straddle()
        self.begin = len(self.insns)

    def straddle(self):
        """A long in the last local variable of the arguments and the next one."""
        self.put(["lconst_0"], 0, ["long"])
        self.store(self.args - 1)
        if self.args > 1 and is_double(self.locals[self.args - 2]):
            self.locals[self.args - 2] = "top"

    def blocks(self):
        rng, fixed = self.rng, list(self.locals)
        count = rng.randrange(1, 9)
        self.labels = [Label(["int"] if k and self.chance(0.2) else []) for k in range(count)]
        handler = Label(["class:" + THROWN]) if self.chance(0.5) else None
        for k, label in enumerate(self.labels):
            self.pending(label, fixed, k)
            for _ in label.stack:
                self.put(["pop"], 1)
            for _ in range(rng.randrange(0, 5)):
                self.rng.choice([self.statement, self.statement, self.leave])()
            self.end(self.labels[k + 1] if k + 1 < count else None)
        if handler:
            handler.wanted = True
            self.place(handler, fixed, True)
            self.put(["athrow"] if self.chance(0.5) else ["pop"], 1)
            if self.insns[-1] == ["pop"]:
                self.returns_now()
            self.guard(handler)
        self.aim()

    def returns_now(self):
        if self.returns:
            self.put([ZEROS[self.returns]], 0, [self.returns])
        self.put([letter(self.returns) + "return" if self.returns else "return"], 1 if self.returns else 0)

    def pending(self, label, fixed, k):
        """Each label but the first has a frame, so that later jumps may lead there. The first one has it where a jump leads
        to it, which is known at the end."""
        if k:
            self.place(label, fixed, True)
        else:
            label.at = len(self.insns)
            self.first, self.first_state = label, (list(fixed), [])

    def guard(self, handler):
        """Rows of the exception table. The last ones may be the same."""
        for _ in range(self.rng.randrange(1, 4)):
            start = self.rng.randrange(self.begin, len(self.insns))
            end = self.rng.randrange(start + 1, len(self.insns) + 1)
            self.rows.append((start, end, handler.at, self.rng.choice(["any", THROWN])))

    def aim(self):
        """Places for labels."""
        aimed = lambda word: str(word.at) if isinstance(word, Label) else "%d:%d" % (word[0], word[1].at) if isinstance(word, tuple) else word
        if self.first.wanted:
            self.frames[self.first.at] = self.first_state
        self.insns = [[aimed(word) for word in words] for words in self.insns]

    def tables(self):
        rng, count = self.rng, len(self.insns)
        self.lines = [(rng.randrange(count), rng.randrange(1, 99)) for _ in range(rng.randrange(0, 7))]
        for table in (self.vars, self.types):
            for _ in range(rng.randrange(0, 4) if self.max_locals else 0):
                start = rng.randrange(count)
                end = rng.randrange(start, count + 1)
                table.append((start, end, rng.choice("xyz"), rng.choice(["I", "J", "LA;"]), rng.randrange(self.max_locals)))

    # -- the words of class_bytes.py

    def text(self):
        name = "<init>" if self.is_init else "m%d" % self.number
        desc = "(%s)%s" % ("".join(DESCRIPTORS[kind] for kind in self.kinds), DESCRIPTORS[self.returns] if self.returns else "V")
        lines = ["method %s %s %s %d %d" % ("0x9" if self.static else "0x1", name, desc, self.most_stack, self.max_locals)]
        lines += [" ".join(words) for words in self.insns]
        for at in sorted(self.frames):
            lines.append("frame %d %s | %s" % (at, frame_words(self.frames[at][0]), frame_words(self.frames[at][1])))
        lines += ["handler %d %d %d %s" % row for row in self.rows]
        lines += ["line %d %d" % line for line in self.lines]
        lines += ["var %d %d %s %s %d" % var for var in self.vars]
        lines += ["type %d %d %s %s %d" % var for var in self.types]
        return lines

    def known(self):
        """The state before each instruction: that of the frame, where there is one."""
        return [self.frames.get(at, state) for at, state in enumerate(self.states)]


def frame_words(kinds):
    """Types as class_bytes.py has them, where a long or a double stands for both of its own."""
    names, words, skip = {"this": "uninitializedThis"}, [], False
    for kind in kinds:
        if not skip:
            words.append(names.get(kind, kind.replace("new:", "uninitialized:")))
        skip = not skip and is_double(kind)
    return " ".join(words)


def random_class(rng, count):
    """The bytes of a class of so many random methods, and the methods."""
    makers = [Maker(rng, number) for number in range(count)]
    lines = ["class A 52"] + [line for maker in makers for line in maker.text()]
    return class_bytes.class_bytes(lines), makers
