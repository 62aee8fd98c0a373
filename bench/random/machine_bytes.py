"""Random classes of the machine's profile as lines for class_bytes.py, with a stack map frame wherever one is needed.

The maker knows the type of each local variable and of each value on the stack before each instruction. A jump leads to a
label with the types that hold there, and a label is placed where the types fit or where nothing falls through.
"""

ARRAYS = {"[Z": 4, "[C": 5, "[B": 8, "[S": 9, "[I": 10, "[J": 11}
ELEMENTS = {"[Z": "b", "[C": "c", "[B": "b", "[S": "s", "[I": "i", "[J": "l"}
THROWN = """Throwable Exception Error RuntimeException ArithmeticException IllegalArgumentException IllegalStateException
NullPointerException NegativeArraySizeException ArrayStoreException IndexOutOfBoundsException
ArrayIndexOutOfBoundsException StackOverflowError OutOfMemoryError""".split()
BINARY = "add sub mul div rem and or xor".split()
SHIFTS = "shl shr ushr".split()
TESTS = "eq ne lt ge gt le".split()


def kind_of(desc):
    """The type of a value on the stack, by its descriptor."""
    if desc == "J":
        return "long"
    if desc[0] == "L":
        return "class:" + desc[1:-1]
    return "class:" + desc if desc[0] == "[" else "int"


def letter_of(kind):
    """The first letter of the instructions on values of a type."""
    return kind[0] if kind in ("int", "long") else "a"


class Label:
    """A place in the code, with the types of the local variables and of the stack there."""

    def __init__(self, slots, stack):
        self.slots, self.stack, self.at = list(slots), list(stack), None


class Method:
    """The maker of one method. The first slots are its parameters, then those that always hold a value of one type."""

    def __init__(self, random, owner, signature, program, size):
        self.random, self.owner, self.program, self.size = random, owner, program, size
        self.name, self.desc, self.types, self.result = signature
        self.insns, self.frames, self.lines, self.pending, self.heads = [], {}, {}, [], []
        self.stack, self.slots, self.live, self.most = [], [], True, 0
        for desc in self.types:
            self.slots += [kind_of(desc)] + (["second"] if desc == "J" else [])
        self.kept = len(self.slots)
        if random.random() < 0.06:
            self.slots += [None] * random.choice([100, 260])

    # -- instructions and types

    def emit(self, *words):
        if self.random.random() < 0.15:
            self.lines[len(self.insns)] = self.random.randrange(1, 40)
        self.insns.append(list(words))

    def push(self, kind):
        self.stack.append(kind)
        self.most = max(self.most, sum(2 if each == "long" else 1 for each in self.stack))

    def set_slot(self, slot, kind):
        if slot > 0 and self.slots[slot - 1] == "long":
            self.slots[slot - 1] = None
        if slot + 1 < len(self.slots) and self.slots[slot] == "long":
            self.slots[slot + 1] = None
        self.slots[slot] = kind
        if kind == "long":
            if self.slots[slot + 1] == "long":
                self.slots[slot + 2] = None
            self.slots[slot + 1] = "second"

    def begin(self):
        """Puts a value into each slot that always holds one, and a first value into some others."""
        random = self.random
        self.fuel = self.new_slot("int", "bipush %d" % random.randrange(2, 25))
        for kind in random.choices(["int", "long", *("class:" + name for name in ARRAYS)], k=random.randrange(1, 5)):
            if kind.startswith("class:") and random.random() < 0.05 and not self.program.calm:
                self.new_slot(kind, "aconst_null")
            else:
                self.new_slot(kind)
        self.kept = len(self.slots)
        self.slots += [None] * random.randrange(3, 7)
        self.spend()
        if self.name == "m0":
            self.fill()
        self.first = len(self.insns)

    def new_slot(self, kind, words=None):
        slot = len(self.slots)
        if words:
            self.emit(*words.split())
            self.push(kind)
        else:
            self.value(kind)
        self.emit(letter_of(kind) + "store", slot)
        self.stack.pop()
        self.slots += [kind] + (["second"] if kind == "long" else [])
        return slot

    def fill(self):
        """Puts arrays into most static fields for them."""
        for owner, name, desc in self.program.fields:
            if desc[0] == "[" and self.random.random() < 0.9:
                self.emit("bipush", self.random.randrange(8, 20))
                self.emit("newarray", ARRAYS[desc])
                self.emit("putstatic", "%s.%s:%s" % (owner, name, desc))

    def spend(self):
        """Each call takes one from a static field, and returns where nothing is left."""
        field = "%s.fuel:I" % self.program.names[0]
        self.emit("getstatic", field)
        for words in ("iconst_1", "isub", "dup"):
            self.emit(words)
        self.most = max(self.most, 2)
        self.emit("putstatic", field)
        self.emit("ifle", self.new_label())

    # -- labels

    def fits(self, label, stack=None):
        stack = self.stack if stack is None else stack
        kinds = list(zip(self.slots, label.slots)) + list(zip(stack, label.stack))
        return len(stack) == len(label.stack) and all(fits(here, there) for here, there in kinds)

    def new_label(self, stack=None):
        """A label for which the types hold that hold here."""
        slots = list(self.slots)
        for slot in range(self.kept, len(slots)):
            if self.random.random() < 0.3:
                forget(slots, slot)
        label = Label(slots, self.stack if stack is None else stack)
        self.pending.append(label)
        return label

    def target(self):
        """A label ahead that fits the types that hold here."""
        fitting = [label for label in self.pending if self.fits(label)]
        return self.random.choice(fitting) if fitting and self.random.random() < 0.6 else self.new_label()

    def place(self, label):
        label.at = len(self.insns)
        (self.pending if label in self.pending else self.exits).remove(label)
        self.slots, self.stack, self.live = list(label.slots), list(label.stack), True
        self.frames[label.at] = label
        self.most = max(self.most, sum(2 if each == "long" else 1 for each in self.stack))
        if label in self.handlers:
            self.handler_begins(label)

    def handler_begins(self, label):
        """A handler takes one from the count of its method, and leaves where nothing is left."""
        if self.random.random() < 0.3:
            self.emit("pop")
            self.stack.pop()
        self.emit("iinc", self.fuel, -1)
        self.emit("iload", self.fuel)
        self.push("int")
        self.stack.pop()
        self.exits.append(Label(self.slots, self.stack))
        self.emit("ifle", self.exits[-1])

    def head(self):
        """A place to which later jumps lead back."""
        if len(self.insns) in self.frames:
            return
        for slot in range(self.kept, len(self.slots)):
            if self.random.random() < 0.5:
                forget(self.slots, slot)
        label = Label(self.slots, self.stack)
        label.at = len(self.insns)
        self.frames[label.at] = label
        self.heads.append(label)

    # -- values

    def constant(self):
        value = self.random.choice([0, 1, -1, 2, 5, 7, 31, 32, 63, 64, 127, 128, -128, 255, 256, 32767, -32768, 65535, 2147483647, -2147483648])
        if self.random.random() < 0.4:
            value = self.random.randrange(-(2**31), 2**31) if self.random.random() < 0.4 else self.random.randrange(-9, 40)
        if -1 <= value <= 5 and self.random.random() < 0.8:
            self.emit("iconst_m1" if value < 0 else "iconst_%d" % value)
        elif -128 <= value <= 127 and self.random.random() < 0.9:
            self.emit("bipush", value)
        elif -32768 <= value <= 32767 and self.random.random() < 0.9:
            self.emit("sipush", value)
        else:
            self.emit("ldc_w" if self.random.random() < 0.3 else "ldc", "int:%d" % value)

    def long_constant(self):
        if self.random.random() < 0.3:
            return self.emit("lconst_%d" % self.random.randrange(2))
        values = [2**63 - 1, -(2**63), 2**32, -(2**31), 2**31, -1, 10, 3, self.random.randrange(-(2**63), 2**63), self.random.randrange(-50, 50)]
        return self.emit("ldc2_w", "long:%d" % self.random.choice(values))

    def value(self, kind):
        """Pushes a value of a type: from a slot, a static field or an array, or a new one."""
        slots = [slot for slot, each in enumerate(self.slots) if each == kind and slot != getattr(self, "fuel", None)]
        fields = [(owner, name, desc) for owner, name, desc in self.program.fields if kind_of(desc) == kind and name != "fuel"]
        if self.program.calm and kind[0] == "c":
            fields = []
        chance = self.random.random()
        if slots and chance < 0.45:
            self.emit(letter_of(kind) + "load", self.random.choice(slots))
        elif fields and chance < 0.65:
            self.emit("getstatic", "%s.%s:%s" % self.random.choice(fields))
        elif kind == "int":
            self.constant()
        elif kind == "long":
            self.long_constant()
        elif kind == "null" or self.random.random() < 0.03 and not self.program.calm:
            self.emit("aconst_null")
        elif kind[6:] in ARRAYS:
            self.array_made(kind[6:])
        else:
            self.throwable_made(kind[6:])
        self.push(kind)
        return kind

    def array_made(self, desc):
        chance = self.random.random()
        if self.program.calm:
            self.emit("bipush", self.random.randrange(8, 20))
        elif chance < 0.01:
            self.emit("ldc", "int:%d" % self.random.choice([-1, -2147483648, 1000000000, 2147483647]))
        else:
            self.emit("bipush", self.random.choice([1, 3, 8, 8, 8, 8, 16, 16, 40, 0]))
        self.most = max(self.most, sum(2 if each == "long" else 1 for each in self.stack) + 1)
        self.emit("newarray", ARRAYS[desc])

    def throwable_made(self, name):
        self.emit("new", name)
        self.emit("dup")
        self.most = max(self.most, sum(2 if each == "long" else 1 for each in self.stack) + 2)
        self.emit("invokespecial", name + ".<init>:()V")

    def some_kind(self):
        return self.random.choice(["int", "int", "int", "long", "long", "class:" + self.random.choice(list(ARRAYS))])

    # -- one step

    def make(self):
        self.handlers, self.exits = [], []
        self.begin()
        for _ in range(self.random.choice([0, 1, 1, 2, 3])):
            name = "java/lang/" + self.random.choice(THROWN)
            label = Label(self.slots[: self.kept] + [None] * (len(self.slots) - self.kept), ["class:" + name])
            self.handlers.append(label)
            self.pending.append(label)
        while len(self.insns) < self.size:
            self.step()
        self.finish()
        return self.lines_of()

    def step(self):
        if not self.live:
            if not self.pending:
                self.size = 0
                return
            self.place(self.random.choice(self.pending))
            return
        if self.pending and self.random.random() < 0.12:
            fitting = [label for label in self.pending if self.fits(label) and len(self.insns) not in self.frames]
            if fitting:
                return self.place(self.random.choice(fitting))
        if len(self.stack) > 5 or sum(2 if each == "long" else 1 for each in self.stack) > 8:
            return self.drop()
        actions = [self.pushes, self.pushes, self.computes, self.computes, self.computes, self.moves, self.stores, self.stores]
        actions += [self.branches, self.branches, self.loops, self.switches, self.elements, self.elements, self.prints, self.calls, self.calls, self.counts]
        actions += [self.leaves, self.heads_here, self.drop]
        return self.random.choice(actions)()

    def top(self, *kinds):
        """The types are those on top of the stack, the last one highest."""
        return len(self.stack) >= len(kinds) and all(here == kind for here, kind in zip(self.stack[len(self.stack) - len(kinds) :], kinds))

    def need(self, *kinds):
        """Pushes values so that these types are on top."""
        if not self.top(*kinds):
            for kind in kinds:
                self.value(kind)

    def took(self, count, *results):
        del self.stack[len(self.stack) - count :]
        for kind in results:
            self.push(kind)

    def pushes(self):
        if self.random.random() < 0.1:
            return self.value("class:java/lang/" + self.random.choice(THROWN))
        return self.value("null" if self.random.random() < 0.05 else self.some_kind())

    def computes(self):
        chance = self.random.random()
        kind = self.random.choice(["int", "int", "long"])
        letter = kind[0]
        if chance < 0.5:
            name = self.random.choice(BINARY)
            self.need(kind, kind)
            if name in ("div", "rem") and (self.program.calm or self.random.random() < 0.8):
                self.emit(letter + "const_1")
                self.push(kind)
                self.emit(letter + "or")
                self.stack.pop()
            self.emit(letter + name)
            self.took(2, kind)
        elif chance < 0.65:
            self.need(kind, "int")
            self.emit(letter + self.random.choice(SHIFTS))
            self.took(2, kind)
        elif chance < 0.72:
            self.need(kind)
            self.emit(letter + "neg")
        elif chance < 0.9:
            name = self.random.choice(["i2l", "l2i", "i2b", "i2c", "i2s"])
            self.need("long" if name == "l2i" else "int")
            self.emit(name)
            self.took(1, "long" if name == "i2l" else "int")
        else:
            self.need("long", "long")
            self.emit("lcmp")
            self.took(2, "int")

    def moves(self):
        """One of the instructions that copy or swap what is on top, where the types allow it."""
        wide = [each == "long" for each in self.stack]
        forms = {"dup": ([0],), "dup_x1": ([0, 0],), "dup_x2": ([0, 0, 0], [1, 0]), "dup2": ([0, 0], [1]), "swap": ([0, 0],)}
        forms.update(dup2_x1=([0, 0, 0], [0, 1]), dup2_x2=([0, 0, 0, 0], [0, 0, 1], [1, 0, 0], [1, 1]))
        name = self.random.choice(list(forms))
        for form in forms[name]:
            count = len(form)
            if len(wide) >= count and [int(each) for each in wide[len(wide) - count :]] == form:
                self.emit(name)
                return self.moved(name, form)
        return self.emit("nop")

    def moved(self, name, form):
        taken = self.stack[len(self.stack) - len(form) :]
        upper = 1 if form[-1] or not name.startswith("dup2") else 2
        if name == "swap":
            return self.took(2, taken[1], taken[0])
        copied = taken[len(taken) - upper :]
        return self.took(len(form), *copied, *taken)

    def stores(self):
        if self.random.random() < 0.35:
            owner, name, desc = self.random.choice([field for field in self.program.fields if field[1] != "fuel"])
            self.need(kind_of(desc))
            self.emit("putstatic", "%s.%s:%s" % (owner, name, desc))
            return self.stack.pop()
        if not self.stack:
            self.value(self.some_kind())
        kind = self.stack[-1]
        slots = [slot for slot in range(self.kept) if self.slots[slot] == kind and slot != self.fuel]
        slots += [slot for slot in range(self.kept, len(self.slots) - 1)]
        slot = self.random.choice(slots)
        self.emit(letter_of(kind) + "store", slot)
        self.stack.pop()
        return self.set_slot(slot, kind)

    def drop(self):
        if not self.stack:
            return self.emit("nop")
        if self.stack[-1] == "long":
            self.emit("pop2")
            return self.took(1)
        if len(self.stack) > 1 and self.stack[-2] != "long" and self.random.random() < 0.4:
            self.emit("pop2")
            return self.took(2)
        self.emit("pop")
        return self.took(1)

    def counts(self):
        slots = [slot for slot, kind in enumerate(self.slots) if kind == "int" and slot != self.fuel]
        if slots:
            by = self.random.choice([1, -1, 7, -128, 127, 128, -129, 32767, -32768])
            self.emit("iinc", self.random.choice(slots), by)

    def tested(self):
        """A conditional jump's name, with its operands taken from the types."""
        chance = self.random.random()
        if chance < 0.4:
            self.need("int")
            self.took(1)
            return "if" + self.random.choice(TESTS)
        if chance < 0.8:
            self.need("int", "int")
            self.took(2)
            return "if_icmp" + self.random.choice(TESTS)
        kind = "class:" + self.random.choice(list(ARRAYS))
        self.need(kind)
        if chance < 0.9:
            self.took(1)
            return self.random.choice(["ifnull", "ifnonnull"])
        self.need(kind)
        self.value(kind)
        self.took(2)
        return self.random.choice(["if_acmpeq", "if_acmpne"])

    def branches(self):
        if self.random.random() < 0.12:
            self.emit("goto", self.target())
            self.live = False
            return
        name = self.tested()
        self.emit(name, self.target())

    def heads_here(self):
        if self.random.random() < 0.6:
            self.head()

    def loops(self):
        """A jump back, by the count of the method."""
        fitting = [label for label in self.heads if self.fits(label)]
        if not fitting:
            return self.heads_here()
        self.emit("iinc", self.fuel, -1)
        self.emit("iload", self.fuel)
        self.push("int")
        self.stack.pop()
        chance = self.random.random()
        if chance < 0.5:
            return self.emit(self.random.choice(["ifgt", "ifge"]), self.random.choice(fitting))
        self.emit("ifle", self.target())
        if chance < 0.8:
            self.emit("goto", self.random.choice(fitting))
        else:
            self.switch_to(fitting)
        self.live = False
        return None

    def switches(self):
        self.switch_to([])
        self.live = False

    def switch_to(self, heads):
        self.value("int")
        if self.random.random() < 0.6:
            self.emit("bipush", self.random.choice([3, 7]))
            self.push("int")
            self.emit("iand")
            self.took(2, "int")
        self.stack.pop()
        some = [self.target() for _ in range(self.random.randrange(1, 4))] + heads
        if self.random.random() < 0.5:
            low = self.random.choice([-2, 0, 0, 1, 2147483640, -2147483648])
            arms = [self.random.choice(some) for _ in range(self.random.randrange(0, 6) if low < 0 or low > 5 else self.random.randrange(1, 7))]
            self.emit("tableswitch", self.random.choice(some), low, *(arms or some[:1]))
        else:
            keys = sorted(self.random.sample([-2147483648, -7, -1, 0, 1, 2, 3, 5, 100, 65535, 2147483647], self.random.randrange(0, 6)))
            self.emit("lookupswitch", self.random.choice(some), *((key, self.random.choice(some)) for key in keys))

    def elements(self):
        """A length, or a load or a store whose index is mostly in range."""
        desc = self.random.choice(list(ARRAYS))
        kind = "long" if desc == "[J" else "int"
        self.value("class:" + desc)
        chance = self.random.random()
        if chance < 0.15:
            self.emit("arraylength")
            return self.took(1, "int")
        self.value("int")
        if self.program.calm or self.random.random() < 0.9:
            self.emit("bipush", 7)
            self.push("int")
            self.emit("iand")
            self.took(2, "int")
        if chance < 0.5:
            self.emit(ELEMENTS[desc] + "aload")
            return self.took(2, kind)
        self.value(kind)
        self.emit(ELEMENTS[desc] + "astore")
        return self.took(3)

    def prints(self):
        desc = self.random.choice(["(I)V", "(I)V", "(J)V", "(Z)V", "()V"])
        out = "java/lang/System.out:Ljava/io/PrintStream;"
        stream = "class:java/io/PrintStream"
        if desc == "(I)V" and self.top("int") and self.random.random() < 0.5:
            self.emit("getstatic", out)
            self.push(stream)
            self.emit("swap")
        elif desc == "(J)V" and self.top("long"):
            self.emit("getstatic", out)
            self.push(stream)
            self.emit("dup_x2")
            self.push(stream)
            self.stack.pop()
            self.emit("pop")
        else:
            self.emit(*(["aconst_null"] if self.random.random() < 0.02 and not self.program.calm else ["getstatic", out]))
            self.push(stream)
            if desc != "()V":
                self.value("long" if desc == "(J)V" else "int")
            if desc == "(Z)V":
                self.emit("iconst_1")
                self.push("int")
                self.emit(self.random.choice(["iand", "iand", "ior"]))
                self.stack.pop()
        self.emit("invokevirtual", "java/io/PrintStream.println:" + desc)
        self.took(1 if desc == "()V" else 2)

    def calls(self):
        later = [method for method in self.program.methods if self.may_call(method)]
        if not later:
            return
        owner, name, desc, types, result = self.random.choice(later)
        for each in types:
            if name == "deep" and each == "I":
                self.emit("bipush", self.random.choice([0, 1, 3, 20, 50]))
                self.push("int")
            else:
                self.value(kind_of(each))
        self.emit("invokestatic", "%s.%s:%s" % (owner, name, desc))
        self.took(len(types), *([kind_of(result)] if result != "V" else []))

    def may_call(self, method):
        name = method[1]
        if name == "over":
            return self.random.random() < 0.15 and not self.program.calm
        return name in ("deep", "empty") or name[0] == "m" and int(name[1:]) > int(self.name[1:])

    def leaves(self):
        """A return, a throw, or nothing of both."""
        chance = self.random.random()
        if chance < 0.12:
            self.returns()
        elif chance < 0.2 and not self.program.calm:
            if not self.stack or not self.stack[-1].startswith("class:java/lang/"):
                self.value("class:java/lang/" + self.random.choice(THROWN))
            self.emit("athrow")
            self.live = False

    def returns(self):
        if self.result == "V":
            self.emit("return")
        else:
            kind = kind_of(self.result)
            if not self.top(kind) and not (kind[0] == "c" and self.top("null")):
                self.value(kind) if self.random.random() < 0.6 else self.plain(kind)
            self.emit(letter_of(kind) + "return")
        self.live = False

    def plain(self, kind):
        """A value that no instruction can fail to give."""
        self.emit({"int": "iconst_3", "long": "lconst_1"}.get(kind, "aconst_null"))
        self.push(kind)

    def finish(self):
        """Places what is left, with a return behind each, that can't throw."""
        while True:
            if self.live:
                if self.result != "V":
                    self.plain(kind_of(self.result))
                self.returns()
            if not self.pending + self.exits:
                return
            self.place((self.pending + self.exits)[0])

    # -- the lines

    def lines_of(self):
        """The lines for class_bytes.py."""
        named = lambda word: str(word.at) if isinstance(word, Label) else "%d:%d" % (word[0], word[1].at) if isinstance(word, tuple) else str(word)
        lines = ["method 0x9 %s %s %d %d" % (self.name, self.desc, self.most + 2, len(self.slots) + 1)]
        lines += [" ".join(named(word) for word in insn) for insn in self.insns]
        for at in sorted(self.frames):
            slots = [kind or "top" for kind in self.frames[at].slots if kind != "second"]
            while slots and slots[-1] == "top":
                slots.pop()
            lines.append("frame %d %s | %s" % (at, " ".join(slots), " ".join(self.frames[at].stack)))
        for label in self.handlers:
            for _ in range(self.random.randrange(1, 4)):
                start = self.random.randrange(self.first, len(self.insns))
                end = self.random.randrange(start + 1, len(self.insns) + 1)
                lines.append("handler %d %d %d %s" % (start, end, label.at, self.caught(label.stack[0][6:])))
        return lines + ["line %d %d" % entry for entry in sorted(self.lines.items())]

    def caught(self, name):
        """The class of a row whose handler takes a throwable of this class: itself, or one below."""
        if name.endswith("/Throwable"):
            return self.random.choice(["any", "any", name, "java/lang/" + self.random.choice(THROWN), "java/io/IOException"])
        return name


def fits(here, there):
    if there is None or there == here:
        return True
    if here == "null":
        return there.startswith("class:")
    return False


def forget(slots, slot):
    """The slot holds no value that is known."""
    if slots[slot] == "long":
        slots[slot + 1] = None
    if slots[slot] == "second":
        slots[slot - 1] = None
    slots[slot] = None
