"""Random Java source of the machine's profile: classes of static methods over ints, longs, booleans and arrays.

Static fields have no first values, since javac would make a class initializer of them. Each loop and each method takes
one from the static field `fuel` and ends where nothing is left.
"""

THROWN = """Throwable Exception Error RuntimeException ArithmeticException IllegalArgumentException IllegalStateException
NullPointerException NegativeArraySizeException ArrayStoreException IndexOutOfBoundsException
ArrayIndexOutOfBoundsException StackOverflowError OutOfMemoryError""".split()
NARROW = ["byte", "short", "char", "boolean"]
DESCRIPTORS = {"int": "I", "long": "J", "byte": "B", "short": "S", "char": "C", "boolean": "Z"}


class Method:
    """The maker of one method's statements."""

    def __init__(self, random, program, name, result, types):
        self.random, self.program, self.name, self.result, self.types = random, program, name, result, types
        self.locals = [("p%d" % k, kind) for k, kind in enumerate(types)]
        self.depth, self.loops, self.handlers = 0, 0, 0

    def text(self, size):
        random = self.random
        head = "    static %s %s(%s) throws Throwable {" % (self.result, self.name, ", ".join("%s %s" % (kind, name) for name, kind in self.locals))
        lines = [head, "        if (%s.fuel-- <= 0) return%s;" % (self.program.names[0], "" if self.result == "void" else " " + self.plain(self.result))]
        if self.name == "m0":
            lines.insert(1, "        %s.fuel = %d;" % (self.program.names[0], random.randrange(50, 500)))
            for owner, name, kind in self.program.fields:
                if kind.endswith("]") and random.random() < 0.9:
                    lines.append("        %s.%s = new %s[%d];" % (owner, name, kind[:-2], random.randrange(4, 12)))
        for k in range(random.randrange(2, 6)):
            kind = random.choice(["int", "int", "long", "boolean", "byte", "char", "int[]", "long[]", "byte[]", "boolean[]"])
            lines.append("        %s v%d = %s;" % (kind, k, self.value(kind, 2)))
            self.locals.append(("v%d" % k, kind))
        for _ in range(size):
            lines += self.statement(2)
        lines.append("        return%s;" % ("" if self.result == "void" else " " + self.value(self.result, 2)))
        return lines + ["    }"]

    # -- expressions

    def plain(self, kind):
        return "null" if kind.endswith("]") else "false" if kind == "boolean" else "1L" if kind == "long" else "(%s) 3" % kind

    def names(self, kind):
        """The variables of a type: local ones, and static fields."""
        return [name for name, each in self.locals if each == kind] + ["%s.%s" % (owner, name) for owner, name, each in self.program.fields if each == kind]

    def array(self):
        """A variable of an array type, with the type of its elements."""
        found = [(name, kind[:-2]) for name, kind in self.locals if kind.endswith("]")]
        found += [("%s.%s" % (owner, name), kind[:-2]) for owner, name, kind in self.program.fields if kind.endswith("]")]
        return self.random.choice(found) if found else None

    def value(self, kind, depth):
        """An expression of a type."""
        if kind.endswith("]"):
            return self.array_value(kind, depth)
        if kind in NARROW[:3]:
            return "(%s) %s" % (kind, self.atom(self.random.choice(["int", "long"]), depth))
        if depth <= 0 or self.random.random() < 0.2:
            return self.atom(kind, 0)
        return {"int": self.number, "long": self.number, "boolean": self.truth}[kind](kind, depth - 1)

    def atom(self, kind, depth):
        """A literal, a variable, or an expression in brackets."""
        if depth > 0 and self.random.random() < 0.6:
            return "(%s)" % self.value(kind, depth)
        names = self.names(kind)
        if names and self.random.random() < 0.7:
            return self.random.choice(names)
        if kind == "boolean":
            return self.random.choice(["true", "false"])
        value = self.random.choice([0, 1, 2, 3, -1, 5, 7, 31, 33, 64, 127, -128, 255, 1000, 65535, 100000, 2147483647, -2147483648])
        if kind == "long" and self.random.random() < 0.3:
            value = self.random.choice([2**63 - 1, -(2**63), 2**32, 2**40 + 1, -(2**31) - 1])
        return ("(%d%s)" if value < 0 else "%d%s") % (value, "L" if kind == "long" else "")

    def array_value(self, kind, depth):
        names, chance = self.names(kind), self.random.random()
        if names and chance < 0.4:
            return self.random.choice(names)
        if self.program.calm:
            return "new %s[%d]" % (kind[:-2], self.random.randrange(8, 20))
        if chance < 0.43:
            return "null"
        if chance < 0.44:
            return "new %s[%s]" % (kind[:-2], self.random.choice(["-1", "1000000000", "2147483647"]))
        if chance < 0.7:
            return "new %s[] {%s}" % (kind[:-2], ", ".join(self.value(kind[:-2], 1) for _ in range(self.random.randrange(1, 5))))
        return "new %s[%s & 15]" % (kind[:-2], self.atom("int", depth)) if chance < 0.85 else "new %s[%d]" % (kind[:-2], self.random.randrange(1, 20))

    def number(self, kind, depth):
        """An expression of type int or long."""
        chance = self.random.random()
        if chance < 0.38:
            return "%s %s %s" % (self.atom(kind, depth), self.random.choice("+ - * & | ^".split()), self.atom(self.random.choice(["int", kind]), depth))
        if chance < 0.45:
            form = self.random.choice(["(%s | 1)" if self.program.calm else "%s", "(%s | 1)", "(%s | 1)", "(%s | 4)"])
            divisor = form % self.atom(self.random.choice(["int", kind]), depth)
            return "%s %s %s" % (self.atom(kind, depth), self.random.choice("/%"), divisor)
        if chance < 0.57:
            return "%s %s %s" % (self.atom(kind, depth), self.random.choice("<< >> >>>".split()), self.atom(self.random.choice(["int", "long"]), depth))
        if chance < 0.64:
            return "%s%s" % (self.random.choice("-~"), self.atom(kind, depth))
        if chance < 0.72:
            return "(%s) %s" % (kind, self.atom(self.random.choice(["int", "long"]), depth))
        if chance < 0.8:
            return "%s ? %s : %s" % (self.atom("boolean", depth), self.atom(kind, depth), self.atom("int", depth))
        if chance < 0.9:
            return self.element(kind, depth)
        if chance < 0.94:
            names = [name for name in self.names(kind) if not name.endswith((".fuel", ".K"))]
            return self.random.choice(["%s++", "++%s", "%s--", "--%s"]) % self.random.choice(names) if names else self.atom(kind, depth)
        return self.call(kind, depth)

    def element(self, kind, depth):
        """An element or the length of an array."""
        found = self.array()
        if not found or found[1] == "boolean" or (kind == "int" and found[1] == "long"):
            return self.atom(kind, depth)
        if kind == "int" and self.random.random() < 0.3:
            return found[0] + ".length"
        return "%s[%s%s]" % (found[0], self.atom("int", depth), self.mask())

    def mask(self):
        """What keeps an index mostly in range."""
        return self.random.choice([" & 3", " & 3", " & 1", " & 1", " & 7", " & 5" if self.program.calm else ""])

    def call(self, kind, depth):
        later = [method for method in self.program.methods if method[2] == kind and method[1] > self.name]
        if self.random.random() < 0.3 and kind == "int":
            return "%s.r(%s & 31, %s)" % (self.program.names[-1], self.atom("int", depth), self.atom("long", depth))
        if self.random.random() < 0.1 and kind == "long" and not self.program.calm:
            return "%s.s(%s)" % (self.program.names[-1], self.atom("long", depth))
        if not later:
            return self.atom(kind, depth)
        owner, name, _, types = self.random.choice(later)
        return "%s.%s(%s)" % (owner, name, ", ".join(self.value(each, depth - 1) for each in types))

    def truth(self, kind, depth):
        """An expression of type boolean."""
        chance = self.random.random()
        if chance < 0.5:
            each = self.random.choice(["int", "int", "long"])
            return "%s %s %s" % (self.atom(each, depth), self.random.choice("< <= > >= == !=".split()), self.atom(each, depth))
        if chance < 0.7:
            return "%s %s %s" % (self.atom("boolean", depth), self.random.choice("&& || & | ^ == !=".split()), self.atom("boolean", depth))
        if chance < 0.8:
            return "!" + self.atom("boolean", depth)
        found = self.array()
        if not found:
            return self.atom("boolean", depth)
        if found[1] == "boolean" and chance < 0.9:
            return "%s[%s & 3]" % (found[0], self.atom("int", depth))
        return "%s %s null" % (found[0], self.random.choice(["==", "!="]))

    # -- statements

    def block(self, indent, most):
        lines = []
        self.depth += 1
        for _ in range(self.random.randrange(1, most + 1)):
            lines += self.statement(indent)
        self.depth -= 1
        return lines

    def statement(self, indent):
        pad = "    " * indent
        simple = [self.assign, self.assign, self.assign, self.show, self.show, self.step, self.invoke]
        nested = [self.branch, self.branch, self.loop, self.choice, self.guarded, self.end]
        made = self.random.choice(simple if self.depth > 2 or self.random.random() < 0.5 else nested)(indent)
        return made if isinstance(made, list) else [pad + made]

    def assign(self, indent):
        found = self.array()
        if found and self.random.random() < 0.3:
            operator = self.random.choice(["=", "=", "+=", "<<=", "^=", "|="]) if found[1] != "boolean" else "="
            return "%s[%s%s] %s %s;" % (found[0], self.atom("int", 1), self.mask(), operator, self.value(found[1], 2))
        places = [(name, kind) for name, kind in self.locals if name[0] != "i"]
        places += [("%s.%s" % (owner, name), kind) for owner, name, kind in self.program.fields if name != "fuel" and name[0] != "K"]
        name, kind = self.random.choice(places)
        if kind in DESCRIPTORS and kind != "boolean" and self.random.random() < 0.3:
            operators = "+ - * & | ^ << >> >>>" + ("" if self.program.calm else " / %")
            return "%s %s= %s;" % (name, self.random.choice(operators.split()), self.atom(self.random.choice(["int", "long"]), 2))
        return "%s = %s;" % (name, self.value(kind, 3))

    def step(self, indent):
        names = [name for name, kind in self.locals if kind in DESCRIPTORS and kind != "boolean" and name[0] != "i"]
        return self.random.choice(["%s++;", "%s--;", "%s += 3;"]) % self.random.choice(names) if names else self.assign(indent)

    def show(self, indent):
        kind = self.random.choice(["int", "int", "long", "boolean", "", "byte"])
        if kind == "":
            return "System.out.println();"
        if kind == "byte":
            return "System.out.println((int) %s);" % self.value("byte", 1)[7:]
        return "System.out.println(%s);" % ("%s" if kind == "boolean" else "(" + kind + ") (%s)") % self.value(kind, 2)

    def invoke(self, indent):
        later = [method for method in self.program.methods if method[1] > self.name]
        if not later:
            return self.show(indent)
        owner, name, _, types = self.random.choice(later)
        return "%s.%s(%s);" % (owner, name, ", ".join(self.value(each, 1) for each in types))

    def branch(self, indent):
        pad = "    " * indent
        lines = ["%sif (%s) {" % (pad, self.value("boolean", 3)), *self.block(indent + 1, 3)]
        if self.random.random() < 0.5:
            lines += [pad + "} else {", *self.block(indent + 1, 3)]
        return lines + [pad + "}"]

    def loop(self, indent):
        pad, random = "    " * indent, self.random
        self.loops += 1
        name, fuel = "L%d" % self.loops, "n%d++ < %d && %s.fuel-- > 0" % (self.loops, random.randrange(1, 7), self.program.names[0])
        counter, condition = "i%d" % self.loops, self.value("boolean", 2)
        form = random.choice(["for", "for", "while", "do"])
        known = len(self.locals)
        if form == "for":
            self.locals.append((counter, "int"))
            head = "%s: for (int %s = %s; %s < %d && %s; %s++) {" % (name, counter, random.randrange(-2, 3), counter, random.randrange(1, 12), fuel, counter)
        else:
            head = "%s: while (%s && (%s)) {" % (name, fuel, condition) if form == "while" else "%s: do {" % name
        lines = ["%sint n%s = 0;" % (pad, name[1:]), pad + head, *self.block(indent + 1, 4)]
        if random.random() < 0.4:
            lines.append("%s    if (%s) %s %s;" % (pad, self.value("boolean", 2), random.choice(["break", "continue"]), name))
        lines += self.block(indent + 1, 2)
        del self.locals[known:]
        return lines + [pad + ("} while (%s && (%s));" % (fuel, self.value("boolean", 2)) if form == "do" else "}")]

    def choice(self, indent):
        pad, random = "    " * indent, self.random
        dense = random.random() < 0.6
        keys = random.sample(range(6), random.randrange(1, 5)) if dense else random.sample([-1000, -1, 0, 7, 99, 65536, 2147483647], 3)
        lines = ["%sswitch ((int) %s%s) {" % (pad, self.atom("int", 2), " & 7" if max(keys) < 6 else "")]
        for key in keys:
            lines += ["%s    case %d:" % (pad, key), *self.block(indent + 2, 2)]
            if random.random() < 0.6:
                lines.append(pad + "        break;")
        if random.random() < 0.6:
            lines += [pad + "    default:", *self.block(indent + 2, 2)]
        return lines + [pad + "}"]

    def guarded(self, indent):
        pad, random = "    " * indent, self.random
        self.handlers += 1
        lines = [pad + "try {", *self.block(indent + 1, 3)]
        caught, name = random.choice(THROWN), "e%d" % self.handlers
        form = random.choice(["catch", "catch", "both", "finally"])
        if form != "finally":
            lines += ["%s} catch (%s %s) {" % (pad, caught, name), *self.block(indent + 1, 2)]
            if random.random() < 0.3:
                lines.append("%s    if (%s) throw %s;" % (pad, self.value("boolean", 2), name))
            if caught in ("ArithmeticException", "IndexOutOfBoundsException", "StackOverflowError") and random.random() < 0.7:
                self.handlers += 1
                lines += ["%s} catch (Throwable e%d) {" % (pad, self.handlers), *self.block(indent + 1, 2)]
        if form != "catch":
            lines += [pad + "} finally {", *self.block(indent + 1, 2)]
        return lines + [pad + "}"]

    def end(self, indent):
        condition = " && ".join("(%s)" % self.value("boolean", 2) for _ in range(3))
        if self.random.random() < 0.5 and not self.program.calm:
            return "if (%s) throw new %s();" % (condition, self.random.choice(THROWN))
        return "if (%s) return%s;" % (condition, "" if self.result == "void" else " " + self.value(self.result, 2))


class Program:
    """The classes of one program, and their source. Where it is calm nothing is thrown."""

    method_of = Method

    def __init__(self, random, name, size, calm=False):
        self.random, self.size, self.calm = random, size, calm
        self.names = [name] + ([name + "B"] if random.random() < 0.4 else [])
        self.fields, self.methods = [(name, "fuel", "int")], []
        for owner in self.names:
            for k in range(random.randrange(2, 6)):
                arrays = [] if calm else ["int[]", "long[]", "byte[]", "char[]", "short[]", "boolean[]"]
                kind = random.choice(["int", "int", "long", "long", "byte", "short", "char", "boolean", *arrays])
                self.fields.append((owner, "f%d" % k, kind))
        if random.random() < 0.5:
            self.fields.append((self.names[-1], "K", "int"))
        for k in range(random.randrange(1, 5)):
            types = random.choices(["int", "int", "long", "byte", "char", "boolean", "short", *(["int[]"] if k else [])], k=random.randrange(0, 4))
            result = random.choice(["void", "int", "int", "long", "boolean", "byte", "char", "short", "int" if calm else "int[]"])
            self.methods.append((self.names[0] if k == 0 else random.choice(self.names), "m%d" % k, result, types))

    def source(self):
        return "\n".join("\n".join(self.class_text(owner)) for owner in self.names) + "\n"

    def class_text(self, owner):
        lines = ["class %s {" % owner]
        for each, name, kind in self.fields:
            if each == owner:
                value = " = %d" % self.random.randrange(-9, 99) if name == "K" else ""
                lines.append("    static %s%s %s%s;" % ("final " if name == "K" else "", kind, name, value))
        for each, name, result, types in self.methods:
            if each == owner:
                lines += self.method_of(self.random, self, name, result, types).text(self.random.randrange(self.size // 3, self.size))
        if owner == self.names[-1]:
            lines += ["    static int r(int n, long x) throws Throwable {", "        if (n <= 0) return (int) x;"]
            lines += ["        int y = %s.r(n - 1, x * 3 + n);" % owner, "        return y ^ n;", "    }"]
            lines += ["    static long s(long x) throws Throwable {", "        return %s.s(x + 1) + 1;" % owner, "    }"]
        return lines + ["}"]

    def arguments(self, types):
        """Numbers for a thread that begins with a method of these parameters."""
        bits = {"boolean": 1, "byte": 8, "short": 16, "char": 16, "int": 32, "long": 64}
        numbers = []
        for kind in types:
            low = 0 if kind in ("boolean", "char") else -(2 ** (bits[kind] - 1))
            high = 2 ** bits[kind] + low - 1
            small = [n for n in (0, 1, 2, 3, 7, -1, -5, 40) if low <= n <= high]
            numbers.append(self.random.choice([*small, low, high, self.random.randint(low, high)]))
        return numbers
