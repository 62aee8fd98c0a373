"""Programs of random classes whose methods are written by machine_bytes.py, as lines for class_bytes.py."""
from machine_bytes import ARRAYS, Method


class Program:
    """The classes of one program: their names, static fields and methods, and the lines of each. Where it is calm nothing
    is thrown."""

    method_of = Method

    def __init__(self, random, name, size, calm=False):
        self.random = random
        self.names, self.calm = [name] + ([name + "B"] if random.random() < 0.4 else []), calm
        self.fields, self.methods = [(name, "fuel", "I")], []
        for owner in self.names:
            for k in range(random.randrange(2, 7)):
                desc = random.choice(["Z", "B", "S", "C", "I", "I", "J", "J", *ARRAYS])
                self.fields.append((owner, "f%d" % k, desc))
        for k in range(random.randrange(1, 5)):
            types = random.choices(["I", "I", "J", "I", "B", "C", "S", "Z"] + (["[I", "[J"] if k else []), k=random.randrange(0, 4))
            result = random.choice(["V", "I", "I", "J", "Z", "B", "S", "C", "I" if calm else "[I"])
            owner = self.names[0] if k == 0 else random.choice(self.names)
            self.methods.append((owner, "m%d" % k, "(%s)%s" % ("".join(types), result), types, result))
        self.methods += [(self.names[-1], "deep", "(IJ)I", ["I", "J"], "I"), (self.names[-1], "over", "(J)J", ["J"], "J")]
        self.methods.append((name, "empty", "()V", [], "V"))
        if random.random() < 0.03:
            self.methods.append((name, "far", "(I)I", ["I"], "I"))
        self.sizes = size

    def lines(self, owner):
        """The lines of one class."""
        lines = ["class %s 52" % owner]
        lines += ["field 0x9 %s %s%s" % (name, desc, self.first(name, desc)) for each, name, desc in self.fields if each == owner]
        for each, name, desc, types, result in self.methods:
            if each != owner:
                continue
            if name == "deep":
                lines += self.deep(owner)
            elif name == "over":
                lines += self.over(owner)
            elif name == "empty":
                lines += ["method 0x9 empty ()V 0 0", "return", "line 0 2"]
            elif name == "far":
                lines += self.far(owner)
            else:
                size = self.random.randrange(self.sizes // 4, self.sizes)
                lines += self.method_of(self.random, owner, (name, desc, types, result), self, size).make()
        return lines

    def first(self, name, desc):
        """The ConstantValue of a static field."""
        if name == "fuel":
            return " int:%d" % self.random.choice([self.random.randrange(3, 40), self.random.randrange(40, 150)])
        if desc[0] == "[" or self.random.random() < 0.6:
            return ""
        bits = {"Z": 1, "B": 8, "S": 16, "C": 16, "I": 32, "J": 64}[desc]
        value = self.random.randrange(0, 2**bits) - (0 if desc in "ZC" else 2 ** (bits - 1))
        return " %s:%d" % ("long" if desc == "J" else "int", value)

    def deep(self, owner):
        """A method that calls itself as often as its argument says."""
        body = ["iload_0", "ifgt 4", "iconst_m1", "ireturn", "iload_0", "iconst_1", "isub", "lload_1", "lconst_1", "ladd"]
        body += ["invokestatic %s.deep:(IJ)I" % owner, "iload_0", "ixor", "ireturn", "frame 4 int long |", "line 0 3", "line 4 5", "line 10 6"]
        return ["method 0x9 deep (IJ)I 5 3", *body]

    def far(self, owner):
        """A method with jumps that need the wide layout once it has probes: they pass 32,720 `nop`s."""
        body = ["iload_0", "ifeq 32728", "iload_0", "iconst_3", "if_icmpgt 32728", "iinc 0 1", "iload_0", "tableswitch 32730 1 32728 32728 32730 8"]
        body += ["pad 32720", "iload_0", "ireturn", "iconst_2", "ireturn"]
        return ["method 0x9 far (I)I 3 1", *body, "frame 8 int |", "frame 32728 int |", "frame 32730 int |"]

    def over(self, owner):
        """A method that calls itself without end."""
        return ["method 0x9 over (J)J 4 2", "lload_0", "lconst_1", "lsub", "invokestatic %s.over:(J)J" % owner, "lreturn"]

    def arguments(self, types):
        """Numbers for a thread that begins with a method of these parameters."""
        bits = {"Z": 1, "B": 8, "S": 16, "C": 16, "I": 32, "J": 64}
        numbers = []
        for desc in types:
            low = 0 if desc in "ZC" else -(2 ** (bits[desc] - 1))
            high = 2 ** bits[desc] + low - 1
            small = [n for n in (0, 1, 2, 3, 7, -1, -5, 40) if low <= n <= high]
            numbers.append(self.random.choice([*small, low, high, self.random.randint(low, high)]))
        return numbers
