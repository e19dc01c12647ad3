"""The tokens of LLVM's text, as versions 14 and later write it, and how types and values are read from them.

A reader has one line, or a few that belong together. What it does not know is refused, and never passed over, but for attributes that
say something of speed alone."""
import re

from ir import Refused

TOKEN = re.compile(r'''\s+|;[^\n]*|(c?"[^"]*"|[%@!$](?:"[^"]*"|[-a-zA-Z$._0-9]+)|\#\d+|0x[0-9A-FKMLH]*|-?\d+\.\d+(?:e[-+]?\d+)?|-?\d+|\.\.\.|[-a-zA-Z$._][-a-zA-Z$._0-9]*:?|[()\[\]{}<>,=*!|:]|"[^"]*")''')
BINARY = {"add", "sub", "mul", "udiv", "sdiv", "urem", "srem", "shl", "lshr", "ashr", "and", "or", "xor"}
CASTS = {"trunc", "zext", "sext", "ptrtoint", "inttoptr", "bitcast", "addrspacecast", "fptrunc", "fpext", "fptoui", "fptosi", "uitofp",
         "sitofp"}
FLOATING = {"fadd", "fsub", "fmul", "fdiv", "frem"}
FLAGS = {"nuw", "nsw", "exact", "inbounds", "volatile", "tail", "musttail", "notail", "fast", "nnan", "ninf", "nsz", "arcp", "contract",
         "afn", "reassoc", "nneg", "disjoint", "samesign", "nusw", "inrange"}
FLOATS = {"float", "double", "half", "bfloat", "fp128", "x86_fp80", "ppc_fp128"}
LINKAGE = {"private", "internal", "available_externally", "linkonce", "weak", "common", "appending", "extern_weak", "linkonce_odr",
           "weak_odr", "external", "dso_local", "dso_preemptable", "default", "hidden", "protected", "dllimport", "dllexport",
           "thread_local", "unnamed_addr", "local_unnamed_addr", "externally_initialized"}

# The first letters of names, and values that are a word.
NAMES = {"%": "local", "@": "global"}
WORDS = {"true": ("int", 1), "false": ("int", 0), "null": ("null",), "none": ("null",), "undef": ("undef",), "poison": ("undef",),
         "zeroinitializer": ("zero",)}


class Reader:
    """The tokens of a line or of a few lines, and how a type, a value and an instruction are read from them."""

    def __init__(self, module, text):
        self.m, self.text = module, text
        self.t = [t for t in TOKEN.findall(text) if t]
        self.i = 0

    def peek(self, k=0):
        return self.t[self.i + k] if self.i + k < len(self.t) else ""

    def next(self):
        self.i += 1
        return self.t[self.i - 1] if self.i <= len(self.t) else ""

    def has(self, word):
        if self.peek() == word:
            self.i += 1
            return True
        return False

    def need(self, word):
        if not self.has(word):
            raise Refused(f"`{word}` expected in the line of the representation: {self.text.strip()[:120]}")

    def flags(self):
        found = set()
        while self.peek() in FLAGS:
            found.add(self.next())
        return found

    # Types.

    def type(self):
        ty = self.first_type()
        while True:
            if self.has("*"):
                ty = ("ptr",)
            elif self.peek() == "addrspace":
                self.i += 1
                self.skip_group()
            elif self.peek() == "(":
                self.i += 1
                ty = self.function_type(ty)
            else:
                return ty

    def first_type(self):
        """A type without the stars, or the parameters of a function, that may follow it."""
        t = self.next()
        if t == "ptr":
            if self.peek() == "addrspace":
                self.skip_group()
            return ("ptr",)
        if re.fullmatch(r"i\d+", t):
            return ("int", int(t[1:]))
        if t in FLOATS:
            return ("float", t)
        if t in ("void", "label", "metadata", "token", "opaque", "x86_mmx"):
            return (t,)
        if t == "[":
            return self.array_type()
        if t == "<":
            return self.packed_or_vector_type()
        if t == "{":
            return ("struct", self.types("}"), False)
        if t.startswith("%"):
            return ("named", t)
        raise Refused(f"no type: `{t}` in {self.text.strip()[:120]}")

    def array_type(self):
        n = int(self.next())
        self.need("x")
        ty = ("arr", n, self.type())
        self.need("]")
        return ty

    def packed_or_vector_type(self):
        if self.has("{"):
            ty = ("struct", self.types("}"), True)
            self.need(">")
            return ty
        if self.peek() == "vscale":
            self.i += 2
        n = int(self.next())
        self.need("x")
        ty = ("vec", n, self.type())
        self.need(">")
        return ty

    def function_type(self, result):
        """The rest of a function's type, after the bracket that opens its parameters."""
        params, variadic = [], False
        while not self.has(")"):
            if self.has("..."):
                variadic = True
            else:
                params.append(self.type())
                self.param_attrs()
            self.has(",")
        return ("func", result, tuple(params), variadic)

    def types(self, end):
        found = []
        while not self.has(end):
            found.append(self.type())
            self.has(",")
        return tuple(found)

    def skip_group(self):
        """Passes over a bracket with all that is in it."""
        self.need("(")
        depth = 1
        while depth:
            t = self.next()
            depth += (t == "(") - (t == ")")
            if t == "":
                raise Refused(f"an open bracket in {self.text.strip()[:120]}")

    def param_attrs(self):
        found = set()
        while True:
            t = self.peek()
            if t in ("noundef", "nocapture", "readonly", "readnone", "writeonly", "signext", "zeroext", "inreg", "noalias", "nonnull",
                     "returned", "nofree", "nest", "immarg", "swiftself", "noreturn", "writable", "dead_on_unwind", "dead_on_return"):
                found.add(self.next())
            elif t == "align":
                self.i += 1
                if self.peek() == "(":
                    self.skip_group()
                else:
                    self.i += 1
            elif t in ("dereferenceable", "dereferenceable_or_null", "byval", "sret", "byref", "inalloca", "elementtype", "captures",
                       "range", "initializes", "nofpclass"):
                found.add(self.next())
                self.skip_group()
            elif t.startswith('"') or t.startswith("#"):
                self.i += 1
                if self.has("="):
                    self.i += 1
            else:
                return found

    # Values.

    def value(self, ty):
        t = self.next()
        if t[:1] in NAMES:
            return (NAMES[t[0]], t)
        if re.fullmatch(r"-?\d+", t):
            return ("int", int(t))
        if t in WORDS:
            return WORDS[t]
        if t.startswith('c"'):
            return self.bytes_of(t, ty)
        if t in ("[", "{", "<"):
            return self.aggregate(t)
        if t == "getelementptr":
            return self.constant_step()
        if t in CASTS:
            return self.constant_cast(t)
        if t in BINARY or t in ("icmp", "select"):
            return self.constant_operation(t)
        if t == "blockaddress":
            raise Refused("the address of a label")
        if re.fullmatch(r"0x[0-9A-FKMLH]*|-?\d+\.\d+(e[-+]?\d+)?", t):
            return ("float", t)
        raise Refused(f"no value: `{t}` in {self.text.strip()[:120]}")

    def bytes_of(self, t, ty):
        """The bytes of a text in quotes, which has the length of its type."""
        found = re.sub(rb"\\(\\|[0-9A-Fa-f]{2})", lambda m: m[1] if m[1] == b"\\" else bytes([int(m[1], 16)]), t[2:-1].encode("latin1"))
        if ty[0] != "arr" or len(found) != ty[1]:
            raise Refused(f"text of another length than its type: {self.text.strip()[:120]}")
        return ("bytes", found)

    def aggregate(self, t):
        """The rest of an array, a structure or a vector, after the bracket t."""
        packed = t == "<" and self.has("{")
        end = {"[": "]", "{": "}", "<": ">"}[t] if not packed else "}"
        items = []
        while not self.has(end):
            one = self.type()
            items.append((one, self.value(one)))
            self.has(",")
        if packed:
            self.need(">")
        return ("agg", tuple(items))

    def constant_step(self):
        """The rest of a constant getelementptr."""
        self.flags()
        if self.peek() == "inrange":
            self.i += 1
            self.skip_group()
        self.need("(")
        base = self.type()
        self.need(",")
        pairs = self.pairs(self.flags)
        return ("expr", "gep", base, pairs[0][1], tuple(pairs[1:]))

    def constant_cast(self, t):
        self.need("(")
        frm = self.type()
        v = self.value(frm)
        self.need("to")
        to = self.type()
        self.need(")")
        return ("expr", "cast", t, frm, v, to)

    def constant_operation(self, t):
        self.flags()
        rel = self.next() if t == "icmp" else None
        self.need("(")
        return ("expr", "op", t, rel, tuple(self.pairs()))

    def pairs(self, before=lambda: None):
        """Types and values with commas between them, up to a bracket that closes; `before` reads what stands before each."""
        found = []
        while True:
            before()
            one = self.type()
            found.append((one, self.value(one)))
            if not self.has(","):
                break
        self.need(")")
        return found

    def typed(self):
        ty = self.type()
        self.param_attrs()
        return ty, self.value(ty)

    # Instructions.
