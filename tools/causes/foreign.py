"""What stands in other languages for operations and relations, and what each is called here."""
MARKS = {"+": "add", "-": "sub", "*": "mul", "/": "divu", "%": "remu", "&": "and", "|": "or", "^": "xor", "<<": "shl", ">>": "shru"}
OTHER_NAMES = {
    "plus": "add", "minus": "sub", "subtract": "sub", "times": "mul", "mult": "mul", "multiply": "mul", "div": "divu", "divide": "divu", "mod": "remu",
    "rem": "remu", "modulo": "remu", "lsl": "shl", "sll": "shl", "sla": "shl", "lsr": "shru", "srl": "shru", "asr": "shr", "sra": "shr", "inv": "not",
    "negate": "neg", "equal": "eq", "less": "lt", "greater": "gt", "inc": "add", "dec": "sub", "ldw": "load", "stw": "store",
}
RELATION_MARKS = {"<": "lt", ">": "gt", "==": "eq", "!=": "ne"}
BEFORE = {"-": "neg", "~": "not"}
# Relations that programs of other languages have: the one of this language, and whether its operands change places.
OTHER_RELATIONS = {
    "gt": ("lt", True), "le": ("ge", True), "gtu": ("ltu", True), "leu": ("geu", True), ">": ("lt", True), "<=": ("ge", True), "<": ("lt", False),
    ">=": ("ge", False), "==": ("eq", False), "=": ("eq", False), "!=": ("ne", False),
}
