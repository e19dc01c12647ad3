"""Makes plain Rust of the sources of the crates: contracts and ghost items are left out, and the kit's names become those of
its stand-in. What meets the host, in tta_ports and tta_stdin, is replaced by host.rs and lines.rs, which stand beside this file."""
import os
import re

# The parts of tta_ports and tta_stdin that meet the host, and those that stand for it in tests.
HOSTS = ["real_files", "real_sink", "transfer", "mem_files", "mem_sink", "real_lines", "one_line", "mem_lines"]
# What stands in the place of those of which a crate's root names one.
IN_THEIR_PLACE = {
    "pub use real_files": "mod host;\npub use host::{RealFiles, RealSink};\n",
    "pub use real_lines": "mod host;\npub use host::RealLines;\n",
}

COMMENT = r"//[^\n]*"
STRING = r'"(?:\\.|[^"\\])*"'
CHARACTER = r"'(?:\\.[^'\n]*|[^'\\\n])'"
COMMENT_OR_LITERAL = re.compile(f"{COMMENT}|{STRING}|{CHARACTER}", re.S)
LITERAL = re.compile(f"({STRING}|{CHARACTER})", re.S)

# A program is started as C does.
START = """#[unsafe(no_mangle)]
pub extern \"C\" fn main() -> i32 {
    kit::host::start(program)
}
"""
IS_STARTED = "#![no_main]\n"

# These are changed between strings alone.
NAMES = [
    (r"^use (?:std::marker::Model|thiserror::Error);\n", ""),
    (r"^use std::env;\n", "use kit::host as env;\n"),
    (r"\bstd::rt::", "kit::host::"),
    (r"\bBox::new\(alloc, ", "kit::host::boxed(alloc, "),
    (r"^use std::process::ExitCode;\n", "use kit::host::ExitCode;\n"),
    (r"^fn main\(rt: HostRuntime\) -> ExitCode \{\n", f"{START}\nfn program(rt: HostRuntime) -> ExitCode {{\n"),
    (r"\bstd::alloc::", "kit::alloc::"),
    (r"\bstd::collections::", "kit::collections::"),
    (r"\barrayvec::", "kit::array_vec::"),
    (r"\bindexmap::", "kit::index_map::"),
    (r"\bsmallvec::", "kit::small_vec::"),
    (r"\b(?:itoa|hex)::", "kit::text::"),
    (r"\bsha2::", "kit::digest::"),
    (r"\.collect\(", ".collect_in("),
]
DERIVED = re.compile(r"^([ \t]*)#\[derive\(([^)]*)\)\]\n", re.M)
PRELUDE = "#[allow(unused_imports)]\nuse kit::{eprintln_in as eprintln, prelude::*, prove_in as prove, vec_in as vec};\n"
# An enum whose variants have texts, and one of its variants with its text.
TEXTS = re.compile(r"^#\[derive\([^)]*\bError\b[^)]*\)\]\npub enum (\w+) \{\n(.*?)^\}\n", re.M | re.S)
VARIANT = re.compile(r'#\[error\(("(?:\\.|[^"\\])*")\)\]\s*(\w+)(\s*\{[^}]*\}|\([^)]*\))?')
# A type without fields that has a text.
TEXT = re.compile(r'^(#\[derive\([^)]*\bError\b[^)]*\)\]\n)#\[error\(("(?:\\.|[^"\\])*")\)\]\n(pub struct (\w+);\n)', re.M)


def without_comments(text):
    return COMMENT_OR_LITERAL.sub(lambda found: "" if found[0].startswith("//") else found[0], text)


def blank(text):
    """The text with blanks in place of its strings and characters, so that each other place stays where it is."""
    return LITERAL.sub(lambda found: " " * len(found[0]), text)


def match_end(text, found):
    return found.end()


def brace_end(text, found):
    """The place after the brace that closes the one at the end of what was found."""
    depth, at = 1, found.end()
    while depth:
        depth += {"{": 1, "}": -1}.get(text[at], 0)
        at += 1
    return at


def item_end(text, found):
    """The place after the first semicolon or comma outside of braces."""
    depth, at = 0, found.end()
    while depth or text[at] not in ";,":
        depth += {"{": 1, "}": -1}.get(text[at], 0)
        at += 1
    return at + 1


# What is left out: how it begins, and what gives its end.
PARTS = [
    (r"^impl\b[^{;]*?\bModel for [^{]*\{", brace_end),
    (r"^[ \t]*ghost\b", item_end),
    (r"^[ \t]*(?:requires|ensures\*?)(?:\s+\w+)?\s*\{", brace_end),
    (r"^[ \t]*#!?\[(?:tactic|error)\b[^\]]*\]\n", match_end),
    (rf"^(?:mod|pub use) (?:{'|'.join(HOSTS)})\b", item_end),
]


def without(text, pattern, end):
    """The text without each part that begins as the pattern says and ends at the place that `end` gives."""
    seen, kept, at = blank(text), [], 0
    starts = re.compile(pattern, re.M)
    while found := starts.search(seen, at):
        kept.append(text[at:found.start()])
        at = end(seen, found)
    return "".join(kept) + text[at:]


def derived(found):
    """What is derived, without what Rust does by itself and what makes the text of a status."""
    names = [name for name in found[2].split(", ") if name not in ("Drop", "Error")]
    return f"{found[1]}#[derive({', '.join(names)})]\n" if names else ""


def renamed(code):
    for pattern, name in NAMES:
        code = re.sub(pattern, name, code, flags=re.M)
    return DERIVED.sub(derived, code)


def display(found):
    """The enum again, with what makes the text of each of its variants."""
    arms = []
    for text, variant, fields in VARIANT.findall(found[2]):
        names = ", ".join(re.findall(r"(\w+)\s*:", fields))
        if fields.startswith("("):
            shape, text = "(first)", text.replace("{0}", "{first}")
        else:
            shape = f" {{ {names} }}" if names else ""
        arms.append(f"            Self::{variant}{shape} => write!(f, {text}),\n")
    return (
        f"{found[0]}\nimpl std::fmt::Display for {found[1]} {{\n"
        "    fn fmt(&self, f: &mut std::fmt::Formatter<'_>) -> std::fmt::Result {\n        match self {\n"
        f"{''.join(arms)}        }}\n    }}\n}}\n"
    )


def display_one(found):
    """The type without fields again, with what makes its text."""
    return (
        f"{found[1]}{found[3]}\nimpl std::fmt::Display for {found[4]} {{\n"
        f"    fn fmt(&self, f: &mut std::fmt::Formatter<'_>) -> std::fmt::Result {{\n        write!(f, {found[2]})\n    }}\n}}\n"
    )


def plain(text):
    """A source in plain Rust."""
    text = TEXT.sub(display_one, TEXTS.sub(display, without_comments(text)))
    for pattern, end in PARTS:
        text = without(text, pattern, end)
    pieces = LITERAL.split(text)
    return PRELUDE + "".join(piece if at % 2 else renamed(piece) for at, piece in enumerate(pieces))


def plain_files(source):
    """The sources of a crate in plain Rust: the path of each below its folder, and its text."""
    for folder, _, names in os.walk(source):
        for base, ending in map(os.path.splitext, sorted(names)):
            if ending != ".rt" or base in HOSTS:
                continue
            with open(os.path.join(folder, base + ending), encoding="utf-8") as f:
                text = f.read()
            begin = IS_STARTED if base == "main" else ""
            end = "".join(items for name, items in IN_THEIR_PLACE.items() if name in text)
            yield os.path.join(os.path.relpath(folder, source), base + ".rs"), begin + plain(text) + end
