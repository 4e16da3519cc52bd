"""Deletes the contracts from a source in Rattle, and makes ordinary Rust of what is left.

Rattle's sources are Rust's, with clauses and ghost items among them. `deleted` takes these out and changes nothing
else; `same_code.py` shows that Rattle's compiler makes the same code of the outcome. `erased` does the same, and then
what Rust has otherwise: bounds and impls of `Drop` and functions that are exported to C go, and paths and a few calls
are renamed. A form that no rule knows is refused, and so is an outcome that has more than the forms of Rust's that are
listed here.
"""

import collections
import re

# The kit's libraries, and the modules of std from which Rust's differ: the stand-ins for both are in src/support.
LIBRARIES = ["anyhow", "circular_buffer", "uuid"]
STD = ["alloc", "collections", "hash", "io", "simd", "time"]
# What outcomes may have of Rust's, outside texts, characters and comments: attributes, macros, keywords, and those of
# them that may stand behind a name or a closing bracket. The sources need no more.
DERIVES = "Clone|Copy|Debug|Default|Eq|Ord|PartialEq|PartialOrd"
ATTRIBUTES = r"inline(?:\((?:always|never)\))?|cold|allow\(clippy::too_many_arguments\)|derive\(%s\)"
ATTRIBUTE = re.compile(r"#\[(?:%s)\]" % ATTRIBUTES % rf"(?:{DERIVES})(?:, (?:{DERIVES}))*")
MACROS = ["matches", "unreachable", "write", "writeln"]
BEHIND = "as|else|for|if|in|where"
WORDS = BEHIND + "|const|enum|fn|impl|let|loop|match|mod|mut|pub|return|struct|trait|type|use|while"
NUMBERS = "u8|u32|u64|u128|usize"
# What no outcome may have, so that nothing of Rattle's is left over. Names stand behind keywords and marks, not behind
# other names, as in `proof fn` or `fn f() decreases n`. Before a brace they are types, or what is asked, as in
# `if x {`.
NOT_LEFT = [
    ("a character of Rattle's", r"[^\x00-\x7f]"),
    ("an attribute", r"#.*"),
    ("a word of Rattle's", r"\b(?:ghost|requires|ensures|Drop|Model|HostRuntime|unsafe)\b|==>"),
    ("a clone that can fail", r"(?<!crate::support::)\bclone\b(?!\(&self\) -> Self \{)"),
    ("a word behind a name", rf"\b(?!(?:{WORDS})\b)\w+\s+(?!(?:{BEHIND})\b)\w+"),
    ("a word behind a bracket or text", rf"[])\"]\s*(?!(?:{BEHIND})\b)\w+"),
    ("a word behind a type", r"\bfn\b[^{;]*[^-\s]\s*>\s*(?!where\b)\w+"),
    ("a word before a brace", rf"(?:\A|[;{{]|}}(?=\s*\w)|=>)(?:(?!=>|\b(?:if|while|match|in)\b)[^;{{}}])*"
                              rf"\b(?!(?:else|loop|bool|str|{NUMBERS})\b)[a-z_]\w*\s*\{{"),
]

FORMS = [
    ("space", re.compile(r"\s+")),
    ("string", re.compile(r'(?:b|c)?r(#*)".*?"\1', re.S)),
    ("string", re.compile(r'(?:b|c)?"(?:[^"\\]|\\.)*"', re.S)),
    ("char", re.compile(r"b?'(?:[^'\\\n]|\\(?:x[0-9a-fA-F]{2}|u\{[0-9a-fA-F_]+\}|.))'")),
    ("lifetime", re.compile(r"'[^\W\d]\w*")),
    ("number", re.compile(r"\d\w*(?:\.\d\w*)?")),
    ("word", re.compile(r"[^\W\d]\w*")),
    ("comment", re.compile(r"//[^\n]*")),
    ("mark", re.compile(r".", re.S)),
]
CLAUSE = re.compile(r"(?:requires|ensures)\*?(?:\s+\w+)?\s*(?=\{)")
GHOST_USE = re.compile(r"ghost\s+use\s[^;]*;")
GHOST_ITEM = re.compile(r"ghost\s+\w+\s*[:=]\s*(?=\{)")
GHOST_MORE = re.compile(r"\s*(?:by|=)\s*(?=\{)")
GHOST_END = re.compile(r"\s*[;,]")
# A ghost member that std requires of an impl: without it, Rattle's compiler makes no code.
REQUIRED = re.compile(r"ghost\s+build_hasher\b")
IMPL_DROP = re.compile(
    r"^impl\b(?:(?!^\}|^impl\b).)*?\bDrop for [^{]*\{\n"
    r"    fn drop\(self\)\s*\{\s*let \w+ \{([^}]*)\} = self;\s*\}\n\}\n",
    re.M | re.S,
)
# A function that is exported to C: in Rust this is `unsafe`, and what it calls is called instead.
EXPORTED = r"""^(?:///.*\n)*#\[unsafe\(no_mangle\)\]\npub extern "C" fn [^{}]*\{\n(?:(?!\}).*\n)*\}\n"""


class Refused(Exception):
    """A form that no rule knows."""


# How often each rule was used.
used = collections.Counter()


def behind_braces(text, at, opening="{", closing="}"):
    """The place behind the brace that closes the one at a place. Proof terms have no braces in strings."""
    depth = 0
    for i in range(at, len(text)):
        depth += (text[i] == opening) - (text[i] == closing)
        if depth == 0:
            return i + 1
    raise Refused(f"braces that do not close: {text[at:at + 60]}")


def ghost_end(text, at):
    """Where the clause or ghost item ends that begins at a place, and the name of its rule."""
    if m := CLAUSE.match(text, at):
        return behind_braces(text, m.end()), "a clause"
    if m := GHOST_USE.match(text, at):
        return m.end(), "ghost use"
    m = GHOST_ITEM.match(text, at)
    if not m:
        raise Refused(f"a ghost item of another form: {text[at:at + 60]}")
    end = behind_braces(text, m.end())
    while m := GHOST_MORE.match(text, end):
        end = behind_braces(text, m.end())
    m = GHOST_END.match(text, end)
    if not m:
        raise Refused(f"a ghost item without an end: {text[at:at + 60]}")
    return m.end(), "a ghost member or field"


def without_ghosts(text, left, keeps_required):
    """Deletes clauses and ghost items, but for those words in strings and comments. `left` says what stays of each."""
    out, at = [], 0
    while at < len(text):
        if text.startswith("/*", at):
            raise Refused("a block comment")
        kind, m = next((kind, m) for kind, form in FORMS if (m := form.match(text, at)))
        is_gone = kind == "word" and m.group() in ("requires", "ensures", "ghost")
        if is_gone and not (keeps_required and REQUIRED.match(text, at)):
            end, rule = ghost_end(text, at)
            out.append(left(text[at:end]))
            at = end
            used[rule] += 1
        else:
            out.append(m.group())
            at = m.end()
    return "".join(out)


def change(rule, form, to, text, flags=0):
    """Replaces a form, and counts how often."""
    text, count = re.subn(form, to, text, flags=flags | re.M)
    used[rule] += count
    return text


def deleted(text, for_rattle=False):
    """The source without its contracts. For Rattle's compiler each line stays where it was, and what std requires."""

    def left(gone):
        return "\n" * gone.count("\n") if for_rattle else ""

    def left_of(m):
        return left(m.group())

    text = without_ghosts(text, left, for_rattle)
    text = change("impl Model", r"^impl\b(?:(?!^\}|^impl\b|\{).)*?\bModel\s+for [^{]*\{\s*\}\n", left_of, text, re.S)
    text = change("use Model", r"^use std::marker::Model;\n", left_of, text)
    return change("use Model", r"^use std::marker::\{Model, PhantomData\};", "use std::marker::PhantomData;", text)


def without_drops(text):
    """Takes bounds and impls of `Drop` away: Rust drops by itself, and each impl only takes its value apart."""

    def gone(m):
        if not re.fullmatch(r"(?:\s*\w+: _,?)*\s*", m.group(1)):
            raise Refused(f"a drop that does more: {m.group()}")
        used["impl Drop, which only takes apart"] += 1
        return ""

    text = IMPL_DROP.sub(gone, text)
    text = change("derive(Drop)", r"#\[derive\(Drop\)\]\n", "", text)
    text = change("derive(Drop)", r"(#\[derive\([^\]]*?), Drop\b", r"\1", text)
    text = change("a bound Drop", r" \+ Drop\b", "", text)
    lines, in_where = [], False
    for line in text.split("\n"):
        in_where = line.strip() == "where" or (in_where and not line.strip().startswith(("{", "}")))
        if in_where and re.fullmatch(r"[ \t]*\w+: Drop,", line):
            used["a bound Drop"] += 1
        else:
            lines.append(line)
    text = change("a bound Drop", r"(\w): Drop\b(?=[,>])", r"\1", "\n".join(lines))
    return re.sub(r"^[ \t]*where\n(?=[ \t]*\{)", "", text, flags=re.M)


def written_clone(m):
    """A clone that is written out; Rust's has no way to refuse but a panic."""
    form = r"fn clone\(&self\) -> Result<\w+, AllocError> (\{.*\})\n\}\n\Z"
    to = r"fn clone(&self) -> Self {\n        crate::support::clone::unless_refused((|| \1)())\n    }\n}\n"
    made, count = re.subn(form, to, m.group(), flags=re.S)
    if count != 1:
        raise Refused(f"a clone of another form: {m.group()}")
    used["a clone that is written out"] += 1
    return made


def renamed(text):
    """What Rust names otherwise."""
    text = change("a Formatter of any writer", r"fmt::Formatter<W>", "fmt::Formatter<'_>", text)
    text = change("a Formatter of any writer", r"<W: fmt::Write>", "", text)
    text = re.sub(r"^impl\b[^{\n]*\bClone for [^{]*\{\n.*?^\}\n", written_clone, text, flags=re.M | re.S)
    text = change("a clone that can fail", r"\.clone\(\)", ".try_clone()", text)
    from_str = "crate::support::string::from_str(alloc, "
    text = change("a text of an allocator", r"\bString::from_str\(alloc, ", from_str, text)
    return change("items of an iterator", r"(?<=\))\.collect\((?=alloc\))", ".collect_in(", text)


def with_paths(text, crate, homes):
    """Paths to crates and libraries, which are modules of one crate now. `homes` says where each crate's is."""
    text = change("a path to a crate", r"\bcrate::(?!support::)", f"crate::{homes[crate]}::{crate}::", text)
    for name, home in homes.items():
        text = change("a path to a crate", r"(?<![\w:`])%s::" % name, f"crate::{home}::{name}::", text)
    for name in LIBRARIES:
        text = change("a path to a library", r"(?<![\w:`])%s::" % name, f"crate::support::{name}::", text)
    for name in STD:
        text = change("a path to a library", r"(?<![\w:`])std::%s::" % name, f"crate::support::{name}::", text)
    return text


def with_prelude(text):
    """The names that each module of Rattle has at hand, in front of the module."""
    head = re.match(r"(?://!.*\n)*", text).group()
    return head + "use crate::support::prelude::*;\n" + text[len(head):]


def tokens(text):
    """The forms in a source, in order: each one's kind, and the form."""
    at = 0
    while at < len(text):
        kind, m = next((kind, m) for kind, form in FORMS if (m := form.match(text, at)))
        yield kind, m.group()
        at = m.end()


def literals(text):
    """The texts and characters in a source, in order."""
    return [it for kind, it in tokens(text) if kind in ("string", "char")]


def refuse_left_over(text):
    """Refuses a source that has other forms than those that are listed at the top."""
    left = {"string": '""', "char": '""', "lifetime": "'", "comment": ""}
    code = "".join(left.get(kind, it) for kind, it in tokens(text))
    code = re.sub(r"\bpub\((?:crate|super)\)", "pub", ATTRIBUTE.sub("", code))
    for what, form in NOT_LEFT:
        if m := re.search(form, code):
            raise Refused(f"{what} is left over: {m.group()}")
    # An argument that ends with a semicolon is Rattle's.
    for m in re.finditer(rf"\b(?!(?:{WORDS})\b)((?:\w+::)*\w+)\s*!(?!=)(\(?)", code):
        if m[1] not in MACROS or not m[2] or ";" in code[m.end():behind_braces(code, m.end() - 1, "(", ")")]:
            raise Refused(f"a macro is left over: {code[m.start():m.end() + 60]}")


def erased(text, crate, homes):
    """A source as an ordinary module of Rust."""
    text = change("a function exported to C", EXPORTED, "", deleted(text))
    before = literals(text)
    text = change("a tactic", r"^[ \t]*#!?\[tactic\([^\]]*\)\]\n", "", text)
    # Blank space and comments that spoke of what is gone.
    text = re.sub(r"[ \t]+$", "", text, flags=re.M)
    text = re.sub(r"\n[ \t\n]*\n([ \t]*\{)", r"\n\1", text)
    text = without_drops(text)
    if re.search(r"//[^\n]*\n[ \t\n]*;", text):
        raise Refused("a semicolon alone, behind a comment")
    text = re.sub(r"\n[ \t\n]*;", ";", text)
    text = re.sub(r"\n{3,}", "\n\n", text)
    text = renamed(text)
    text = with_prelude(with_paths(text, crate, homes))
    if literals(text) != before:
        raise Refused("a text or a character was changed")
    refuse_left_over(text)
    return text
