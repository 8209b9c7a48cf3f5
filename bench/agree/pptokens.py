"""Preprocessing tokens of a text, and where two lists of them differ but for known choices."""
import collections
import os
import re

UNIVERSAL = rb"\\u[0-9a-fA-F]{4}|\\U[0-9a-fA-F]{8}"
TOKEN = re.compile(
    rb"""(?:u8|[uUL])?"(?:[^"\\\n]|\\.)*"        # a string
    |[uUL]?'(?:[^'\\\n]|\\.)*'                 # a character constant
    |(?:[A-Za-z_\x80-\xff]|%s)(?:[\w\x80-\xff]|%s)*
    |\.?[0-9](?:[eEpP][+-]|[.\w\x80-\xff]|%s)*
    |%%:%%:|\.\.\.|<<=|>>=|->|\+\+|--|<<|>>|<=|>=|==|!=|&&|\|\||[-*/%%+&^|]=|\#\#|<:|:>|<%%|%%>|%%:
    |[^ \t\n\v\f\r]"""
    % (UNIVERSAL, UNIVERSAL, UNIVERSAL),
    re.VERBOSE | re.DOTALL,
)


def tokens_of(text):
    """The spellings of a text without comments, in order."""
    return TOKEN.findall(text)


def is_string(token):
    return len(token) > 1 and token.endswith(b'"')


def normal_path(ours, i, theirs, j):
    is_pair = is_string(ours[i]) and is_string(theirs[j]) and b"/" in theirs[j]
    return (1, 1) if is_pair and os.path.normpath(theirs[j][1:-1]) == ours[i][1:-1] else None


def space_in_string(ours, i, theirs, j):
    """But not right after the name `exact`, where a made source spells the argument itself."""
    if not is_string(ours[i]) or not is_string(theirs[j]) or ours[i - 1 : i] == [b"exact"]:
        return None
    return (1, 1) if tokens_of(ours[i][1:-1]) == tokens_of(theirs[j][1:-1]) else None


def executed_pragma(ours, i, theirs, j):
    if ours[i] != b"_Pragma" or ours[i + 1 : i + 2] != [b"("] or ours[i + 3 : i + 4] != [b")"]:
        return None
    inner = ours[i + 2][ours[i + 2].find(b'"') + 1 : -1].replace(b'\\"', b'"').replace(b"\\\\", b"\\")
    wanted = [b"#", b"pragma", *tokens_of(inner)]
    return (4, len(wanted)) if theirs[j : j + len(wanted)] == wanted else None


def acting_pragma(ours, i, theirs, j):
    if ours[i + 1 : i + 2] != [b"pragma"]:
        return None
    if ours[i + 2 : i + 4] in ([b"GCC", b"system_header"], [b"clang", b"system_header"]):
        return 4, 0
    return (6, 0) if ours[i + 2 : i + 3] in ([b"push_macro"], [b"pop_macro"]) else None


def diagnostic_pragma(ours, i, theirs, j):
    if ours[i] != b"_Pragma" or not ours[i + 2 : i + 3] or not ours[i + 2].startswith(b'"GCC diagnostic '):
        return None
    return (4, 0)


def universal_name(ours, i, theirs, j):
    spelled = re.sub(rb"\\U([0-9a-f]{8})", lambda it: chr(int(it[1], 16)).encode(), theirs[j])
    return (1, 1) if spelled == ours[i] else None


def spelled_pragma(ours, i, theirs, j):
    is_pair = ours[i] == b"%:" and theirs[j] == b"#"
    return (1, 1) if is_pair and ours[i + 1 : i + 2] == theirs[j + 1 : j + 2] == [b"pragma"] else None


def kept_comma(ours, i, theirs, j):
    return (1, 0) if ours[i : i + 2] == [b",", b")"] and theirs[j] == b")" else None


def later_line(ours, i, theirs, j):
    is_pair = ours[i].isdigit() and theirs[j].isdigit()
    return (1, 1) if is_pair and 0 < int(theirs[j]) - int(ours[i]) < 100 else None


# What may differ: the compilers that it is so of, the rule, which gives how many tokens of each list stand for each other, and the reason. The first
# four may differ in made sources, too.
KNOWN = {
    "path": ("gcc clang", normal_path, "__FILE__ has the path in normal form, compilers have it as it was found"),
    "space": ("gcc clang", space_in_string, "white space inside the string that # makes of what macros left (6.10.3.2 does not say it)"),
    "digraph": ("gcc clang", spelled_pragma, "the # of a #pragma is printed as it is spelled"),
    "line": ("clang", later_line, "__LINE__ in a call over lines is in clang that of its end, and after a #line over lines counts on from its first"),
    "pragma": ("gcc clang", executed_pragma, "_Pragma passes through, compilers print the directive that it stands for (6.10.9)"),
    "comma": ("gcc clang", kept_comma, "`, ## __VA_ARGS__` keeps its comma, compilers drop it if no argument is left for `...`"),
    "acting": ("gcc clang", acting_pragma, "#pragma system_header, push_macro and pop_macro are printed, compilers do what they say"),
    "diagnostic": ("clang", diagnostic_pragma, "clang prints no _Pragma of diagnostics that it does not know"),
    "universal": ("gcc", universal_name, "gcc prints characters of names beyond ASCII as universal character names"),
}
MADE = list(KNOWN)[:4]


def known_choice(names, compiler, ours, i, theirs, j):
    for name in names:
        compilers, rule, _ = KNOWN[name]
        step = rule(ours, i, theirs, j) if compiler in compilers.split() else None
        if step:
            return name, step
    return None


def first_difference(names, compiler, ours, theirs, is_prefix):
    """The places of the first tokens that differ but for the known choices that are named, or None; and how often each of these was met.

    With `is_prefix` theirs may go on where ours end.
    """
    met = collections.Counter()
    if ours == theirs:
        return None, met
    i = j = 0
    while i < len(ours) and j < len(theirs):
        if ours[i] == theirs[j]:
            i, j = i + 1, j + 1
            continue
        choice = known_choice(names, compiler, ours, i, theirs, j)
        if choice is None:
            return (i, j), met
        met[choice[0]] += 1
        i, j = i + choice[1][0], j + choice[1][1]
    is_end = i == len(ours) and (is_prefix or j == len(theirs))
    return None if is_end else (i, j), met


def context(tokens, place):
    """The tokens around a place, which stands between angle brackets."""
    words = [it.decode(errors="backslashreplace") for it in tokens[max(0, place - 8) : place + 6]]
    here = min(place, 8)
    words[here : here + 1] = [f"<<{words[here]}>>"] if here < len(words) else ["<<end>>"]
    return " ".join(words)
