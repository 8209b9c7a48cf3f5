"""Makes C sources: the same bytes for the same seed and size."""
import random

WORDS = (
    "count index buffer length state next first value node table entry offset result status flags size key name type "
    "parent child left right head tail data queue mutex lock file page block device driver handle context request "
    "reply packet header body field mask bit shift word byte line column token lexer parser"
).split()
TYPES = ["int", "unsigned int", "char *", "const char *", "size_t", "struct node *", "void *", "uint32_t", "long"]
OPERATORS = ["+", "-", "*", "&", "|", "^", "<<", ">>", "==", "!=", "<", "<=", "&&", "||"]


def name(r):
    return "_".join(r.choice(WORDS) for _ in range(r.randint(1, 3)))


def operand(r):
    kind = r.randint(0, 9)
    if kind < 5:
        return name(r)
    if kind < 7:
        return str(r.randint(0, 4096))
    if kind == 7:
        return f"0x{r.randint(0, 65535):04x}u"
    if kind == 8:
        return f"{name(r)}->{name(r)}"
    return f"{name(r)}[{name(r)}]"


def expression(r):
    parts = [operand(r)]
    for _ in range(r.randint(0, 3)):
        parts += [r.choice(OPERATORS), operand(r)]
    return " ".join(parts)


def statement(r, depth):
    pad = "\t" * depth
    kind = r.randint(0, 11)
    if kind < 4:
        return f"{pad}{name(r)} = {expression(r)};\n"
    if kind < 6:
        return f"{pad}{name(r)}({expression(r)}, {expression(r)});\n"
    if kind == 6 and depth < 4:
        return f"{pad}if ({expression(r)}) {{\n{statement(r, depth + 1)}{pad}}}\n"
    if kind == 7 and depth < 4:
        return f"{pad}for (i = 0; i < {name(r)}; i++) {{\n{statement(r, depth + 1)}{pad}}}\n"
    if kind == 8:
        return f'{pad}printf("%s: {name(r)} is %d\\n", __func__, {name(r)});\n'
    if kind == 9:
        return f"{pad}/* {' '.join(r.choice(WORDS) for _ in range(r.randint(3, 12)))} */\n"
    if kind == 10:
        return f"{pad}return {operand(r)}; // {name(r)}\n"
    return f"{pad}{r.choice(TYPES)} {name(r)} = {operand(r)};\n"


def function(r):
    body = "".join(statement(r, 1) for _ in range(r.randint(4, 30)))
    return f"static {r.choice(TYPES)} {name(r)}({r.choice(TYPES)} {name(r)}, int i)\n{{\n{body}}}\n\n"


def piece(r):
    kind = r.randint(0, 19)
    if kind == 0:
        return f'#ifdef HAVE_{name(r).upper()}\n#include "{name(r)}.h"\n#endif\n'
    if kind == 1:
        return f"#ifdef HAVE_{name(r).upper()}\n#include <{name(r)}/{name(r)}.h>\n#endif\n"
    if kind == 2:
        return f"#define {name(r).upper()}_{r.randint(0, 10**9)}(x) \\\n\tdo {{ {name(r)}(x); \\\n\t}} while (0)\n"
    if kind == 3:
        return f"#ifdef {name(r).upper()}\n{function(r)}#endif /* {name(r)} */\n"
    if kind == 4:
        lines = "".join(f" * {' '.join(r.choice(WORDS) for _ in range(9))}\n" for _ in range(r.randint(2, 9)))
        return f"/**\n{lines} */\n"
    return function(r)


def write_source(path, size, seed=1):
    """Writes a file of at most `size` bytes, and nearly as many."""
    r = random.Random(seed)
    left = size
    with open(path, "w", encoding="ascii") as out:
        while True:
            text = piece(r)
            if len(text) > left:
                return
            out.write(text)
            left -= len(text)


def pieces_of(count, size, seed=1):
    """So many texts of about this size, without include directives."""
    r = random.Random(seed)
    texts = []
    while len(texts) < count:
        text = ""
        while len(text) < size:
            text += function(r)
        texts.append(text)
    return texts
