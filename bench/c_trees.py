"""Makes trees of C files: each function gives the texts by their paths, the same ones each time. The source is m.c, and `-I .` finds the rest."""
import random

from c_source import WORDS, expression, name, pieces_of

LICENCE = (
    "/* SPDX-License-Identifier: MIT\n *\n"
    " * Permission is hereby granted, free of charge, to any person obtaining a copy of this software and\n"
    " * associated documentation files, to deal in the software without restriction, including without\n"
    " * limitation the rights to use, copy, modify, merge, publish, distribute, sublicense and sell copies.\n */\n"
)
LAYERS = 15
WIDTH = 100


def prose(r, count):
    """A comment of so many lines, as it stands above a function."""
    lines = "".join(f" * {' '.join(r.choice(WORDS) for _ in range(r.randint(6, 12)))}.\n" for _ in range(count))
    return f"/**\n{lines} */\n"


def definitions(r, n):
    """Macros of a header, and a chain of conditionals that chooses one more."""
    flags = "".join(f"#define H{n}_{r.choice(WORDS).upper()}_{k} (1u << {k})\n" for k in range(12))
    return (
        f"#define H{n}_LIMIT {r.randint(16, 4096)}\n#define H{n}_MASK (H{n}_LIMIT - 1)\n#define H{n}_NAME \"{name(r)}\"\n{flags}"
        f"#define h{n}_min(a, b) ((a) < (b) ? (a) : (b))\n#define h{n}_round(x) (((x) + H{n}_MASK) & ~H{n}_MASK)\n"
        f"#define h{n}_for_each(pos, head) \\\n\tfor (pos = (head)->next; pos != (head); pos = pos->next)\n"
        f"#define h{n}_field(name) h{n}_##name\n#define h{n}_warn(text, ...) report(H{n}_NAME, #text, __VA_ARGS__)\n"
        f"#if defined(CONFIG_{n % 400}) && CONFIG_{n % 400} > 2\n#define H{n}_WAYS 8\n"
        f"#elif CONFIG_{(n + 7) % 400} == 1 || defined H{n}_LARGE\n#define H{n}_WAYS 4\n#else\n#define H{n}_WAYS 2\n#endif\n"
    )


def declarations(r, n):
    fields = "".join(f"\t{r.choice(WORDS)}_t {name(r)};  /* {name(r)} */\n" for _ in range(8))
    calls = "".join(f"extern int do{n}_{name(r)}(struct node *{r.choice(WORDS)}, unsigned long {r.choice(WORDS)});\n" for _ in range(10))
    return f"struct h{n}_{r.choice(WORDS)} {{\n{fields}\tint h{n}_field(ways)[H{n}_WAYS];\n}};\n\n{calls}\n"


def uses(r, n):
    """A function that uses macros of its header."""
    return (
        f"static inline int with{n}_{name(r)}(struct node *head, unsigned int x)\n{{\n\tstruct node *pos;\n\th{n}_for_each(pos, head) {{\n"
        f"\t\tx += h{n}_round({expression(r)});\n\t\tif (h{n}_min(x, H{n}_LIMIT) > H{n}_WAYS)\n"
        f"\t\t\th{n}_warn({name(r)} is large, x, H{n}_MASK);\n\t}}\n\treturn x & H{n}_MASK;\n}}\n\n"
    )


def header(r, n, below, bodies):
    includes = "".join(f"#include {path}\n" for path in below)
    parts = [f"{LICENCE}#ifndef H{n}_H\n#define H{n}_H\n\n#include <config.h>\n{includes}\n", definitions(r, n), declarations(r, n)]
    for k in range(3):
        body = r.choice(bodies)
        parts += [prose(r, r.randint(4, 14)), body if k else f"#ifdef CONFIG_{r.randrange(800)}\n{body}#endif\n", uses(r, n)]
    return "".join([*parts, f"#endif /* H{n}_H */\n"])


def tree():
    """1,500 guarded headers in fifteen layers, each of which includes three of the next layer, the configuration, and a neighbour at times."""
    r = random.Random(1)
    bodies = pieces_of(200, 2_500)
    paths = [[f"l{layer}/h{n}.h" for n in range(WIDTH)] for layer in range(LAYERS)]
    files = {"config.h": "#ifndef CONFIG_H\n#define CONFIG_H\n" + "".join(f"#define CONFIG_{n} {n % 4}\n" for n in range(400)) + "#endif\n"}
    for layer, here in enumerate(paths):
        below = paths[layer + 1] if layer + 1 < LAYERS else []
        for n, path in enumerate(here):
            chosen = [f"<{below[k]}>" for k in (n, (7 * n + 3) % WIDTH, r.randrange(WIDTH))] if below else []
            chosen += [f'"h{n + 1}.h"'] if n % 4 == 0 else []
            files[path] = header(r, layer * WIDTH + n, chosen, bodies)
    files["m.c"] = "".join(f"#include <{path}>\n" for path in paths[0]) + "".join(uses(r, n) for n in range(WIDTH)) + "".join(bodies)
    return files


def table(r, n):
    """A header of three tables: of entries and ranges, which are calls, and of numbers."""
    entries = (f"\tENTRY({name(r)}, 0x{r.randrange(1 << 20):x}, BOTH(FLAG_{r.randrange(32)}, FLAG_{r.randrange(32)}))\n" for _ in range(650))
    ranges = (f"\tRANGE(0x{r.randrange(1 << 31):08x}, 0x{r.randrange(1 << 31):08x})\n" for _ in range(650))
    numbers = ("\t" + " ".join(f"0x{r.randrange(1 << 32):08x}," for _ in range(8)) + "\n" for _ in range(5_000))
    return (
        f"static const struct entry table_{n}[] = {{\n{''.join(entries)}}};\n"
        f"static const struct range ranges_{n}[] = {{\n{''.join(ranges)}}};\n"
        f"static const unsigned int numbers_{n}[] = {{\n{''.join(numbers)}}};\n"
    )


def tables():
    """Tables of constants by macros: as many calls as the work units of a preprocessing allow, and plain numbers."""
    r = random.Random(2)
    flags = "".join(f"#define FLAG_{n} (1u << {n})\n" for n in range(32))
    macros = (
        "#define BOTH(a, b) ((a) | (b))\n#define PAGE(n) ((n) << 12)\n"
        "#define ENTRY(name, at, flags) { #name, PAGE(at), flags, sizeof(struct name) },\n"
        "#define RANGE(low, high) { (low), (high), (high) - (low) },\n"
    )
    files = {f"table{n}.h": table(r, n) for n in range(45)}
    return {**files, "m.c": flags + macros + "".join(f'#include "{path}"\n' for path in files)}


def included_again(count, before):
    """200 guarded headers of code, which are included so many times in all."""
    r = random.Random(3)
    bodies = pieces_of(40, 4_000)
    files = {f"g{n}.h": f"{LICENCE}{before}#ifndef G{n}_H\n#define G{n}_H\n{bodies[n % 40]}#endif\n" for n in range(200)}
    return {**files, "m.c": "".join(f'#include "g{r.randrange(200)}.h"\n' for _ in range(count))}


def guards():
    """Guarded headers, included again and again: 95,000 times, where incut reads no more than 100,000."""
    return included_again(95_000, "")


def skips():
    """The same, 10,000 times, where a section before the guard makes each reading pass over the whole text."""
    return included_again(10_000, "#ifdef HAVE_PRAGMA_ONCE\n#pragma once\n#endif\n")


def xmacros():
    """Lists of 300 entries, each of which is read eight times, under other definitions of its macro."""
    r = random.Random(4)
    files, source = {}, []
    forms = ("a,", "a = b,", "case a: return #a;", "[b] = #a,", "{ #a, b },", "int a##_count;", "extern int read_##a(void);", "register_(a, b);")
    for n in range(200):
        files[f"list{n}.def"] = "".join(f"X({name(r)}_{k}, {k})\n" for k in range(300))
        source += [f'#define X(a, b) {form}\n#include "list{n}.def"\n#undef X\n' for form in forms]
    return {**files, "m.c": "".join(source)}


def includes():
    """10,000 small headers."""
    r = random.Random(5)
    files = {f"d{n % 100}/i{n}.h": f"#pragma once\n/* {name(r)} */\nextern int {name(r)}_{n}(void);\n#define I{n} {n}\n" for n in range(10_000)}
    return {**files, "m.c": "".join(f"#include <{path}>\n" for path in files)}


def comments():
    """Forty headers of which all but one byte in twenty is in comments."""
    r = random.Random(6)
    pieces = [prose(r, r.randint(10, 60)) if n % 2 else f"/* {name(r)} */ // {expression(r)}\n" * 20 for n in range(400)]
    files = {}
    for n in range(40):
        parts = (f"{r.choice(pieces)}int {name(r)}_{k};{prose(r, 2)}extern int {name(r)}_{k}(void);  /* {name(r)} */\n" for k in range(2_000))
        files[f"c{n}.h"] = "".join(parts)
    return {**files, "m.c": "".join(f'#include "{path}"\n' for path in files)}
