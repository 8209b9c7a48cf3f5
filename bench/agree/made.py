"""Makes small C sources that exercise translation phases 1 to 4, the same for the same seed.

Nothing in them is left open by the standard, but for what `pptokens.KNOWN` lists. One in ten has a line that a preprocessor has to refuse.
"""
import random
import re

WORDS = "alpha beta count size _x y1 Z OBJ FN int".split()
NUMBERS = ["0", "1", "2", "42", "0x1F", "1.5e+3", ".5", "10u", "1e", "0b1", "3.2.1"]
LITERALS = ['"text"', '"a\\"b"', '"a, (b"', "'c'", "'\\''", 'L"wide"', 'u8"u"', "L'w'", '"/* text */"', '"tab\\tq\\\\"']
SIGNS = "+ - * / % == != <= >= << >> && || ! ~ ? : ; [ ] { } -> . ... ++ -- += <: :> <% %> = < > | ^ &".split()
TRIGRAPHS = {"[": "??(", "]": "??)", "{": "??<", "}": "??>", "^": "??'", "|": "??!", "~": "??-"}
GAPS = [" "] * 8 + ["  ", "\t", "/**/", " /* gap */ ", " \\\n", "\\\n ", "??/\n "]
OPERATORS = "|| && | ^ & == != < > <= >= << >> + - * / %".split()
LEAVES = "0 1 2 7 0x10 010 3u 5L 4ll 6ULL 9223372036854775807 9223372036854775808 18446744073709551615u none int true VAL0 VAL1".split()
LEAVES += r"""'a' '\n' '\0' '\377' '\x41' '\'' L'a' __STDC__ __STDC_VERSION__""".split()
LEAVES += ["MAX2(VAL0, 2)", "defined VAL0", "defined(none)", "defined ( OBJ0 )", "(0 && 1 / 0)", "(1 || 1 % 0)", "(1 ? 2 : 1 / 0)"]
LEAVES += ["(__LINE__ > 0)"]
REFUSED = ["#error stop", "#if 1 +", "#if 1 / 0", "#if (2", "#if 'ab", "#if 1.0", "#if 1", "#if 1\n#else\n#else\n#endif", "#elif 1", "#else"]
REFUSED += ["#endif", "#define 3 x", "#define defined", "#define R(a, a) a", "#define R(a", "#define R(a) #b", "#define R(a) ## a", "#define R a ##"]
REFUSED += ["#undef", "#undef 3", "#ifdef", "#ifndef 3", "#line x", "#line", "#include", "#include x", "#unknown", "MAX2(1"]
REFUSED += ["MAX2(1, 2, 3)", "MAX2(1)", "JOIN(+, /)", "/* open"]
SKIPPED = ["#unknown", "#error no", "#include", "#define", "don't", "MAX2(", "#if (\n#elif +\n#else\n#endif", "#line x", '"', "#undef 3"]
PLACES = ["__LINE__", "__LINE__ __FILE__", "\\\n__LINE__", "/*\n\n*/ __LINE__", "__LINE__ a\\\n__LINE__"]
PLACES += ["HERE", "/**/ HERE \\\n HERE", "STRING(__LINE__)"]


class Macro:
    """`params` is None of an object-like one; `pasted` are the parameters beside ##, which take names and numbers alone."""

    def __init__(self, name, params=None, is_variadic=False):
        self.name, self.params, self.is_variadic, self.pasted = name, params, is_variadic, set()

    def all_params(self):
        return (self.params or []) + ["__VA_ARGS__"] * self.is_variadic


class Maker:
    """A source in the making: its files, and the macros that are defined where it goes on."""

    def __init__(self, seed):
        self.r = random.Random(seed)
        self.files = {}
        self.macros = {}
        self.folder = ""
        self.names = 0
        self.depth = 0

    # Spelling

    def spliced(self, word):
        """A word with a splice in it, now and then."""
        r = self.r
        if len(word) < 2 or word.startswith("??") or r.random() > 0.03:
            return word
        at = r.randrange(1, len(word))
        return word[:at] + r.choice(["\\\n", "??/\n"]) + word[at:]

    def directive(self, *words):
        """A line of these words."""
        r = self.r
        text = r.choice(["", "", "", " ", "/* x */"]) + r.choice(["#"] * 6 + ["%:", "??="])
        for k, word in enumerate(words):
            text += (r.choice(GAPS) if k else r.choice(["", "", " ", "\\\n"])) + self.spliced(word)
        return text + r.choice(["", "", "", " ", " // rest", " /* rest */"]) + "\n"

    def plain(self):
        r = self.r
        kind = r.randrange(10)
        if kind < 8:
            return r.choice(WORDS if kind < 5 else NUMBERS if kind < 7 else LITERALS)
        sign = r.choice(SIGNS)
        return TRIGRAPHS[sign] if sign in TRIGRAPHS and r.random() < 0.3 else sign

    # Calls

    def argument(self, is_pasted):
        r = self.r
        if is_pasted:
            name = r.choice(list(self.macros))
            return r.choice([[], [r.choice(WORDS)], [r.choice("0123")], [r.choice(["42", "0x1F"])], [name], [r.choice(WORDS), "+", "y1"]])
        words = [word for _ in range(r.choice([0, 1, 1, 1, 2, 3])) for word in self.piece()]
        return ["(", *words, ",", "b", ")"] if r.random() < 0.1 else words

    def call(self, macro):
        r = self.r
        count = len(macro.params) + (r.randrange(1, 4) if macro.is_variadic else 0)
        words = [macro.name, "("]
        for k in range(count):
            param = macro.params[k] if k < len(macro.params) else "__VA_ARGS__"
            words += [","] * (k > 0) + self.argument(param in macro.pasted)
        return [*words, ")"]

    def piece(self):
        """Some tokens: one, a macro, a call, or a list in parentheses."""
        r = self.r
        if not self.macros or self.depth > 4 or r.random() < 0.5:
            return [self.plain()]
        self.depth += 1
        macro = r.choice(list(self.macros.values()))
        if r.random() < 0.1:
            words = ["(", *self.piece(), ")"]
        else:
            words = [macro.name] if macro.params is None or r.random() < 0.05 else self.call(macro)
        self.depth -= 1
        return words

    # Definitions

    def paste(self, macro):
        """Two or three names, numbers or parameters with ## between them."""
        r = self.r
        words = []
        for k in range(r.choice([2, 2, 2, 3])):
            part = r.choice([*macro.all_params(), r.choice(WORDS), r.choice(["OBJ", "FN"]), r.choice("012")])
            macro.pasted |= {part} & set(macro.all_params())
            words += [r.choice(["##", "##", "%:%:"])] * (k > 0) + [part]
        return words

    def later(self, macro):
        """The macro itself, or one that may be defined later, so that macros name each other in a circle."""
        r = self.r
        name = r.choice([macro.name, f"OBJ{r.randint(1, self.names + 4)}", f"FN{r.randint(1, self.names + 4)}"])
        return [name] if r.random() < 0.4 else [name, "(", r.choice(macro.all_params() or WORDS), ")"]

    def body(self, macro):
        r = self.r
        words = []
        for _ in range(r.choice([0, 1, 2, 2, 3, 4])):
            kind = r.randrange(10)
            params = macro.all_params()
            if kind < 4 and params:
                words.append(r.choice(params))
            elif kind == 4 and params:
                words += [r.choice(["#", "#", "%:"]), r.choice(params)]
            elif kind == 5:
                words += self.paste(macro)
            elif kind == 6:
                words += self.later(macro)
            else:
                words += self.piece()
        return words

    def define(self):
        """A definition under a new name, now and then twice."""
        r = self.r
        self.names += 1
        kind = r.choice(["OBJ", "FN", "FN"])
        macro = Macro(f"{kind}{self.names}")
        if kind == "FN":
            macro.params, macro.is_variadic = ["p", "q", "r"][: r.randrange(4)], r.random() < 0.25
        text = self.definition(macro)
        self.macros[macro.name] = macro
        return text

    def definition(self, macro):
        r = self.r
        params = "" if macro.params is None else "(" + r.choice([", ", ","]).join(macro.params + ["..."] * macro.is_variadic) + ")"
        words = ["define", macro.name + params, *self.body(macro)]
        return "".join(self.directive(*words) for _ in range(2 if r.random() < 0.05 else 1))

    def undefine(self):
        """An #undef, and perhaps another definition under the same name."""
        if not self.macros:
            return self.directive("undef", "none")
        name = self.r.choice(list(self.macros))
        old = self.macros.pop(name)
        text = self.directive("undef", name)
        if self.r.random() < 0.5:
            new = Macro(name, old.params, old.is_variadic)
            text += self.definition(new)
            self.macros[name] = new
        return text

    # Text lines

    def text(self):
        """It begins with a name, so that no call of the text before goes on in it."""
        r = self.r
        words = [f"text{len(self.files)}"]
        for _ in range(r.randint(1, 8)):
            words += self.piece()
        if r.random() < 0.3:
            words += ["EXACT", "(", *self.argument(False), ")"]
        out = ""
        for word in words:
            is_end = r.random() < 0.1
            out += self.spliced(word) + r.choice(["\n", "\n\n", " // end\n", " /* over\nlines */ ", "\r\n", " \v\f "] if is_end else GAPS)
        return out + "\n"

    def soup(self):
        """Tokens without white space between them."""
        r = self.r
        text = "".join(r.choice("+-<>=!&|^%:#.*/[]{}~?;0123eExXpPabLuU8_") for _ in range(r.randint(5, 60)))
        text = re.sub("/[/*]+", "/", text)
        return f"soup {text}\nEXACT({text})\n"

    def places(self):
        """Lines and files, outside calls."""
        return "".join(self.r.choice(PLACES) + "\n" for _ in range(self.r.randint(1, 3)))

    def number(self):
        """A directive that changes both."""
        r = self.r
        line = r.choice(["1", "100", "0031", "2147480000"])
        return self.directive("line", *r.choice([[line], [line, '"other.c"'], [line, '"a\\\\b/c.h"'], ["NUMBER"], ["VAL0", "FILE"]])) + self.places()

    # Conditions

    def expression(self, depth=0):
        r = self.r
        kind = r.randrange(10)
        if depth > 3 or kind < 2:
            return [r.choice(LEAVES)]
        if kind < 4:
            return [r.choice("-+!~"), *self.expression(depth + 1)]
        if kind == 4:
            return ["(", *self.expression(depth + 1), "?", *self.expression(depth + 1), ":", *self.expression(depth + 1), ")"]
        operator = r.choice(OPERATORS)
        right = self.expression(depth + 1)
        if operator in ("/", "%"):
            right = ["(", "(", *right, ")", "|", "1", ")"]
        elif operator in ("<<", ">>"):
            right = [r.choice(["0", "1", "31", "32", "63"])]
        words = [*self.expression(depth + 1), operator, *right]
        return ["(", *words, ")"] if operator in ("<<", ">>") or r.random() < 0.5 else words

    def opening(self):
        r = self.r
        name = r.choice([*self.macros, "none", "VAL0", "__FILE__"])
        words = r.choice([["if", *self.expression()], ["if", *self.expression()], ["ifdef", name], ["ifndef", name], ["if", "defined", name]])
        return self.directive(*words)

    def skipped(self):
        """A group that is not taken, with what a group that is taken may not have."""
        r = self.r
        chosen = "".join(r.choice(SKIPPED) + "\n" for _ in range(r.randint(1, 4)))
        return r.choice([f"#if 0\n{chosen}#endif\n", f"#if 1\n#elif 1 + (\n{chosen}#endif\n", f"#if VAL0\n#else\n{chosen}#endif\n"])

    def section(self):
        r = self.r
        if r.random() < 0.2:
            return self.skipped()
        self.depth += 1
        text = self.opening() + self.items(2)
        for _ in range(r.choice([0, 0, 1, 2, 3])):
            text += self.directive("elif", *self.expression()) + self.items(2)
        if r.random() < 0.5:
            text += self.directive("else") + self.items(2)
        self.depth -= 1
        return text + self.directive("endif")

    # Files

    def header(self):
        """The path of a new header."""
        r = self.r
        name = f"h{len(self.files)}.h"
        path = r.choice(["", "inc/"]) + name
        self.files[path] = ""
        outside, self.folder = self.folder, path.removesuffix(name)
        self.depth += 1
        text = self.items(3)
        self.depth -= 1
        self.folder = outside
        guard = f"GUARD_{name[:-2]}"
        guarded = f"define {guard}\n{text}#endif"
        shapes = [text, f"#pragma once\n{text}", f"#ifndef {guard}\n#{guarded}\n", f"#if !defined({guard})\n#{guarded} /* {guard} */\n"]
        self.files[path] = self.dressed(r.choice(shapes))
        return path

    def include(self):
        """An include of a header, new or old."""
        r = self.r
        old = [path for path, text in self.files.items() if text]
        path = r.choice(old) if old and r.random() < 0.4 else self.header()
        name = path.removeprefix("inc/")
        is_beside = path == self.folder + name
        target = f'"{name}"' if is_beside else f'"../{name}"' if path == name else r.choice([f'"{name}"', f"<{name}>"])
        kind = r.randrange(10)
        if kind < 7:
            return self.directive("include", target)
        if kind == 7 and target == f'"{name}"':
            return self.directive("include", "STRING", "(", name, ")")
        self.names += 1
        return self.directive("define", f"HEADER{self.names}", target) + self.directive("include", f"HEADER{self.names}")

    def items(self, most):
        r = self.r
        makers = [self.define] * 5 + [self.text] * 6 + [self.places, self.number, self.undefine, self.soup]
        makers += [lambda: self.directive("pragma", *r.choice([["one", "VAL0"], ["STDC", "FP_CONTRACT", "ON"]])), lambda: self.directive()]
        if self.depth < 3:
            makers += [self.section] * 3 + [self.include] * 3
        return "".join(r.choice(makers)() for _ in range(r.randint(1, most)))

    def dressed(self, text):
        """A text as other systems and editors write it, now and then."""
        r = self.r
        if r.random() < 0.1:
            text = text.replace("\r\n", "\n").replace("\n", "\r\n")
        if r.random() < 0.05:
            text = "\ufeff" + text
        return text.rstrip("\r\n") if r.random() < 0.1 else text

    def source(self):
        """Makes `main.c` and its headers."""
        self.files["main.c"] = ""
        text = BASE + self.items(12) + self.items(12)
        if self.r.random() < 0.1:
            text += self.r.choice(REFUSED) + "\n" + self.text()
        self.files["main.c"] = self.dressed(text)


BASE = """#define VAL0 3
#define VAL1 (VAL0 * 2u)
#define MAX2(a, b) ((a) > (b) ? (a) : (b))
#define JOIN(a, b) a ## b
#define STRING(a) #a
#define EXACT(...) exact #__VA_ARGS__
#define HERE __LINE__ __FILE__
#define NUMBER 30 "macro.c"
#define FILE "file.c"
"""


def write_source(room, seed):
    """Writes a source and its headers to a folder; returns their paths, the source's first."""
    maker = Maker(seed)
    maker.source()
    for path, text in maker.files.items():
        with open(f"{room}/{path}", "w", encoding="utf-8", newline="") as out:
            out.write(text)
    return list(maker.files)
