"""Inputs to compare on: a fixed list of telling ones, then random ones, the same for the same seed.

`sheet_inputs` gives sheets for the program sheet_tables, `bench_inputs` sheets with a line behind them for
the program bench_session. Texts are put together as strings, in which each character stands for one code.
"""

import itertools
import random
from typing import NamedTuple


class Input(NamedTuple):
    """An input: of which sort it is, the kind of its symbols, and its characters."""

    sort: str
    kind: str
    data: bytes


def make_input(sort, kind, text):
    return Input(sort, kind, text.encode("latin-1"))


# ---- Fixed sheets

WORD_15 = "ABCDEFGHIJKLMNO"
WORD_16 = WORD_15 + "P"
WORD_17 = WORD_16 + "Q"
EVENT = "7E0(1003"

# What may stand behind a string reference, or nearly may; `|` stands between two entries.
TAILS = r"""
/|/(|/()|/(A|/(A)|/(A)S|/(A)S(A)|/S|/S(A|/S(A)|/S(A)F|/S(A)F(A)|/S(A)F(A)S(A)|/S(A)S(A)|/F(A)S(A)
/F(A)F(A)|/($X)|/($)|/($X|/(X)|/S(X)F(Y)|/F(X)S(Y)|/F($X)S($NEW)|/(A)X|/s(A)|/(.A)|/(A.)|/(A.|/(END)
/ (A)|/( A)|/(A )|/S (A)|/S(A) F(A)|/($ X)|/(A) X|=/(A)|=|= /(A)|= =|=X|= X=|= *X*|= X *
*X*|*X|*(X)*|*(X*|*(X)|**|*|*)|*(*|*.X*|*X.*|*(X.)*|* X*|*X *|*(X) *|*( X)*|*X**Y*|*X*Y|*X*"A"
*X/*|*X/3*|*X/"3*|*X/"3"|*X/"3"*|*X/"3"X|*X/ "3"*|*X/"0"*|*X/"4096"*|*X/"4097"*|*X/"41"*|*X/"410"*
*X/"5000"*|*X/"0004"*|*X/"00001"*|*X/""*|*X/"X"*|*X/"409|*X/"9999"*|*X/"0999"*|*X/"40960"*
"A"/(A)|X/(A)|X=|"A"="B"|"A""B"|"A"X|X"A"|"|""|" "|"="|"*"|"/(Z)"|$|$X|$ X|$$X|$"A"|$*X*|$.
.|.X|X.|X. Y|X..Y|X.Y|x|-|,|"7E0(100"|"8E0(1003"|"7e0(1003"|"7E0,1003"|"7FF)FFFF"|"800)FFFF"|"7E0(1003"
"7E0(10037E8.000G"|"7E0(1003|"7E"(|"7E" "7"|X X X X X X X "7E" X|X X X X X X X X "7E"|X X X X X X X X $
X X X X X X X X (|= X X X X X X X X X|= X X X X X X X X *|X X X X X X X = X X X X X X X X /(A)
"""

# Lines that come behind a line with label A, and behind END's line.
LINES = r"""
A|A(|A.|AB|A.B|END|END.|END(|END.X|ENDA|(|X|x|"|EN|.|A X|A |A. X|A X (|A "|AA.. X|END |END A|END A.
END A B|END  A  |END A(|END $X|END.X X|END .A|END "A"|END END|END A /(A)|END X =| X "A| X "7E"| X /(Q)
"""

# Lines that come behind 63 and 64 names.
NAME_LINES = r"""
 NEW| NEW.| NEW. X| $NEW| $NEW.| N1 *NEW*| N1 *NEW| N1 *NEW.*| N1 *(NEW)*| N1 NEW(| N1 NEW.| N1 /(NEW)
 N1 /($NEW)| N1 /($NEW.)| N1 = NEW| N1 = $NEW)|NEW N1|END NEW| NEW1 NEW2| END| N1 "7E" NEW| NEW "7E"
 N1 N2 N3 N4 N5 N6 N7 N8 N9 NEW| N1 N2 N3 N4 N5 N6 N7 N8 *NEW*| N1 N2 N3 N4 N5 N6 N7 N8 N9 *NEW*
"""

# Lines that come behind 4,095 and 4,096 constant symbols.
CONSTANT_LINES = r"""
 X "A"| X "AB"| X "" "A"| X ""| X = "A" "BC"| X "A| X "A"(| X *Y/"12"*|A X "AB"| X X X X X X X X X "AB"
"""

# Lines that come behind 128 statements.
STATEMENT_LINES = r"""
 X (|A X|(|X|EN|END|END.|END X|END END|ENDX| X "A| (|  |* X
"""


def cut(rows):
    """The entries of a list above."""
    return [entry for row in rows.strip("\n").split("\n") for entry in row.split("|")]


def odd_lines():
    """Lines that a list above cannot hold: codes that are not printed, and lengths at a limit."""
    yield from ["\t", "\x80", " \x80", "* \x80", "\0", "\x7f", " X\r", ' X "A\x80"', "", "   ", "*"]
    yield from ["* " + "c" * 118, "* " + "c" * 119, " " * 120, " " * 121, " X" + " " * 118, " X" + " " * 119]
    yield from ['A X "' + "A" * count + '"' for count in (114, 115)]
    for word in (WORD_16, WORD_17, WORD_15 + ".", WORD_15 + "..", WORD_16 + "."):
        yield from [f"{word} X", f" {word}", f" X *{word}*", f" X /({word})", f"END {word}"]


def lines_with_constants(count):
    """Statement lines with `count` log characters in their literals."""
    full, rest = divmod(count, 100)
    return [' X "' + "A" * 100 + '"'] * full + [' X "' + "A" * rest + '"']


def text_of_length(count):
    """A sheet of exactly `count` characters, most of them in idle lines."""
    sheet = " X\nEND END\n"
    full, rest = divmod(count - len(sheet), 100)
    return ("*" * 99 + "\n") * full + " " * (rest - 1) + "\n" + sheet


def sheets_of_tails():
    """Fixed sheets, as texts, that tell something of both kinds of symbols."""
    for tail in cut(TAILS):
        yield f"A X {tail}\nEND A\n"
    for count in (14, 15):
        for ending in ('"', "", '7"', '7E8.000G"'):
            yield ' X "' + EVENT * count + ending + "\nEND END\n"


def other_sheets():
    """The other fixed sheets, as texts."""
    yield from ["", "\n", " ", "END END", "END END\n\n", "END", " X", "*", "END END\r\n", " X\nEND END"]
    for tail in cut(TAILS):
        yield f"A X {tail}(\nEND A\n"
    for line in itertools.chain(cut(LINES), odd_lines()):
        yield f"A X\n{line}\nEND A\n"
        yield f"A X\nEND A\n{line}"
    for count in (63, 64):
        names = "".join(f" N{number}\n" for number in range(count))
        yield from [f"{names}{line}\nEND END\n" for line in cut(NAME_LINES)]
    for count in (4095, 4096):
        constants = "\n".join(lines_with_constants(count))
        yield from [f"{constants}\n{line}\nEND END\n" for line in cut(CONSTANT_LINES)]
    for line in cut(STATEMENT_LINES):
        yield "A X\n" + " X\n" * 127 + line + "\nEND END\n"
    yield from [text_of_length(count) for count in (16383, 16384, 16385)]


# ---- Fixed inputs of bench

# Statements for which it matters in which order a step looks, and that a refused one writes nothing.
ORDER_STATEMENTS = r"""
L *X/"1"* = L L /($X)|L *X/"1"* = $X L L|L *X/"1"* = X "A" /($L)|L *X/"1"* = X "A" /S(END)F($L)
L *X/"1"* = "END" /($L)|$L "Q"|$L = "A"|L $L|L "QQQ" $L|L "QQQ" = $L|L "QQQ" = /S($L)|L "QQQ" /F($L)
L *L/"1"* $L|L *X* $Y = "B"|L *X* *X* "A" = X|L *L* = L "A"|L *(X)* X = X|L "" "" = "A"|L *X/"0"* X X
L *X* "," X|L *X* X "!"|L|L =|L *X*|L = L L /(A)
"""
ORDER_LINES = ["", "L", "A", "X", "END", "LA", "Z" * 600, WORD_17, ".", "(L)", "(())()", "AB,AB"]

# Whole inputs, whose sheet and line are told apart in a way of their own.
FORMS = [
    "", "\n", "END", "END END", "END END\nAB", 'END END\n"', ' L\nEND END\n"', " L\nEND END\nQ", " L\n",
    "A L\nEND A", "A L\nEND A\n\nAB\n", "A L\nEND A\nAB\nCD\n", "A L\nEND A\nEND A\n", "A L\nEND A\r\nAB",
    "A L\nEND A\nAB\r\n", "A L\nEND A\nA\x80\n", " END\nEND END\nA", "END. L\nEND END\nA", "*END\nA L\nEND A\nA",
    "ENDX L\nEND ENDX\nA", "A L\nEND\nEND A\n", "A L\nEND(\nEND A\n", "A L\n END A\nEND A\nQ",
    "*\n" * 8188 + "A L\nEND A", "*\n" * 8187 + "A L\nEND A\nQ", "*\n" * 8188 + "A L\nEND A\nQ",
]


def inputs_at_the_allowance():
    """Scans of exactly 1,000,000 trials, with F and with S, and of one more.

    Each A in front is one trial. Behind a B three variables share the rest of the line, in as many
    ways as make up the number.
    """
    for ahead in (80, 81):
        line = "A" * ahead + "B" + "C" * 139 + "B" + "C" * 38
        yield 'A L "B" *X* *Y* *Z* "!" = "?" /(END)\nEND A\n' + line
    for ahead in (74, 75):
        line = "A" * ahead + "BC" + "E" * 138 + "BG" + "E" * 34 + "BDD!"
        yield 'A L "B" *V/"1"* *X* *Y* *Z* V "!" = "?" /(END)\nEND A\n' + line


def fixed_bench_texts():
    """The fixed inputs of bench as texts."""
    yield from FORMS
    for statement in cut(ORDER_STATEMENTS):
        yield from [f"A {statement}\nEND A\n{line}\n" for line in ORDER_LINES]
    for count in (999, 1000, 1001):
        yield 'A L *X/"1"* = /S(A)\nEND A\n' + "Z" * count
    for count in (1023, 1024, 1025, 20000):
        yield "A L\nEND A\n" + "Z" * count
        yield "A L\nEND A\n" + "Z" * count + '"'
        yield 'A L "Q" = "AB"\nEND A\n' + "Z" * (count - 1) + "Q"
        yield f'A L *X/"{min(count, 1024)}"*\nEND A\n' + "Z" * (count - 1)
    copies = "A N0\n" + "".join(f" N{number} = N0\n" for number in range(1, 64))
    for statement in ('N5 = N5 "A"', 'N5 *N6/"3"* = N6 N6', 'N5 *N6/"3"* *N7* = "!"'):
        yield f"{copies} {statement}\nEND A\n" + "Z" * 1024
    yield from inputs_at_the_allowance()


# ---- Random inputs

NAMES = ["L", "X", "Y", "A", "B", "Q", "END", "N.1", "1", WORD_16]
NAME_WEIGHTS = [6, 6, 6, 4, 4, 2, 1, 1, 1, 0.3]
LABELS = ["A", "B", "C", "X", "Y", "L1", "N.1", "7", "ENDX", "Q"]
SCRAPS = list(' "*$/()=.,ASFXE1a~\n\t\r\0\x1f\x7f\x80')
SCRAPS += ["END", '""', '"7', "*(", "/S(", " = ", "4096", "4097", WORD_16, WORD_17, WORD_15 + "."]


class Generator:
    """Random sheets and lines of one kind of symbols."""

    def __init__(self, source, kind="log"):
        self.random = source
        self.kind = kind

    def chance(self, probability):
        return self.random.random() < probability

    def pick(self, *choices):
        return self.random.choice(choices)

    def count(self, weights):
        """A number from 0 on, each with its weight."""
        return self.random.choices(range(len(weights)), weights)[0]

    # Parts of a statement

    def name(self):
        return self.random.choices(NAMES, NAME_WEIGHTS)[0]

    def event(self):
        identifier = self.pick(0, 1, 0x7FF, self.random.randrange(0x800))
        value = self.pick(0, 0xFFFF, self.random.randrange(0x10000))
        return "%03X%s%04X" % (identifier, self.pick("(", ")", "."), value)

    def literal(self):
        if self.kind == "bus":
            text = "".join(self.event() for _ in range(self.count([1, 5, 2, 1])))
        elif self.chance(0.3):
            text = self.pick("X", "Y", "A", "B", "L", "END", "N.1", "Q", "C", "ZZ")
        else:
            count = self.count([1, 6, 3, 1, 0, 0.5])
            text = "".join(self.pick(*"ABXY,() =*") for _ in range(count))
        return f'"{text}"'

    def operand(self):
        form = self.random.choices(["literal", "name", "$"], [45, 40, 15])[0]
        if form == "literal":
            return self.literal()
        return self.name() if form == "name" else "$" + self.name()

    def element(self):
        if self.chance(0.5):
            return self.operand()
        length = self.pick("0", "1", "1", "2", "3", "03", "0001", "12", "4096")
        form = self.random.choices(["*%s*", "*(%s)*", f'*%s/"{length}"*'], [50, 26, 24])[0]
        return form % self.name()

    def target(self, labels):
        return "$" + self.name() if self.chance(0.1) else self.random.choice(labels + ["END"])

    def go_to(self, first, second):
        form = self.pick("/({0})", "/S({0})", "/F({0})", "/S({0})F({1})", "/F({0})S({1})")
        return form.format(first, second)

    def blanks(self):
        return " " * (1 + self.count([12, 2, 1]))

    # Sheets

    def statement(self, label, labels):
        items = [label, self.pick("", "", "", "", "", "", "$") + self.name()]
        if self.chance(0.75):
            items += [self.element() for _ in range(self.count([0, 4, 4, 4, 2, 1, 0, 0, 0.3]))]
        if self.chance(0.6):
            items.append("=")
            items += [self.operand() for _ in range(self.count([2, 4, 3, 2, 0, 1, 0, 0, 0.2]))]
        if self.chance(0.6):
            items.append(self.go_to(self.target(labels), self.target(labels)))
        if self.chance(0.1):
            items.append("")
        return "".join(item + self.blanks() for item in items[:-1]) + items[-1]

    def valid_sheet(self):
        """A sheet of which nearly all are accepted; END's line ends with code 10."""
        free = self.random.sample(LABELS, len(LABELS))
        count = self.count([0.2, 2, 3, 3, 3, 2, 2, 1, 1, 1])
        own = [free.pop() if self.chance(0.6) else "" for _ in range(count)]
        labels = [label for label in own if label] or ["END"]
        lines = []
        for label in own:
            if self.chance(0.1):
                lines.append(self.pick("", "   ", '* note "', "*", "*END"))
            lines.append(self.statement(label, labels))
        start = labels[0] if self.chance(0.9) else self.random.choice(labels + ["END"])
        lines.append("END" + self.blanks() + start)
        return "\n".join(lines) + "\n"

    def running_sheet(self):
        """A sheet whose names have contents that `$` can follow, with loops and back references."""
        labels = self.random.sample(["A", "B", "C", "X", "D", "Y"], self.random.randrange(2, 6))
        lines = ["I L", ' W = "%s"' % self.pick("L", "X", "Y"), ' X = "%s"' % self.random.choice(labels)]
        lines.append(' Y = "%s"' % self.pick("A", "AB", "B,", "(", *labels))
        for label in labels:
            lines.append(self.running_statement(label, labels))
        return "\n".join(lines) + "\nEND I\n"

    def running_statement(self, label, labels):
        constant = '"%s"' % self.pick("A", "B", ",", "(", ")", "", "AB", "X", "BA", "()")
        operands = [constant, constant, "L", "X", "Y", "Z", "$W"]
        variables = ["*L*", "*X*", "*Y*", "*Z*", "*(X)*", '*Y/"1"*', '*Z/"2"*', '*X/"0"*']
        items = [label, self.pick("L", "L", "L", "L", "X", "Z", "$W")]
        items += [self.pick(*operands, *variables) for _ in range(self.count([1, 2, 4, 5, 4, 2, 1]))]
        if self.chance(0.55):
            items.append("=")
            items += [self.pick(*operands) for _ in range(self.count([3, 4, 3, 2, 1]))]
        if self.chance(0.7):
            targets = labels + labels + ["END", "END", "$X"]
            items.append(self.go_to(self.random.choice(targets), self.random.choice(targets)))
        return " ".join(items)

    def trace(self):
        """A line for the first name; a few cannot be read as log characters."""
        if self.chance(0.03):
            return self.pick('"', "A\tB", 'AB"', "\x7f", "\xe9", "A\r")
        alphabet = self.pick("AB", "AB,", "AB()", "ABXYL,() ", "()", "A")
        length = self.pick(0, 1, 2, 4, 4, 7, 7, 7, 12, 12, 20)
        return "".join(self.random.choice(alphabet) for _ in range(length))

    # Sheets that are broken

    def broken_sheet(self, text):
        """A text with one to four changes."""
        for _ in range(1 + self.count([5, 3, 2, 1])):
            text = self.changed_lines(text) if self.chance(0.2) else self.changed_characters(text)
        return text

    def changed_characters(self, text):
        place = self.random.randrange(len(text) + 1)
        before, behind = text[:place], text[place:]
        scrap = self.random.choice(SCRAPS)
        doubled = behind[:20]
        forms = [before + behind[self.pick(1, 1, 1, 2, 5) :], before + scrap + behind]
        forms += [before + scrap + behind[1:], before + doubled + behind, before]
        return self.random.choices(forms, [6, 6, 3, 1, 1])[0]

    def changed_lines(self, text):
        lines = text.split("\n")
        place = self.random.randrange(len(lines))
        change = self.pick("again", "gone", "long", "items", "unquoted", "shuffled")
        if change == "again":
            lines.insert(self.random.randrange(len(lines) + 1), lines[place])
        elif change == "gone":
            del lines[place]
        elif change == "long":
            lines[place] = lines[place].ljust(self.pick(119, 120, 121, 122))
        elif change == "items":
            lines[place] += "".join(" " + self.element() for _ in range(self.pick(7, 8, 9)))
        elif change == "unquoted":
            lines[place] = lines[place].replace('"', "", 1)
        else:
            self.random.shuffle(lines)
        return "\n".join(lines)

    # Sheets near a limit

    def limit_sheet(self):
        """A sheet that reaches a limit, goes over it or stays just below."""
        forms = [self.many_names, self.many_statements, self.many_constants]
        forms += [self.long_lines, self.many_parts, self.long_words]
        lines = self.random.choice(forms)()
        if self.chance(0.9):
            lines.append("END END")
        return "\n".join(lines) + self.pick("\n", "\n", "")

    def many_names(self):
        names = [f"N{number}" for number in range(self.pick(62, 63, 64, 65, 66))]
        lines = []
        while names:
            first, *others = names[:4]
            names = names[4:]
            forms = [self.pick("%s", "$%s", "*%s*", "*(%s)*", '*%s/"2"*') % name for name in others]
            lines.append(" ".join(["", self.pick("", "$") + first] + forms))
        lines[-1] += self.pick("", "", ' = "', " = NEW", " /($Z)", " NEW.", " $", " (")
        return lines

    def many_statements(self):
        lines = [self.pick("", f"A{n}") + " X" for n in range(self.pick(127, 128, 129, 130))]
        odd = ["A1 X", "(", "X", WORD_17 + " X", "EN", "\t", ' X "A', " " + WORD_17, "  ", "* X", "END", " ("]
        if self.chance(0.6):
            lines[self.pick(-1, -2, -3)] = self.random.choice(odd)
        return lines

    def many_constants(self):
        lines = lines_with_constants(self.pick(4094, 4095, 4096, 4097, 4098))
        odd = ['"A"', '""', '"AB', '= "A" "B"', '*X/"4"*', '"\x80"', '"A"(', '"AA\x80"', "(", "$"]
        if self.chance(0.6):
            lines.append(' X "" ' + self.random.choice(odd))
        self.random.shuffle(lines)
        return lines

    def long_lines(self):
        lines = []
        for _ in range(3):
            begin = self.pick(" X " + self.literal(), 'AB X *Y* = "A" /(AB)', "*", "", ' X "', ' X "A" (', WORD_17)
            filling = self.pick(" ", "A", "*", ",", ' "A"', "7E0.0000")
            length = self.pick(118, 119, 120, 121, 129)
            lines.append((begin + filling * length)[:length] + self.pick(" ", '"', "A", "\x80", "("))
        return lines

    def many_parts(self):
        elements = ["X", '""', '"A"', f'"{EVENT}"', "*Y*", "$X", "*(Z)*", '*W/"1"*', "*", "$", '"', "*(", "*Y"]
        operands = ["X", '""', "$X", "Q", "$", '"', "*"]
        items = ["", "X"] + [self.pick("X", "*Y*", '""') for _ in range(6)]
        items += [self.random.choice(elements) for _ in range(self.pick(1, 2, 3))]
        if self.chance(0.5):
            items += ["="] + ["X"] * 6
            items += [self.random.choice(operands) for _ in range(self.pick(1, 2, 3))]
        return [" ".join(items) + self.pick("", "", "", " /(END)", " (", "(", " =", " /S(END", ".")]

    def long_words(self):
        words = ["A", "B", "A.", "A.B", ".A", "END", WORD_15, WORD_16, WORD_17, WORD_15 + ".", WORD_16 + "."]
        lines = []
        for _ in range(3):
            label = self.random.choice(words + ["", ""]) + self.pick(" ", " ", " ", "", "(", "\t")
            items = self.pick("X", "$X", "%s", "X *%s*", "X *(%s)*", "X = %s", "X /(%s)", "X /($%s)")
            lines.append(label + items.replace("%s", self.random.choice(words)))
        if self.chance(0.3):
            lines.append("END" + self.pick(" ", "", "  ") + self.random.choice(words))
        return lines


# ---- Streams of inputs


def sheet_inputs(seed):
    """The fixed sheets, some as bus events too, then random ones for ever."""
    for text in itertools.chain(sheets_of_tails(), other_sheets()):
        yield make_input("fixed", "log", text)
    for text in sheets_of_tails():
        yield make_input("fixed", "bus", text)
    source = random.Random(seed)
    while True:
        kind = source.choice(["log", "log", "bus"])
        generator = Generator(source, kind)
        sort = source.choices(["valid", "broken", "limit"], [3, 4, 3])[0]
        if sort == "limit":
            text = generator.limit_sheet()
        else:
            text = generator.valid_sheet()
        if sort == "broken":
            text = generator.broken_sheet(text)
        yield make_input(sort, kind, text)


def bench_inputs(seed):
    """The fixed inputs of bench, then random ones for ever."""
    for text in fixed_bench_texts():
        yield make_input("fixed", "log", text)
    source = random.Random(seed)
    generator = Generator(source)
    while True:
        sort = source.choices(["valid", "running", "broken", "limit"], [5, 5, 2, 0.5])[0]
        if sort == "limit":
            sheet = generator.limit_sheet()
        elif sort == "running":
            sheet = generator.running_sheet()
        else:
            sheet = generator.valid_sheet()
        text = sheet + generator.trace() + generator.pick("\n", "", "\nmore\nEND X\n")
        if sort == "broken":
            text = generator.broken_sheet(text)
        yield make_input(sort, "log", text)
