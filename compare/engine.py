"""A second engine: the rules of sheets once more, in plain Python.

It was written from the rules in docs/ and shares no code with the crates. Its scan lists partial
placings by their definition, one after the other in scan order, and counts them.

Two functions give what the programs print: `sheet_output` and `bench_output`. How that is laid out
is told in the README; only the sentences that `sheet_tables` prints under a caret, and `?` for a code that
cannot be printed, are taken from that program. Texts are bytes. Places count from 0; lines, columns,
names and statements count from 1, and statement 0 is END.
"""

import re
from dataclasses import dataclass, field
from typing import NamedTuple, Optional, Union

# Limits of a sheet.
TEXT_LIMIT = 16384
LINE_LIMIT = 120
STATEMENT_LIMIT = 128
NAME_LIMIT = 64
CONSTANT_LIMIT = 4096
PART_LIMIT = 8
WORD_LIMIT = 16
LENGTH_LIMIT = 4096

# What the program bench_session allows.
STRING_LIMIT = 1024
STEP_LIMIT = 1000
TRIAL_LIMIT = 1000000

# The trials of all scans of a session that this engine takes upon itself.
SESSION_TRIAL_LIMIT = 1000000

BLANK = b" "
END = b"END"
END_NUMBER = 0
WORD_RUN = re.compile(rb"[A-Z0-9.]*")
WORD_BEGINS = b"ABCDEFGHIJKLMNOPQRSTUVWXYZ0123456789"
OPERAND_BEGINS = WORD_BEGINS + b'"$'
ELEMENT_BEGINS = OPERAND_BEGINS + b"*"


# ---- Symbols


class Kind(NamedTuple):
    """A kind of symbols: how many characters write a symbol, and which characters do."""

    width: int
    symbol: re.Pattern


KINDS = {
    "log": Kind(1, re.compile(rb"[ !#-~]")),
    "bus": Kind(8, re.compile(rb"[0-7][0-9A-F]{2}[().][0-9A-F]{4}")),
}


def split_symbols(text, kind):
    """The characters of each symbol, if the text is cut as the kind is wide."""
    return [text[i : i + kind.width] for i in range(0, len(text), kind.width)]


def symbol_fault(text, kind):
    """The symbol fault of a text and its place, or None where the text is read as symbols."""
    if len(text) % kind.width != 0:
        return 1, 0
    for number, characters in enumerate(split_symbols(text, kind)):
        if not kind.symbol.fullmatch(characters):
            return 2, number * kind.width
    return None


# ---- What a sheet consists of


class Literal(NamedTuple):
    """A literal: its text, and the places of the constants between which its symbols stand."""

    text: bytes
    begin: int
    end: int


class Reference(NamedTuple):
    """A name by its number; with `$` it stands for the name or label that its contents spell."""

    number: int
    indirect: bool


class Variable(NamedTuple):
    """A variable of a pattern: arbitrary, balanced or fixed."""

    form: str
    number: int
    length: int = 0


class Label(NamedTuple):
    """A label that a go-to or END's line names, and where it does."""

    text: bytes
    line: int
    column: int


@dataclass
class Statement:
    """A statement; without `=` its right side is None, with `=` alone it has no operands."""

    label: Optional[bytes] = None
    string: Optional[Reference] = None
    elements: list = field(default_factory=list)
    right_side: Optional[list] = None
    on_success: Union[Label, Reference, None] = None
    on_failure: Union[Label, Reference, None] = None


@dataclass
class Sheet:
    """What the lines read so far have brought; END's line brings the start."""

    names: list = field(default_factory=list)
    statements: list = field(default_factory=list)
    constants: list = field(default_factory=list)
    labels: dict = field(default_factory=dict)
    used_labels: list = field(default_factory=list)
    start: Optional[Label] = None

    def number_of_label(self, label):
        """The statement that has a label, END_NUMBER for END, None where no statement has it."""
        return END_NUMBER if label == END else self.labels.get(label)


# ---- Reading a line


class Fault(NamedTuple):
    """A fault of a line. Of several the smallest counts: by column, then by number."""

    column: int
    number: int
    symbol: int = 0


class Broken(Exception):
    """No statement line goes on as this one does at the reader's place."""


class LineReader:
    """Reads one line that is not idle into the sheet, and collects the faults of the line."""

    def __init__(self, line, line_number, sheet, kind):
        self.line = line
        self.line_number = line_number
        self.sheet = sheet
        self.kind = kind
        self.place = 0
        self.faults = []

    def read(self):
        """All faults of the line as a statement line."""
        try:
            self.statement_line()
        except Broken:
            self.add_fault(self.place, 4)
        return self.faults

    def add_fault(self, place, number, symbol=0):
        self.faults.append(Fault(place + 1, number, symbol))

    def at_end(self):
        return self.place == len(self.line)

    def comes(self, characters):
        """Whether one of these characters comes next."""
        return not self.at_end() and self.line[self.place] in characters

    def expect(self, characters):
        """Passes the next character, which has to be one of these, and returns it."""
        if not self.comes(characters):
            raise Broken
        self.place += 1
        return self.line[self.place - 1 : self.place]

    def pass_blanks(self):
        """Passes blanks; whether there were any."""
        before = self.place
        while self.comes(BLANK):
            self.place += 1
        return self.place > before

    def expect_end(self):
        self.pass_blanks()
        if not self.at_end():
            raise Broken

    # Names and labels

    def run(self):
        """All capitals, digits and periods that come next."""
        return WORD_RUN.match(self.line, self.place).group()

    def word(self):
        """A name or label.

        The form of a name knows no length, so 16 characters of which the last is a period may still
        go on, to a name over 16. Behind a name over 16 no fault of this line can count any more.
        """
        if not self.comes(WORD_BEGINS):
            raise Broken
        run = self.run()
        if len(run) > WORD_LIMIT:
            self.add_fault(self.place, 5)
        self.place += len(run)
        if len(run) > WORD_LIMIT or run.endswith(b"."):
            raise Broken
        return run

    def name(self):
        """The number of a name; one that breaks off at a period may already be one too many."""
        names = self.sheet.names
        is_new = self.comes(WORD_BEGINS) and self.run() not in names
        if is_new and len(names) >= NAME_LIMIT:
            self.add_fault(self.place, 7)
        word = self.word()
        if is_new:
            names.append(word)
        return names.index(word) + 1

    def reference(self):
        """A name, or `$` and a name."""
        indirect = self.comes(b"$")
        if indirect:
            self.place += 1
        return Reference(self.name(), indirect)

    def used_label(self):
        """A label where it is named, not where it stands before its statement."""
        column = self.place + 1
        label = Label(self.word(), self.line_number, column)
        self.sheet.used_labels.append(label)
        return label

    # Elements and operands

    def literal(self):
        quote = self.place
        closing = self.line.find(b'"', quote + 1)
        if closing < 0:
            self.place = len(self.line)
            raise Broken
        self.place = closing + 1
        text = self.line[quote + 1 : closing]
        constants = self.sheet.constants
        begin = len(constants)
        fault = symbol_fault(text, self.kind)
        if fault is None:
            constants.extend(split_symbols(text, self.kind))
        else:
            number, place = fault
            self.add_fault(quote + 1 + place, 6, number)
        if len(constants) > CONSTANT_LIMIT:
            self.add_fault(quote, 7)
        return Literal(text, begin, len(constants))

    def operand(self):
        return self.literal() if self.comes(b'"') else self.reference()

    def element(self):
        return self.variable() if self.comes(b"*") else self.operand()

    def variable(self):
        self.expect(b"*")
        if self.comes(b"("):
            self.expect(b"(")
            number = self.name()
            self.expect(b")")
            self.expect(b"*")
            return Variable("balanced", number)
        number = self.name()
        if self.expect(b"*/") == b"*":
            return Variable("arbitrary", number)
        self.expect(b'"')
        length = self.length()
        self.expect(b'"')
        self.expect(b"*")
        return Variable("fixed", number, length)

    def length(self):
        """One to four digits; a digit that takes the value over its limit can not follow."""
        digits = self.expect(b"0123456789")
        while self.comes(b"0123456789"):
            longer = digits + self.line[self.place : self.place + 1]
            if len(longer) > 4 or int(longer) > LENGTH_LIMIT:
                raise Broken
            digits = longer
            self.place += 1
        return int(digits)

    # Go-tos

    def target(self):
        """A label, or `$` and a name, in its parentheses."""
        self.expect(b"(")
        target = self.reference() if self.comes(b"$") else self.used_label()
        self.expect(b")")
        return target

    def go_to(self, statement):
        self.expect(b"/")
        if self.comes(b"("):
            statement.on_success = statement.on_failure = self.target()
            return
        if self.expect(b"SF") == b"S":
            statement.on_success = self.target()
            if self.comes(b"F"):
                self.expect(b"F")
                statement.on_failure = self.target()
        else:
            statement.on_failure = self.target()
            if self.comes(b"S"):
                self.expect(b"S")
                statement.on_success = self.target()

    # Lines

    def statement_line(self):
        if self.run() == END:
            self.end_line()
            return
        statements = self.sheet.statements
        if len(statements) >= STATEMENT_LIMIT:
            self.add_fault(0, 7)
        statement = Statement()
        if not self.comes(BLANK):
            statement.label = self.word()
            if statement.label in self.sheet.labels:
                self.add_fault(0, 8)
        if not self.pass_blanks():
            raise Broken
        statement.string = self.reference()
        self.items(statement)
        statements.append(statement)
        if statement.label is not None:
            self.sheet.labels[statement.label] = len(statements)

    def end_line(self):
        self.word()
        if not self.pass_blanks():
            raise Broken
        start = self.used_label()
        self.expect_end()
        self.sheet.start = start

    def items(self, statement):
        """What follows the string reference: elements, `=` and operands, a go-to."""
        while True:
            apart = self.pass_blanks()
            if self.at_end():
                return
            if not apart:
                raise Broken
            if self.comes(b"/"):
                self.go_to(statement)
                self.expect_end()
                return
            if self.comes(b"=") and statement.right_side is None:
                self.expect(b"=")
                statement.right_side = []
            elif statement.right_side is None:
                self.note_part_too_many(statement.elements, ELEMENT_BEGINS)
                statement.elements.append(self.element())
            else:
                self.note_part_too_many(statement.right_side, OPERAND_BEGINS)
                statement.right_side.append(self.operand())

    def note_part_too_many(self, parts, begins):
        """A ninth element or operand is one too many as soon as its first character stands."""
        if len(parts) >= PART_LIMIT and self.comes(begins):
            self.add_fault(self.place, 7)


# ---- Loading a sheet


class SheetRefused(Exception):
    """A sheet that is not accepted: the refusal's number, where it is, and its symbol fault."""

    def __init__(self, number, line=0, column=0, symbol=0):
        super().__init__(number)
        self.number = number
        self.line = line
        self.column = column
        self.symbol = symbol


def split_lines(text):
    """The lines of a text; behind the last code 10 there is none."""
    lines = text.split(b"\n")
    return lines[:-1] if lines[-1] == b"" else lines


def is_idle(line):
    return line.strip(BLANK) == b"" or line.startswith(b"*")


def character_faults(line):
    """The faults that every line may have, idle ones too: its length and its codes."""
    faults = []
    if len(line) > LINE_LIMIT:
        faults.append(Fault(LINE_LIMIT + 1, 2))
    for place, code in enumerate(line):
        if not 32 <= code <= 126:
            faults.append(Fault(place + 1, 3))
    return faults


def line_faults(line, line_number, sheet, kind):
    """Reads a line into the sheet and tells its faults.

    Behind END's line no line is read as a statement line, so that none has a fault of its form.
    """
    faults = character_faults(line)
    if is_idle(line):
        return faults
    if sheet.start is not None:
        return faults + [Fault(1, 10)]
    return faults + LineReader(line, line_number, sheet, kind).read()


def load(text, kind):
    """The sheet of a text, or SheetRefused with the refusal that counts."""
    if len(text) > TEXT_LIMIT:
        raise SheetRefused(1)
    sheet = Sheet()
    for line_number, line in enumerate(split_lines(text), 1):
        faults = line_faults(line, line_number, sheet, kind)
        if faults:
            first = min(faults)
            raise SheetRefused(first.number, line_number, first.column, first.symbol)
    if sheet.start is None:
        raise SheetRefused(10)
    for label in sheet.used_labels:
        if sheet.number_of_label(label.text) is None:
            raise SheetRefused(9, label.line, label.column)
    return sheet


# ---- What the program sheet_tables prints

LAYERS = {1: 3, 2: 2, 3: 2, 4: 2, 5: 2, 6: 1, 7: 2, 8: 3, 9: 3, 10: 3}
SENTENCES = {
    1: "the text is longer than 16,384 characters",
    2: "the line is longer than 120 characters",
    3: "this character may not stand in a sheet",
    4: "no statement goes on like this",
    5: "a name or a label has at most 16 characters",
    6: "the literal is not read as symbols",
    7: "this is one too many",
    8: "another statement has this label",
    9: "no statement has this label",
    10: "END's line is missing, or something follows it",
}
SYMBOLS_IN_A_ROW = 8


def printable(line):
    return "".join(chr(code) if 32 <= code <= 126 else "?" for code in line)


def refusal_rows(text, refusal):
    number, line, column = refusal.number, refusal.line, refusal.column
    head = f"refused {number} line {line} column {column} layer {LAYERS[number]}"
    if number == 6:
        head += f" symbol {refusal.symbol}"
    if line == 0:
        return [head, SENTENCES[number]]
    shown = printable(text.split(b"\n")[line - 1])
    return [head, shown, " " * (column - 1) + "^ " + SENTENCES[number]]


def part_words(part):
    """An element, operand or string reference in the words of the listing."""
    if isinstance(part, Literal):
        return f"literal {part.begin} {part.end}"
    if isinstance(part, Reference):
        return f"${part.number}" if part.indirect else f"{part.number}"
    if part.form == "fixed":
        return f"fixed {part.number} {part.length}"
    return f"{part.form} {part.number}"


def target_words(sheet, target):
    if isinstance(target, Reference):
        return part_words(target)
    number = sheet.number_of_label(target.text)
    return "END" if number == END_NUMBER else f"{number}"


def statement_rows(sheet, number, statement):
    head = f"statement {number}"
    if statement.label is not None:
        head += " " + statement.label.decode()
    rows = [head, "string " + part_words(statement.string)]
    rows += ["element " + part_words(element) for element in statement.elements]
    if statement.right_side is not None:
        rows.append("right side")
        rows += ["operand " + part_words(operand) for operand in statement.right_side]
    if statement.on_success is not None:
        rows.append("success " + target_words(sheet, statement.on_success))
    if statement.on_failure is not None:
        rows.append("failure " + target_words(sheet, statement.on_failure))
    return rows


def table_rows(sheet):
    counts = len(sheet.statements), len(sheet.names), len(sheet.constants)
    rows = ["ok %d %d %d" % counts, "start " + target_words(sheet, sheet.start)]
    for number, statement in enumerate(sheet.statements, 1):
        rows += statement_rows(sheet, number, statement)
    for number, name in enumerate(sheet.names, 1):
        rows.append(f"name {number} {name.decode()}")
    for place in range(0, len(sheet.constants), SYMBOLS_IN_A_ROW):
        symbols = b"".join(sheet.constants[place : place + SYMBOLS_IN_A_ROW])
        rows.append(f'constants {place} "{symbols.decode()}"')
    return rows


def sheet_output(text, kind_name):
    """What the program sheet_tables prints for one sheet of a kind."""
    try:
        rows = table_rows(load(text, KINDS[kind_name]))
    except SheetRefused as refusal:
        rows = refusal_rows(text, refusal)
    return "".join(row + "\n" for row in rows).encode()


# ---- Placings


class Refused(Exception):
    """A statement or a give that is refused, with the number of its refusal."""


class TooLaborious(Exception):
    """A session has so many trials that this engine, which is slow, gives up; no rule says so."""


class Element(NamedTuple):
    """An element of a pattern as a scan takes it.

    A constant has its text, a fixed-length variable its length, and a back reference the place in
    the pattern of the element that it refers to.
    """

    form: str
    text: bytes = b""
    length: int = 0
    earlier: int = 0


def balanced_ends(subject, begin):
    """Ends of parts, not null, with as many opening as closing symbols and none closed too early."""
    depth = 0
    for place in range(begin, len(subject)):
        if subject[place : place + 1] == b"(":
            depth += 1
        if subject[place : place + 1] == b")":
            depth -= 1
        if depth < 0:
            return
        if depth == 0:
            yield place + 1


def suiting_ends(pattern, subject, places):
    """All ends, ascending, with which a partial placing is one of one element more.

    `places` are the start and the ends of the partial placing.
    """
    element = pattern[len(places) - 1]
    begin = places[-1]
    if element.form == "arbitrary":
        is_last = len(places) == len(pattern)
        return range(len(subject) if is_last else begin, len(subject) + 1)
    if element.form == "balanced":
        return balanced_ends(subject, begin)
    if element.form == "fixed":
        return [begin + element.length] if begin + element.length <= len(subject) else []
    text = element.text
    if element.form == "back":
        text = subject[places[element.earlier] : places[element.earlier + 1]]
    return [begin + len(text)] if subject.startswith(text, begin) else []


class Scan:
    """Lists the partial placings of a pattern in a subject, unanchored, up to the first placing."""

    def __init__(self, pattern, subject):
        self.pattern = pattern
        self.subject = subject
        self.trials = 0

    def first_placing(self):
        """The start and the ends of the first placing, or None."""
        for start in range(len(self.subject) + 1):
            placing = self.extend((start,))
            if placing is not None:
                return placing
        return None

    def extend(self, places):
        """Lists a partial placing and then those that extend it."""
        self.trials += 1
        if self.trials > TRIAL_LIMIT:
            raise Refused(25)
        if len(places) > len(self.pattern):
            return places
        for end in suiting_ends(self.pattern, self.subject, places):
            placing = self.extend(places + (end,))
            if placing is not None:
                return placing
        return None


# ---- Carrying out a statement


def found_name(sheet, reference, contents):
    """The number of the name that a reference stands for."""
    if not reference.indirect:
        return reference.number
    spelled = contents[reference.number]
    if spelled not in sheet.names:
        raise Refused(24)
    return sheet.names.index(spelled) + 1


def found_pattern(sheet, statement, contents):
    """The elements as a scan takes them, with names and `$` resolved, left to right."""
    pattern = []
    variables = {}
    for place, part in enumerate(statement.elements):
        if isinstance(part, Literal):
            pattern.append(Element("constant", text=part.text))
        elif isinstance(part, Variable):
            pattern.append(Element(part.form, length=part.length))
            variables[part.number] = place
        else:
            number = found_name(sheet, part, contents)
            if number in variables:
                pattern.append(Element("back", earlier=variables[number]))
            else:
                pattern.append(Element("constant", text=contents[number]))
    return pattern


def name_variables(statement, subject, placing, contents):
    """Gives each variable its part, left to right, so that of one name the last one stands."""
    for place, part in enumerate(statement.elements):
        if isinstance(part, Variable):
            contents[part.number] = subject[placing[place] : placing[place + 1]]


def joined(sheet, operands, contents):
    texts = []
    for operand in operands:
        if isinstance(operand, Literal):
            texts.append(operand.text)
        else:
            texts.append(contents[found_name(sheet, operand, contents)])
    return b"".join(texts)


def contents_after(sheet, statement, string, placing, contents):
    """The contents of all names after a success, a new table; the given one stays as it was."""
    subject = contents[string]
    after = dict(contents)
    name_variables(statement, subject, placing, after)
    if statement.right_side is not None:
        text = joined(sheet, statement.right_side, after)
        if statement.elements:
            text = subject[: placing[0]] + text + subject[placing[-1] :]
        after[string] = text
    if any(len(text) > STRING_LIMIT for text in after.values()):
        raise Refused(26)
    return after


def next_statement(sheet, number, target, contents):
    """Where the verdict of statement `number` leads, by its go-to or without one."""
    if target is None:
        return number + 1 if number < len(sheet.statements) else END_NUMBER
    label = contents[target.number] if isinstance(target, Reference) else target.text
    following = sheet.number_of_label(label)
    if following is None:
        raise Refused(24)
    return following


class Session:
    """A sheet carried out over the contents of its names, with the record of what was done."""

    def __init__(self, sheet):
        self.sheet = sheet
        self.contents = {number: b"" for number in range(1, len(sheet.names) + 1)}
        self.next = sheet.number_of_label(sheet.start.text)
        self.record = []
        self.trials = 0

    def give(self, number, text):
        if number not in self.contents:
            raise Refused(27)
        if len(text) > STRING_LIMIT:
            raise Refused(26)
        self.contents[number] = text
        self.record.append(f"G {number}")

    def step(self):
        """Carries out the next statement; where that is refused, all is left as it was."""
        if self.next == END_NUMBER:
            raise Refused(21)
        statement = self.sheet.statements[self.next - 1]
        string = found_name(self.sheet, statement.string, self.contents)
        placing = ()
        if statement.elements:
            pattern = found_pattern(self.sheet, statement, self.contents)
            placing = self.scanned(pattern, self.contents[string])
        if placing is None:
            self.accept("F", (), self.contents, statement.on_failure)
        else:
            after = contents_after(self.sheet, statement, string, placing, self.contents)
            self.accept("S", placing, after, statement.on_success)

    def scanned(self, pattern, subject):
        scan = Scan(pattern, subject)
        placing = scan.first_placing()
        self.trials += scan.trials
        if self.trials > SESSION_TRIAL_LIMIT:
            raise TooLaborious
        return placing

    def accept(self, verdict, placing, after, target):
        """Takes the go-to, which may still be refused, and then all changes."""
        following = next_statement(self.sheet, self.next, target, after)
        self.record.append(" ".join(map(str, (verdict, self.next) + placing)))
        self.contents = after
        self.next = following

    def run(self):
        """Carries out statements to END; the number that the program bench_session prints behind STOP."""
        for _ in range(STEP_LIMIT):
            try:
                self.step()
            except Refused as refusal:
                return refusal.args[0]
            if self.next == END_NUMBER:
                return 0
        return 30


# ---- What the program bench_session prints


def split_input(data):
    """The sheet, up to the first line with label END and its code 10, and the line behind it."""
    place = 0
    for line in data.split(b"\n"):
        place += len(line) + 1
        if WORD_RUN.match(line).group() == END:
            return data[:place], data[place:].split(b"\n")[0]
    return data, b""


def stop_row(number):
    return f"STOP {number}"


def bench_rows(data):
    text, line = split_input(data)
    try:
        sheet = load(text, KINDS["log"])
        if symbol_fault(line, KINDS["log"]) is not None:
            raise Refused(6)
        session = Session(sheet)
        session.give(1, line)
    except SheetRefused as refusal:
        return [stop_row(refusal.number)]
    except Refused as refusal:
        return [stop_row(refusal.args[0])]
    stop = session.run()
    rows = session.record + [stop_row(stop)]
    for number, name in enumerate(sheet.names, 1):
        rows.append(f"{name.decode()}={session.contents[number].decode()}")
    return rows


def bench_output(data):
    """What the program bench_session prints for an input; it may be TooLaborious to tell."""
    return "".join(row + "\n" for row in bench_rows(data)).encode()
