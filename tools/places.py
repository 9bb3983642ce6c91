"""Lists the places in src/ that docs/DESIGN-PASS.md counts, by what stands in the text.

    python3 tools/places.py [POINT ..]

For each point it prints what was looked for, how many places there are, and each as file:line.
It finds candidates; whether one is a place, a person decides and docs/DESIGN-PASS.md says.
Tests, comments and imports are left out.
"""
import collections
import glob
import re
import subprocess
import sys

FILES = sorted(glob.glob('crates/*/src/*.rt'))


def code_of(file):
    """The lines of a file, with comments, imports and everything from the tests on made empty."""
    lines = open(file).read().split('\n')
    kept = []
    in_tests = False
    for line in lines:
        in_tests = in_tests or line.startswith('#[cfg(test)]')
        bare = line.strip()
        left_out = in_tests or bare.startswith('//') or bare.startswith('ghost use') or bare.startswith('use ')
        kept.append('' if left_out else line)
    return kept


CODE = {file: code_of(file) for file in FILES}


def grep(pattern):
    return [(file, number, line.strip())
            for file in FILES
            for number, line in enumerate(CODE[file], 1)
            if re.search(pattern, line)]


FUNCTION = re.compile(
    r'^( *)(?:pub(?:\(crate\))? )?fn (\w+)(?:<[^(]*>)?\((.*?)\)(?: -> ([^\n{]*))?(.*?)\n\1\}', re.S | re.M)


class Function:
    def __init__(self, file, text, found):
        self.file = file
        self.number = text[:found.start()].count('\n') + 1
        self.name = found.group(2)
        self.parameters = split_parameters(found.group(3))
        rest = found.group(5)
        cut = re.search(r'(^|\n)\s*\{\n|\{\n', rest)
        self.contract = rest[:cut.start()] if cut else ''
        self.body = rest[cut.end():] if cut else rest

    def place(self, note=''):
        return (self.file, self.number, note or self.name)


def split_parameters(text):
    names, depth, current = [], 0, ''
    for c in text + ',':
        depth += {'<': 1, '(': 1, '[': 1, '>': -1, ')': -1, ']': -1}.get(c, 0)
        if c == ',' and depth <= 0:
            name = current.split(':')[0].strip().removeprefix('mut ')
            if name:
                names.append(name)
            current = ''
        else:
            current += c
    return names


def all_functions():
    for file in FILES:
        text = '\n'.join(CODE[file])
        for found in FUNCTION.finditer(text):
            yield Function(file, text, found)


FUNCTIONS = list(all_functions())


def show(title, places):
    print(f'{title}: {len(places)}')
    for file, number, note in places:
        print(f'    {file.removeprefix("crates/")}:{number}: {note}')


def repeated(named, least):
    groups = collections.defaultdict(list)
    for name, place in named:
        groups[name].append(place)
    return {name: places for name, places in groups.items() if len(places) >= least}


def point1():
    """own enums like Option or Result, flags with a value, numbers for kinds or refusals"""
    show('enums', grep(r'^\s*(pub )?enum '))
    show('flags as fields and parameters', grep(r'\w+: bool\b'))
    show('an Option in an Option', grep(r'Option<Option<'))
    show('None or Err passed on, or given a default, by hand',
         grep(r'Err\(\w+\) => (Err\(|return Err|0)|None => (return None|None|0|false|true)\b|let (Some|Ok)\(.*\) = .* else \{$|^\s*None$'))
    show('numbers for kinds or refusals', grep(r'\b(stop|refusal|kind|reason): u8|-> u8\b'))


def point2():
    """twins"""
    by_name = repeated(((f.name, f.place()) for f in FUNCTIONS), 2)
    show('functions of one name', [p for name in sorted(by_name) for p in by_name[name]])
    types = [(re.search(r'(struct|enum|trait) (\w+)', note).group(2), (file, number, note))
             for file, number, note in grep(r'^(pub )?(struct|enum|trait) \w+')]
    types = repeated(types, 2)
    show('types of one name', [p for name in sorted(types) for p in types[name]])
    bodies = repeated(((re.sub(r'\s+', ' ', f.body), f.place()) for f in FUNCTIONS if len(f.body.strip()) > 20), 2)
    show('functions of one body', [p for body in sorted(bodies) for p in bodies[body]])


def point3():
    """loops that count an index by hand"""
    show('loops over a range', grep(r'\bfor \w+ in [^&\[ ]*\.\.'))
    show('while and loop', grep(r'^\s*(while\b|loop \{)'))


def point4():
    """equality, order, copying, conversion and printing by hand"""
    show('equality and order',
         grep(r'as u8 == |fn (is|same|are_same|is_before|least|lesser|smaller|equal|same_text)\b|(\w+)\.(\w+) == \w+\.\3 &&'))
    shaped = ('from', 'try_from', 'from_str', 'fmt')
    show('conversion: one value matched case by case',
         [f.place() for f in FUNCTIONS
          if len(f.parameters) == 1 and f.name not in shaped
          and re.match(r'(match (self|\w+) \{|\w+ as u8$)', f.body.strip())])
    show('printing', [f.place() for f in FUNCTIONS if re.match(r'(print|show)', f.name) or 'static str' in f.contract])


def point5():
    """facts in three contracts and more, parameters that travel together"""
    clauses = ((clause, f.place()) for f in FUNCTIONS
               for clause in set(re.findall(r'requires(?: \w+)? \{ (.*?) \}$', f.contract, re.M)))
    clauses = repeated(clauses, 3)
    show('clauses in three functions and more',
         [(clause, len(places), 'functions') for clause, places in sorted(clauses.items(), key=lambda x: -len(x[1]))])
    pairs = (((a, b), f.place()) for f in FUNCTIONS
             for i, a in enumerate(f.parameters) for b in f.parameters[i + 1:] if 'rt' not in (a, b))
    pairs = repeated(pairs, 5)
    show('pairs of parameters in five functions and more',
         [(', '.join(pair), len(places), 'functions') for pair, places in sorted(pairs.items(), key=lambda x: -len(x[1]))])


def point6():
    """buffers with a length beside, parallel arrays, arenas"""
    show('arrays as fields', grep(r'^\s*(pub(\(crate\))? )?\w+: \[\w+; \d+\],?$'))
    show('counts and places beside', grep(r'^\s*(pub(\(crate\))? )?(\w*count|length|used|size): usize,|\b(used|count|at|recorded): (usize|Option<usize>)[,)]'))
    show('parts by two numbers', grep(r'\b(from|start): usize, (to|size|length): usize|\(usize, usize\)'))


def point7():
    """a switch on which step to run, tables of functions"""
    show('an enum passed on to choose a step', grep(r'\b(pass|step|way|mode): (Pass|Step|Way)\b'))
    show('function pointers and tables of them', grep(r'\bfn\([^)]*\)( ->)?'))


def point8():
    """proofs"""
    for crate in sorted(glob.glob('crates/*')):
        files = subprocess.run(['git', 'ls-files', f'{crate}/proofs'], capture_output=True, text=True).stdout.split()
        answers = [f for f in files if f.endswith('Answers.antt')]
        lines = sum(len(open(f).readlines()) for f in files)
        print(f'    {crate.removeprefix("crates/")}: {len(files)} files, {len(answers)} with answers, {lines} lines')


POINTS = {'1': point1, '2': point2, '3': point3, '4': point4, '5': point5, '6': point6, '7': point7, '8': point8}

for point in sys.argv[1:] or POINTS:
    print(f'== {point}: {POINTS[point].__doc__}')
    POINTS[point]()
