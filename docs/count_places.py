"""Counts, point by point, the places of src/ and proofs/ that docs/DESIGN-PASS.md speaks of: python3 docs/count_places.py [-v]."""
import collections
import glob
import os
import re
import sys

os.chdir(os.path.join(os.path.dirname(os.path.abspath(__file__)), '..'))
VERBOSE = '-v' in sys.argv[1:]
SOURCES = sorted(glob.glob('crates/*/src/*.rt'))


def lines():
    for path in SOURCES:
        for number, line in enumerate(open(path, encoding='utf-8'), 1):
            if not line.lstrip().startswith('//'):
                yield path, number, line.rstrip('\n')


def show(point, what, places):
    print(f'{point}  {len(places):4}  {what}')
    if VERBOSE:
        for place in places:
            print('          ', place)


def matching(pattern):
    return [f'{p}:{n}: {line.strip()}' for p, n, line in lines() if re.search(pattern, line)]


def functions():
    """Each function with its file, its name, its parameters and its clauses."""
    for path in SOURCES:
        text = open(path, encoding='utf-8').read()
        for m in re.finditer(r'^ *(?:pub )?(?:extern "C" )?fn (\w+)(?:<[^(]*>)?\((.*?)\)(.*?)\n *\{', text, re.S | re.M):
            yield path, m.group(1), m.group(2), m.group(3)


def facts():
    """The facts of `requires` clauses: a definition by its name, any other fact by its text."""
    where = collections.defaultdict(set)
    for path, name, _, clauses in functions():
        for clause in re.findall(r'requires\s*\w*\s*\{ (.*) \}', clauses):
            depth, part, parts = 0, '', []
            for c in clause + '×':
                depth += (c == '(') - (c == ')')
                if c == '×' and depth == 0:
                    parts.append(part.strip())
                    part = ''
                else:
                    part += c
            for fact in parts:
                fact = re.sub(r'\.(now|old)\b', '', re.sub(r'^\((.*)\)$', r'\1', fact))
                first = fact.split()[0]
                where[first if first[:1].isupper() else fact].add(f'{path.split("/")[1]}::{name}')
    return where


def answers():
    return [path for path in glob.glob('crates/*/proofs/**/Answers.antt', recursive=True)
            for line in open(path, encoding='utf-8') if re.match(r'pub [\w-]+ : goal\.', line)]


show('1a', 'enums', matching(r'^(pub )?enum [A-Z]'))
show('1b', 'numbers for a refusal or a kind', matching(r'number: [0-9]+,|refuse\([0-9]+,|number: usize'))
show('1c', 'a case looked at by hand that `?` would pass on', matching(r'^ *let \S+::\w+.* = \w+ else'))
show('2 ', 'names that tell a number, a size or a sibling',
     [f'{p}: {n}' for p, n, _, _ in functions()
      if re.search(r'_(one|two|three|four|few|some|many|both|single|singles|pair|meant)$|^(refuse|refused|clear|wide|size|low)$', n)]
     + matching(r'^(pub )?struct (Two|Three|Four)\b'))
show('3 ', 'loops with a counter moved by hand', matching(r'^ *\w+ [+-]= (1|2|\d|ROW_BYTES|2 \* s);'))
show('4 ', 'equality and conversion by hand',
     matching(r'is_none\(rows::xor|\.bits [!=]= |(from|to)_u64\(|\bsize\(|\bwide\(|\blow\(|fn of_\w+\(|fn (side|side_number|named_side|with_dimension)\('))
wide = {k: v for k, v in facts().items() if len(v) >= 3}
show('5a', 'facts that three or more contracts ask for', [f'{len(v)} {k}' for k, v in sorted(wide.items(), key=lambda kv: -len(kv[1]))])
show('5b', 'functions of more than six parameters', [f'{p}: {n}' for p, n, ps, _ in functions() if len(re.findall(r'\w+\s*:(?!:)', ps)) > 6])
show('6 ', 'a length, a stride or a position beside a buffer',
     [f'{p}: {n}' for p, n, ps, _ in functions() if re.search(r'\bstride: usize|tab: &(mut )?Lookup, (g|k): usize|line: &mut \[u8\]', ps)]
     + matching(r'^const [A-Z]+: \[\w+; \d+\]'))
show('7 ', 'a switch on which step to run', matching(r'^ *(Binary|Unary)::\w+ =>'))
show('8 ', 'answers in proofs/', answers())
