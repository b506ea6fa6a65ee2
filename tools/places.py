#!/usr/bin/env python3
"""Counts in src/ (and for point 8 in proofs/) the places of docs/DESIGN-PASS.md: `tools/places.py [POINT..]`, with -v each place."""
import collections, glob, re, sys

FILES = sorted(glob.glob('crates/*/src/**/*.rt', recursive=True))
crate = lambda f: f.split('/')[1]
text = {f: re.sub(r'//[^\n]*', '', open(f).read()) for f in FILES}


def functions():
    """(file, line, name, signature with clauses, body) of each function, as rt fmt lays them out."""
    for f in FILES:
        lines = text[f].split('\n')
        i = 0
        while i < len(lines):
            m = re.match(r'( *)(?:pub |pub\(crate\) )?(?:extern "C" )?fn (\w+)', lines[i])
            if m:
                pad, j = m.group(1), i
                while j < len(lines) and not re.match(pad + r'(\{|.*[^λ] \{)$', lines[j]) and not lines[j].rstrip().endswith('}'):
                    j += 1
                j = i
                while j < len(lines) and lines[j] != pad + '{' and not (lines[j].startswith(pad) and lines[j].endswith(' {') and not lines[j].strip().startswith(('requires', 'ensures'))):
                    j += 1
                k = j
                while k < len(lines) and lines[k] != pad + '}':
                    k += 1
                yield f, i + 1, m.group(2), '\n'.join(lines[i:j + 1]), '\n'.join(lines[j + 1:k])
                i = k
            i += 1


FUNCTIONS = list(functions())


def enums():
    for f in FILES:
        for m in re.finditer(r'\benum (\w+)[^{]*\{\n(.*?)\n\}', text[f], re.S):
            yield f, m.group(1), re.findall(r'^    (\w+)(.*)$', m.group(2), re.M)


def point1():
    """own enums of the shape of Option or Result; a flag or number with a value beside it; numbers for refusals and kinds"""
    for f, name, vs in enums():
        if (len(vs) == 2 and any(rest.strip(' ,') for _, rest in vs)) or any(v in ('Unknown', 'Unreadable', 'Never') for v, _ in vs):
            yield f, 'enum ' + name
    for f in FILES:
        for m in re.finditer(r'struct (\w+)[^{;]*\{\n(.*?)\n\}', text[f], re.S):
            for x in re.findall(r'(?:pub )?(number|hit|known|more|doing|slots|mode): (?:u8|u16|u32|usize|bool),', m.group(2)):
                yield f, f'struct {m.group(1)}.{x}'
        if crate(f) in ('numbers', 'commands'):
            for x in re.findall(r'^pub const (\w+): u8 = ', text[f], re.M):
                if x not in ('NO_TRANSACTION', 'INTERRUPT'):
                    yield f, 'const ' + x
    for f, n, name, sig, body in FUNCTIONS:
        if re.search(r'-> u8\b', sig) and re.search(r'\b(BAD_\w+|SHORT_OUTPUT|NONE_KEPT|INTERRUPT)\b', body):
            yield f, f'{name} -> u8'


def shape(body):
    return re.sub(r'\s+', ' ', re.sub(r'\b(0x[0-9a-fA-F]+|\d+)\b', '#', re.sub(r'\b(?!let|mut|if|else|match|return|while|for|in|as|true|false)[A-Za-z_]\w*', 'x', body))).strip()


def point2():
    """functions of one crate whose bodies differ only in names and constants (programs apart); the first of each group is no twin"""
    groups = collections.defaultdict(list)
    for f, n, name, sig, body in FUNCTIONS:
        s = shape(body)
        if len(s.split()) >= 4 and crate(f) not in ('exercise', 'steps', 'bench', 'sca_c') and name not in ('fmt', 'from'):
            groups[crate(f), s].append((f, name))
    for (c, s), fs in groups.items():
        for f, name in fs[1:]:
            yield f, f'{name} ~ {fs[0][1]}'


def point3():
    """loops by while or loop"""
    for f in FILES:
        for m in re.finditer(r'^ *((?:\'\w+: )?(?:while|loop)\b.*) \{$', text[f], re.M):
            yield f, m.group(1)


def point4():
    """structs copied field by field; a comparison, a conversion or printing by hand"""
    for f in FILES:
        for m in re.finditer(r'(\w+) \{\n((?: +\w+(?:: [\w.()]+)?,\n)+) *\}', text[f]):
            if len(re.findall(r'(\w+): \w+\.\1,', m.group(2))) >= 3:
                yield f, 'copied field by field: ' + m.group(1)
    for f, n, name, sig, body in FUNCTIONS:
        if len(re.findall(r'\b(\w+)\.(\w+) != (\w+)\.\2\b', body)) >= 3:
            yield f, f'compared field by field: {name}'
        if re.search(r'b\'0\' \+|48 \+', body):
            yield f, f'digits by hand: {name}'
        if re.match(r'(pack_\w+|wide|spell\w*|number_of|link_of|tag_of|store_link|word_of)$', name):
            yield f, f'conversion by hand: {name}'


FACTS = [r'length registers\.(?:now|old) ≡ size', r'length (?:state|s)\.(?:now|old) ≡ state_size', r'well_formed (?:j|journal)\.(?:now|old) ≡ true',
         r'length transactions\.(?:now|old) ≡ record_size', r'is_record transactions\.(?:now|old) ≡ true', r'output_least ≤ length output\.old',
         r'cable_most ≤ length output\.old', r'pen\.held < 2 \^ \(pen\.bits % 8\)']


def point5():
    """contracts that repeat a fact which three or more have"""
    for fact in FACTS:
        for f, n, name, sig, body in FUNCTIONS:
            if re.search(fact, sig):
                yield f, f'{fact}: {name}'


def point6():
    """lent bytes with a place or a count beside them"""
    for f, n, name, sig, body in FUNCTIONS:
        head = sig.split(')')[0]
        if re.search(r'(out|line): &mut \[u8[^,]*,\s+(at|count): usize', head) or re.search(r'count: usize,.*line: &mut', head, re.S):
            yield f, name


def point7():
    """a flag that says which step to run; one step after another for each kind of event"""
    for f, n, name, sig, body in FUNCTIONS:
        if re.search(r'if p\.doing', body) or re.search(r'_happens\(', body) or re.search(r'Verdict::Passed => events', body):
            yield f, name


def point8():
    """proofs that walk the code by hand"""
    for f in sorted(glob.glob('crates/*/proofs/**/Proof.antt', recursive=True)):
        yield f, 'walk'


if __name__ == '__main__':
    want = [a for a in sys.argv[1:] if a != '-v'] or list('12345678')
    for p in want:
        places = list(globals()['point' + p]())
        print(f'{p}: {len(places)}  {globals()["point" + p].__doc__}')
        if '-v' in sys.argv:
            for f, what in places:
                print(f'   {f}: {what}')
