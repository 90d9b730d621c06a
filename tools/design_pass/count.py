#!/usr/bin/env python3
"""Lists, for each point of docs/DESIGN-PASS.md, the lines of crates/*/src/ where it may apply.

    python3 tools/design_pass/count.py [--list] [POINT..]

prints the counts, and with --list each place as FILE:LINE: TEXT. Which of them are places of the point
is judged by reading; the page says what became of each.
"""
import re, sys, glob, collections

FILES = sorted(glob.glob('crates/*/src/**/*.rt', recursive=True))
TEXT = {f: open(f, encoding='utf-8').read() for f in FILES}


def lines(pattern, keep=lambda f, line: True):
    found = []
    for f in FILES:
        for n, line in enumerate(TEXT[f].split('\n'), 1):
            code = line.split('//')[0]
            if re.search(pattern, code) and keep(f, line):
                found.append((f, n, line.strip()))
    return found


HEAD = re.compile(r'^ *(pub(\(crate\))? )?fn (\w+)[^{;]*?\((.*?)\)( ->|\n| *requires| *ensures| \{)', re.S | re.M)
CLAUSE = re.compile(r'^ *(requires|ensures) (\w+ )?\{ (.*) \}$', re.M)


def functions(f):
    """name, number of parameters, line, text up to the next function"""
    text = TEXT[f]
    starts = [m.start() for m in re.finditer(r'^ *(pub(\(crate\))? )?fn \w+', text, re.M)]
    for start, end in zip(starts, starts[1:] + [len(text)]):
        part = text[start:end]
        name = re.search(r'fn (\w+)', part).group(1)
        depth, params, inside = 0, '', False
        for ch in part[part.index(name) + len(name):]:
            if ch == '(':
                depth += 1
                inside = True
            elif ch == ')':
                depth -= 1
                if depth == 0:
                    break
            elif inside:
                params += ch
        count = len([p for p in re.split(r',(?![^<(]*[>)])', params) if p.strip()])
        yield name, count, text.count('\n', 0, start) + 1, part


def point1():
    """enums, flags in structs, and functions that answer a number of one byte"""
    return (lines(r'^\s*(pub )?enum \w') + lines(r'^\s*(pub )?\w+: bool,$')
            + lines(r'fn .*\) -> (u8|Option<u8>)\b'))


def point2():
    """functions of one name in two files: not methods of one trait, tests, or main"""
    where = collections.defaultdict(list)
    for f in FILES:
        for name, count, n, part in functions(f):
            where[name].append((f, n))
    found = []
    for name, places in sorted(where.items()):
        if len(places) > 1 and name not in ('main', 'new', 'fmt', 'eq'):
            found += [(f, n, name) for f, n in places]
    return found


def point3():
    """loops over a range of indexes, and `while`"""
    return lines(r'^\s*for \w+ in [^{]*\.\.') + lines(r'^\s*while ')


def point4():
    """impls of std's comparing, copying, converting and printing, and casts of enums"""
    return (lines(r'^\s*impl.* (PartialEq|Eq|PartialOrd|Ord|Clone|Copy|Debug|fmt::Debug|Display|fmt::Display|From<.*>|TryFrom<.*>|Hash|Default) for ')
            + lines(r'self as u(8|16|32)'))


def point5():
    """clauses that stand in three or more functions, and functions with five or more parameters"""
    where = collections.defaultdict(list)
    for f in FILES:
        for name, count, n, part in functions(f):
            for m in CLAUSE.finditer(part):
                where[re.sub(r'\b(self|\w+)\.(old|new|now)', r'_.\2', m.group(3))].append((f, n, name))
    found = [(f, n, f'{name}: {clause[:100]}') for clause, places in sorted(where.items())
             if len({(p[0], p[2]) for p in places}) >= 3 for f, n, name in places]
    many = [(f, n, f'{name}: {count} parameters') for f in FILES for name, count, n, _ in functions(f) if count >= 5]
    return found + many


def point6():
    """arrays of a fixed length in structs and locals, and counts beside them"""
    return lines(r'\[[^\[\];]+; *(\d+|[A-Z]+)\]') + lines(r'^\s*(pub )?(\w+_)?(count|len|reach|used): usize,$')


def point7():
    """tables and switches of steps: function pointers, and enums that choose a step"""
    return lines(r'\bfn\(') + lines(r'\bdyn ')


def point8():
    """files of answers, with their lines"""
    return [(f, len(open(f, encoding='utf-8').read().split('\n')), '') for f in
            sorted(glob.glob('crates/*/proofs/**/Answers.antt', recursive=True))]


def main():
    shown = [a for a in sys.argv[1:] if a.isdigit()] or list('12345678')
    for p in shown:
        found = globals()['point' + p]()
        print(f'point {p}: {len(found)}  ({globals()["point" + p].__doc__})')
        if '--list' in sys.argv:
            for f, n, text in found:
                print(f'  {f}:{n}: {text}')


if __name__ == '__main__':
    main()
