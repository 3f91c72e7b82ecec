#!/usr/bin/env python3
"""Counts, in the crates' src/, the places where older forms may stand: python3 tools/places.py [--list] [CRATE..]

1  enums and their variants that say 'none' or a refusal (Option, Result), numbers for kinds, sides and refusals, structs with a flag
2  functions whose bodies are the same but for types, names of callees and constants
3  loops that count an index
4  equality, order, conversion and printing by hand: functions that only match an enum's variants to constants or bytes
5  facts that stand in the contracts of three functions or more, and three parameters or more that five functions or more take
6  a list with a length or an offset beside it, and lists that run beside one another
7  steps chosen by a number: several comparisons of one parameter with constants
8  answers written for the proofs (how many each crate has)
A count is of what the text shows; what of it stays, and why, stands in docs/DESIGN-PASS.md."""
import collections
import pathlib
import re
import sys

FN = re.compile(r'^( *)(?:pub(?:\(crate\))? )?(?:extern "C" )?fn (\w+)', re.M)
BLANK = re.compile(r'//[^\n]*')


def functions(text):
    """Each function: line, name, parameters, contract, body."""
    for m in FN.finditer(text):
        stop = re.compile(r'^' + m.group(1) + r'(\}|\{.*\})$', re.M).search(text, m.end())
        whole = text[m.start():stop.end() if stop else len(text)]
        head, _, body = whole.partition('\n' + m.group(1) + '{')
        if not body:
            head, _, body = whole.partition(' {')
        sign = re.split(r'\n\s*(?:requires|ensures)\b', head)[0]
        opened = sign.find('(')
        params = re.findall(r'(\w+): ([^,()]+(?:\([^)]*\))?[^,()]*)', sign[opened + 1:sign.rfind(')') + 1].split(') ->')[0])
        params = [(n, re.sub(r"'\w+ ?", '', t.strip())) for n, t in params]
        yield text.count('\n', 0, m.start()) + 1, m.group(2), params, head[len(sign):], BLANK.sub('', body)


def skeleton(params, body):
    names = {n for n, _ in params} | set(re.findall(r'let (?:mut )?(\w+)', body))
    order = {}

    def word(m):
        w = m.group(0)
        if w in names:
            return order.setdefault(w, 'v%d' % len(order))
        return w if w in ('if', 'else', 'while', 'for', 'in', 'let', 'mut', 'return', 'match', 'true', 'false', 'len') else 'T'
    return re.sub(r'\s+', '', re.sub(r'[A-Za-z_]\w*(?:::\w+)*|\d[\w.]*|0x\w+', word, body))


def conjuncts(contract):
    for clause in re.findall(r'(?:requires|ensures)(?: \w+)? \{(.*?)\}\s*(?=requires|ensures|$)', contract, re.S):
        for part in re.split(r'\s×\s', ' '.join(clause.split())):
            yield part.strip('() ')


def main():
    words = sys.argv[1:]
    show = '--list' in words
    crates = [w for w in words if not w.startswith('-')]
    found = collections.defaultdict(list)
    answers = collections.Counter()
    shapes, facts, groups = (collections.defaultdict(list) for _ in range(3))
    for f in sorted(pathlib.Path('crates').glob('*/src/*.rt')):
        if crates and f.parts[1] not in crates:
            continue
        text = f.read_text()
        where = '/'.join(f.parts[1:2] + f.parts[3:])
        for m in re.finditer(r'enum (\w+) \{(.*?)\n\}', text, re.S):
            variants = re.findall(r'^    (\w+)', m.group(2), re.M)
            if any(re.match(r'(No|None|Nothing|Nowhere|Empty|Apart|Full|Unread|Refused|Unordered|Equal)$', v) for v in variants):
                found[1].append('%s enum %s { %s }' % (where, m.group(1), ', '.join(variants)))
        for m in re.finditer(r'struct (\w+)(?:<[^>]*>)? \{(.*?)\n\}', text, re.S):
            if re.search(r': bool', m.group(2)) or re.search(r'\bcode: u32', m.group(2)):
                found[1].append('%s struct %s with a flag or a code' % (where, m.group(1)))
        for line, name, params, contract, body in functions(text):
            at = '%s:%d %s' % (where, line, name)
            for n, t in params:
                if n in ('op', 'kind', 'which', 'axis', 'code', 'k') and t in ('u8', 'u32') or n in ('which', 'axis') and t == 'usize':
                    found[1].append('%s: %s: %s' % (at, n, t))
            if len(skeleton(params, body)) > 16:
                shapes[skeleton(params, body)].append(at)
            for m in re.finditer(r'\bwhile\b(?! let)[^\n{]*|\bfor \w+ in [^\n{]*\.\.[^\n{]*', body):
                found[3].append('%s: %s' % (at, ' '.join(m.group(0).split())))
            arms = re.findall(r'=> ([^,{]+),', body)
            if arms and all(re.match(r"(\d+|true|false|b?\"|out\.write_all\(b|[a-d])", a) for a in arms):
                found[4].append(at)
            for c in set(conjuncts(contract)):
                facts[c].append(at)
            plain = [(n, t) for n, t in params if n != 'self']
            for i in range(len(plain) - 2):
                groups[tuple(plain[i:i + 3])].append(at)
            lists = [n for n, t in params if '[' in t]
            offsets = [n for n, t in params if t == 'usize']
            if any('&mut [' in t for _, t in params) and offsets:
                found[6].append('%s: %s beside %s' % (at, ', '.join(offsets), ', '.join(lists)))
            elif len([1 for n, t in params if '[' in t]) >= 3:
                found[6].append('%s: %s' % (at, ', '.join(lists)))
            for n, t in params:
                if len(re.findall(r'\b%s == \w+' % n, body)) >= 3:
                    found[7].append('%s: %s' % (at, n))
    for s, at in shapes.items():
        if len(at) > 1:
            found[2].append(' = '.join(at))
    for c, at in sorted(facts.items(), key=lambda e: -len(e[1])):
        if len(at) >= 3 and len(c) > 8:
            found[5].append('%d contracts say: %s' % (len(at), c))
    for g, at in sorted(groups.items(), key=lambda e: -len(e[1])):
        if len(at) >= 5:
            found[5].append('%d functions take: %s' % (len(at), ', '.join('%s: %s' % p for p in g)))
    for f in sorted(pathlib.Path('crates').glob('*/proofs/**/Answers.antt')):
        if crates and f.parts[1] not in crates:
            continue
        answers[f.parts[1]] += len(re.findall(r'^(?:abbrev )?pub \S+ : goal', f.read_text(), re.M))
    found[8] = ['%s: %d' % e for e in sorted(answers.items())]
    for point in range(1, 9):
        print('%d: %d' % (point, sum(answers.values()) if point == 8 else len(found[point])))
        for place in found[point] if show else []:
            print('   ' + place)


main()
