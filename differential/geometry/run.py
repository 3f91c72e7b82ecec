#!/usr/bin/env python3
"""The geometry layer against the published Rust, line by line and bit for bit. No network.

    python3 differential/geometry/run.py [--lines N] [--seed S] [--built DIR] [--program FILE] [--sample]

Builds the oracle (differential/oracle) into target/oracle, or takes the one in --built;
proves and compiles geometry_lines (or takes --program), makes N lines (by default 120,000 and the named ones), asks both sides, and
says for each difference which cause it has. The last line has the counts. --sample writes the program's stored sample instead."""
import argparse
import math
import os
import re
import subprocess
import sys

HERE = os.path.dirname(os.path.abspath(__file__))
ROOT = os.path.dirname(os.path.dirname(HERE))
sys.path.insert(0, HERE)
sys.dont_write_bytecode = True

import model
import shewchuk
from lines import Lines
from named import named

LIMIT = 65536
ROUNDED = 'rounded angles'
TIED = 'sort_unstable_by at equal parameters'
UNDERFLOW = 'underflow inside orient2d'


def chunks(lines, most):
    part, size = [], 0
    for l in lines:
        if part and size + len(l) + 1 > most:
            yield part
            part, size = [], 0
        part.append(l)
        size += len(l) + 1
    if part:
        yield part


def run(command, lines):
    return subprocess.run(command, input=''.join(l + '\n' for l in lines), text=True, capture_output=True)


def ask_program(program, lines):
    out = []
    for part in chunks(lines, LIMIT):
        r = run([program], part)
        got = r.stdout.splitlines()
        if r.returncode or len(got) != len(part):
            sys.exit('the program stopped: status %d, %d answers to %d lines' % (r.returncode, len(got), len(part)))
        out += got
    return out


def ask_oracle(program, lines):
    """A line at which the whole oracle stops is asked by itself, and its answer is (stopped)."""
    r = run([program, 'geom'], lines)
    got = r.stdout.splitlines()
    if r.returncode == 0 and len(got) == len(lines):
        return got
    if len(lines) == 1:
        return ['(stopped)']
    m = len(lines) // 2
    return ask_oracle(program, lines[:m]) + ask_oracle(program, lines[m:])


def values(line):
    return [model.number(h) for h in line.split()[1:]]


def is_large(line):
    """The stand-in for orient2d may stop the whole run here: such lines are asked one by one."""
    return line.startswith('orient') and not all(abs(x) <= 2.0 ** 40 for x in values(line))


def ask_oracles(program, lines):
    plain = [l for l in lines if not is_large(l)]
    answers = iter([a for part in chunks(plain, 4 << 20) for a in ask_oracle(program, part)])
    return [ask_oracle(program, [l])[0] if is_large(l) else next(answers) for l in lines]


def one_nan(answer):
    """Any NaN's digits as one: the published Rust prints the sign that the machine gave it."""
    return re.sub(r'\b[7f]ff[0-9a-f]{13}\b', lambda m: model.digits(model.number(m.group())), answer)


def outside(line):
    """Whether numbers or directions occur that document 01 keeps out: not finite, or -0."""
    v = values(line)
    if line.startswith('around'):
        v = v + [c for d in model.directions(v) for c in d]
    return not all(math.isfinite(x) for x in v) or any(x == 0 and math.copysign(1, x) < 0 for x in v)


def cause(line, ours, rust, law, ruled):
    """What a line counts as: 'equal', a named cause, or 'unexplained'. `ruled` is the answer by document 01's rule."""
    if ours != ruled:
        return 'unexplained'
    if ours == rust:
        return 'equal'
    if rust.startswith('('):
        if 'coordinates above' in rust or rust == '(stopped)' or 'is_finite' in rust:
            return 'the oracle\'s orient2d stops: exact arithmetic'
        return 'the Rust panics: the answer chosen'
    v = values(line)
    if line.startswith('around'):
        if outside(line):
            return 'a direction not finite or with -0: the answer chosen'
        if ours == law and rust == model.around_rounded(v):
            return ROUNDED
    if line.startswith('meet') and rust in model.colinear_anyhow(v):
        return TIED
    if line.startswith('orient') and model.underflows(*v):
        return UNDERFLOW
    if line.startswith('inside') and any(model.underflows(*a, *b, *v[:2]) for a, b in model.edges(v[2:])):
        return UNDERFLOW
    return 'unexplained'


def compare(program, oracle, law, lines):
    """Rows (line, ours, rust, law, cause)."""
    ours = ask_program(program, lines)
    rust = [one_nan(a) for a in ask_oracles(oracle, lines)]
    laws = [one_nan(a) for a in ask_oracles(law, lines)]
    for l, a, r, w in zip(lines, ours, rust, laws):
        yield l, a, r, w, cause(l, a, r, w, model.answer(l))


def table(rows):
    counts, forms = {}, {}
    for l, _, _, _, why in rows:
        word = l.split()[0]
        counts.setdefault(why, {}).setdefault(word, 0)
        counts[why][word] += 1
        forms[word] = forms.get(word, 0) + 1
    words = [w for w in model.ANSWER if w in forms]
    print('%-56s' % 'lines' + ''.join('%9s' % w for w in words) + '%9s' % 'all')
    for why in sorted(counts, key=lambda w: -sum(counts[w].values())):
        print('%-56s' % why + ''.join('%9d' % counts[why].get(w, 0) for w in words) + '%9d' % sum(counts[why].values()))
    print('%-56s' % 'all' + ''.join('%9d' % forms[w] for w in words) + '%9d' % len(rows))
    return counts


def reached(rows):
    """How often the places that made lines rarely reach were reached."""
    told = {}
    for l, *_ in rows:
        v = values(l)
        if l.startswith('inside') and all(map(math.isfinite, v)):
            model.inside(v, told)
        if l.startswith('meet') and all(map(math.isfinite, v)):
            ax, ay, bx, by, cx, cy = v[2] - v[0], v[3] - v[1], v[6] - v[4], v[7] - v[5], v[4] - v[0], v[5] - v[1]
            scale = max(abs(ax), abs(ay), abs(bx), abs(by))
            eps = 64 * (scale * scale) * 2.0 ** -52
            if eps > 0 and abs(ax * by - ay * bx) < eps and abs(cx * ay - cy * ax) == eps:
                told['|cross31| = eps'] = told.get('|cross31| = eps', 0) + 1
        if any(x == 0 and math.copysign(1, x) < 0 for x in v):
            told['-0 in the line'] = told.get('-0 in the line', 0) + 1
    for l, a, *_ in rows:
        if ',' in a and len(set(model.parameters(values(l)))) < 4:
            told['equal parameters'] = told.get('equal parameters', 0) + 1
        if l.startswith('orient') and model.underflows(*values(l)):
            told['orient: products below the least float'] = told.get('orient: products below the least float', 0) + 1
        if l.startswith('meet'):
            kind = 'new' if a.startswith('new') else 'none' if a == 'none' else 'two ends' if ',' in a else 'one end'
            told['meet: ' + kind] = told.get('meet: ' + kind, 0) + 1
    print('; '.join('%s: %d' % (k, told[k]) for k in sorted(told)))


def predicate(rows):
    """The paper's predicate on the `orient` lines whose coordinates document 01 allows: its sign is ours but for underflow."""
    asked = unlike = left = 0
    for l, ours, *_ in rows:
        v = values(l)
        if l.startswith('orient') and all(abs(x) <= 2.0 ** 40 for x in v):
            asked += 1
            if str(model.sign(shewchuk.orient2d(*v))) != ours:
                unlike += 1
                if not model.underflows(*v):
                    left += 1
                    print('unexplained, by the paper\'s predicate: ' + l)
    print('the paper\'s orient2d, transcribed: %d lines asked, %d of another sign, each by underflow but %d' % (asked, unlike, left))
    return left


def sample(rows):
    """The stored sample: the named lines and some made ones, short enough for one reading."""
    here = os.path.join(ROOT, 'crates', 'geometry_lines')
    size, kept = 0, []
    for row in rows:
        if len(row[0]) <= 280 and size + len(row[0]) + 1 <= LIMIT - 256:
            size += len(row[0]) + 1
            kept.append(row)
    with open(os.path.join(here, 'stdin'), 'w') as f:
        f.writelines(l + '\n' for l, *_ in kept)
    with open(os.path.join(here, 'stdout'), 'w') as f:
        for l, ours, rust, law, why in kept:
            # from the oracle, or where that stops or rounds its angles, from document 01's rule
            f.write((rust if why == 'equal' else model.answer(l)) + '\n')
    print('%d lines, %d bytes' % (len(kept), size))
    return kept


def main():
    p = argparse.ArgumentParser()
    p.add_argument('--lines', type=int, default=120000)
    p.add_argument('--seed', type=int, default=1)
    p.add_argument('--built')
    p.add_argument('--program')
    p.add_argument('--sample', action='store_true')
    a = p.parse_args()
    built = a.built or os.path.join(ROOT, 'target', 'oracle')
    if not a.built:
        subprocess.run([os.path.join(ROOT, 'differential', 'oracle.sh'), built], check=True)
    crate = os.path.join(ROOT, 'crates', 'geometry_lines')
    program = a.program or os.path.join(crate, 'out', 'geometry_lines')
    if not a.program:
        subprocess.run(['rt', 'run'], cwd=crate, check=True, stdin=subprocess.DEVNULL, stdout=subprocess.DEVNULL, stderr=subprocess.DEVNULL)
    oracle, law = (os.path.join(built, 'release', n) for n in ('oracle', 'oracle-law'))
    lines = [l for _, l in named()] + Lines(a.seed).made(2000 if a.sample else a.lines)
    rows = list(compare(program, oracle, law, lines))
    if a.sample:
        rows = sample(rows)
    for l, ours, rust, w, why in rows:
        if why == 'unexplained':
            print('unexplained: %s\n  ours %s\n  oracle %s\n  oracle-law %s\n  by the rule %s' % (l, ours, rust, w, model.answer(l)))
    counts = table(rows)
    reached(rows)
    n = {k: sum(v.values()) for k, v in counts.items()}
    left = n.get('unexplained', 0) + predicate(rows)
    print('%d lines, %d equal, %d %s, %d %s, %d %s, %d where the oracle stops, %d outside document 01, %d unexplained' % (
        len(rows), n.get('equal', 0), n.get(ROUNDED, 0), ROUNDED, n.get(TIED, 0), TIED, n.get(UNDERFLOW, 0), UNDERFLOW,
        sum(c for k, c in n.items() if k.startswith('the ')), sum(c for k, c in n.items() if k.startswith('a direction')), left))
    return 1 if left else 0


if __name__ == '__main__':
    sys.exit(main())
