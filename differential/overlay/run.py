#!/usr/bin/env python3
"""The whole overlay against the published Rust, bit for bit. No network.

    python3 differential/overlay/run.py [--overlays N] [--seed S] [--only NAME] [--grids N] [--layers N] [--replay DIR]... [--show K] [--eighths E] [--built DIR] [--later DIR] [--driver FILE]

Builds the oracle (differential/oracle) into target/oracle, its copy that goes on as document 02 says and counts into target/oracle-02 and
the driver over the proved library into target/overlays (or takes those given), asks all sides N made overlays (by default 120,000; of the
families whose names start with NAME), the known refusals and the named inputs (DIR/*.in; differential/oracle/cases always). Each refusal
because of the state and each answer is held to the copy's, each accepted answer to closing up in every cell (closing.py). Where no cell's
table is doubled in the Rust, the answer is also held to the published Rust's, and each difference gets its cause. The Rust answers no parents, so
answers are compared without them; the parents are held to the copy's families where each cell has its number as its family, and of
operations 0 and 5 to the list of parents that the copy keeps. The Rust's count of new points is our fourth, and our second must be how many of
them the copy's pieces name. Then come overlays with a grid (W6), by default a quarter as many: the published Rust has none, so the copy alone is
the measure there, and the new points must be those of the published Rust without a grid, booked (booked.py). Each new point of an accepted
overlay is held to the bound of W11 by its meeting's subject edge (near_edge.py); --eighths makes it smaller. These overlays have one layer each. Last come
overlays with two to four layers (W7), by default a sixth as many: the copy welds by the published `duplicates_from`, once for each layer. Where that gives
what it gives without layers, the published Rust is the measure as before; where layers keep nodes apart it is the copy. The layers of every accepted answer
are held to what is lent (layered.py). The last line has the counts; the exit status is 1 where one is unexplained."""
import argparse
import collections
import glob
import os
import re
import subprocess
import sys
import tempfile
import time

HERE = os.path.dirname(os.path.abspath(__file__))
ROOT = os.path.dirname(os.path.dirname(HERE))
sys.path.insert(0, HERE)
sys.dont_write_bytecode = True

import booked
import layered
import near_edge
from booked import grid, without_grid
from closing import (BOTH_CUT, Told, bare, faults, flat, in_the_family, looked_at, named_points, numbered, operation, parents, parents_of_rust,
                     pieces, pieces_of_rust, with_all_pieces)
from limits import known
from made import Made, text

BATCH = 4000
ANSWER = re.compile(r'\(overlay\n.*?\n\)\n|\([^\n]*\)\n', re.S)
# What the program reads; the driver and the oracle also read other layouts, and several forms.
FORM = re.compile(r'\(overlay \d+ \d+( \d+)?\n(\(mesh\n(\(node \w+ \w+ \d+\)\n)*(\(cell( \d+)+\)\n)*\)\n){2}\)\n')
COUNT = re.compile(r'^\(count (\d+) (\d+)\)$', re.M)
STOPPED = '(panic no next dart)\n'
ORDER, ANGLES, BOTH = 'map order at equal projections', 'rounded angles', 'map order and rounded angles'
CAUSES = [ORDER, ANGLES, BOTH]
TURNED, ALIKE = 'turns back and closes up, where the Rust stops', 'stops alike (11)'
DOUBLED, DOUBLED_11 = "doubled in the Rust's table; the copy's answer, and closes up", "doubled in the Rust's table; the copy stops alike (11)"
ON_GRID = "with a grid; the copy's answer, booked, and closes up"
APART, APART_11 = "layers keep nodes apart; the copy's answer, and closes up", 'layers keep nodes apart; the copy stops alike (11)'
MOST = 65536
# The operations that drop no piece of the subject, on whose edges all new points are.
ALL_NAMED = '015'
# What the copy of the Rust writes of an overlay, and of each of its cells.
OVERLAY = re.compile(r'weld([\d ]*)\nwhole([\d ]*)\n((?:point [\w ]+\n)*)meetings (\d+) collected (\d+)\n((?:(?:copied )?cell \d+(?: doubled)?(?: repeats)?\noutline[\d ]*\n)*)(?:parents([\d ]*)\n)?')
CELL = re.compile(r'(copied )?cell (\d+)( doubled)?( repeats)?\noutline([\d ]*)\n')
REFUSED = {8: "refused 8: more meetings in the Rust's count, explained at a higher limit", 9: "refused 9: over 256 nodes under a key of the Rust's",
           10: "refused 10: over 1,024 slots in the copy's table", 19: 'refused 19: the outline as cut repeats in the copy'}
# An overlay as the copy tells of it: its answer, the cutter's nodes that take a number of the subject's, and those that would if layers were ignored, the new
# points before they are booked, the ends of the meeting of each, the count of meetings, the most nodes collected under one key, its cells in order, and the cell
# of each piece, where it keeps a list of parents.
Later = collections.namedtuple('Later', 'answer weld whole points ends meetings collected cells parents')


class Sides:
    """The programs, each started once for a batch of forms."""

    def __init__(self, driver, built, later, eighths):
        self.commands = {'ours': [driver]}
        for n in ('oracle', 'oracle-law', 'oracle-seq', 'oracle-angle'):
            self.commands[n] = [os.path.join(built, 'release', n), 'count']
        self.commands['later'] = [os.path.join(later, 'release', 'oracle-law'), 'count']
        self.eighths, self.furthest = eighths, {}
        self.afresh()

    def afresh(self):
        self.without, self.on_grid, self.booked, self.layers = (collections.Counter() for _ in range(4))

    def tally(self, form):
        """What is counted of overlays with a grid, or of those without."""
        return self.without if grid(form) is None else self.on_grid

    def start(self, side, forms):
        into, out, err = tempfile.TemporaryFile('w+'), tempfile.TemporaryFile('w+'), tempfile.TemporaryFile('w+')
        into.write(''.join(forms))
        into.flush()
        into.seek(0)
        return side, len(forms), out, err, subprocess.Popen(self.commands[side], stdin=into, stdout=out, stderr=err)

    def take(self, job):
        side, n, out, err, process = job
        status = process.wait()
        out.seek(0)
        got = ANSWER.findall(out.read())
        if status or len(got) != n:
            err.seek(0)
            sys.exit('%s stopped: status %d, %d answers to %d forms\n%s' % (side, status, len(got), n, err.read()))
        err.seek(0)
        return got, err.read()

    def ask(self, side, forms):
        return self.take(self.start(side, forms))[0] if forms else []

    def later(self, forms):
        """What the copy that goes on as document 02 says tells of each form."""
        if not forms:
            return []
        answers, told = self.take(self.start('later', forms))
        told = OVERLAY.findall(told)
        if len(told) != len(forms):
            sys.exit('counts of %d overlays for %d forms' % (len(told), len(forms)))
        return [later_of(*row) for row in zip(answers, told)]


def later_of(answer, told):
    weld, whole, points, meetings, collected, cells, parents = told
    points = near_edge.POINT.findall(points)
    return Later(answer, numbers(weld), numbers(whole), [p[:2] for p in points], [p[2].split() for p in points], int(meetings), int(collected),
                 [cell(*c) for c in CELL.findall(cells)], list(map(int, parents.split())))


def numbers(pairs):
    pairs = list(map(int, pairs.split()))
    return dict(zip(pairs[::2], pairs[1::2]))


def apart(told):
    """Whether layers give other numbers than a weld without them: then the published Rust, which has none, isn't the measure."""
    return told.weld != told.whole


def cell(copied, slots, doubled, repeats, outline):
    nodes = list(map(int, outline.split()))
    return Told(bool(copied), int(slots), bool(doubled), bool(repeats), list(zip(nodes[::2], nodes[1::2])))


def same(ours, rust, law, later):
    """The Rust's answer is ours; or it stops for want of a next dart with document 01's orders too, and the copy gives ours: 11 where that
    stops as well."""
    return ours == (rust if rust != STOPPED or law != STOPPED else '(refused 11)\n' if later == STOPPED else later)


def cause(ours, later, law, seq, angle):
    """Neither the Rust's answer nor its stop is ours: which of document 01's causes, taken out of the Rust, makes it ours."""
    if same(ours, seq, law, later):
        return ORDER
    if same(ours, angle, law, later):
        return ANGLES
    return BOTH


def raised(form):
    return re.sub(r'^\(overlay (\d) \d+', r'(overlay \1 %d' % MOST, form)


def explained(sides, forms, ours, rust, later):
    """For forms whose answers differ: that both stop, that ours turns back, the cause, or that it is unexplained."""
    law = sides.ask('oracle-law', forms)
    out = ['unexplained'] * len(forms)
    left = []
    for i, (a, b, c, d) in enumerate(zip(ours, rust, law, later)):
        if same(a, b, c, d):
            out[i] = ALIKE if code(a) == 11 else TURNED
        elif same(a, c, c, d):
            left.append(i)
    seq, angle = (sides.ask(s, [forms[i] for i in left]) for s in ('oracle-seq', 'oracle-angle'))
    for i, s, n in zip(left, seq, angle):
        out[i] = cause(ours[i], later[i], law[i], s, n)
    return out


def descended(sides, forms, answers, told):
    """Of each form, its answer and what the copy tells of it, whether the parents are right: those of the copy, and of their families."""
    by_families = sides.ask('later', [numbered(form, operation(form)) for form in forms])
    out = []
    for form, answer, later, law in zip(forms, answers, told, by_families):
        listed = parents(answer)
        right = listed == parents_of_rust(law) and in_the_family(form, answer)
        tally = sides.tally(form)
        if operation(form) in '05':
            tally['pieces held to the list of parents'] += len(listed)
            right = right and listed == [(0, i) for i in later.parents]
        tally['pieces held to their parents'] += len(listed)
        tally["of these the cutter's"] += sum(mesh for mesh, _ in listed)
        out.append(right)
    return out


def closed(sides, forms, answers, told):
    """Of each form, its answer and what the copy tells of it, whether it closes up in every cell, and whether the Rust, where a cell is doubled, it
    finishes and there is no grid, gives the other cells the same pieces."""
    asked = [with_all_pieces(form) for form in forms]
    other = [i for i, (form, q) in enumerate(zip(forms, asked)) if form != q]
    subjects = dict(zip(other, sides.ask('ours', [asked[i] for i in other])))
    looked = [(i, asked[i], subjects.get(i, answers[i])) for i in range(len(forms))]
    looked += [(i, forms[i], answers[i]) for i in range(len(forms)) if operation(forms[i]) in BOTH_CUT]
    for form in forms:
        sides.tally(form)['answers held to closing up'] += 1
    good = [True] * len(forms)
    for i, q, a in looked:
        for _, c in looked_at(q, told[i].cells):
            sides.tally(q)['cells of these'] += 1
            sides.tally(q)['of these doubled in the Rust'] += c.doubled
        good[i] = good[i] and not faults(q, a, told[i].cells)
    beside = [row for row in looked if grid(row[1]) is None and not apart(told[row[0]]) and any(c.doubled for c in told[row[0]].cells)]
    for (i, q, answer), law in zip(beside, sides.ask('oracle-law', [numbered(q, operation(q)) for _, q, _ in beside])):
        if law != STOPPED:
            a, b = pieces(answer), pieces_of_rust(law)
            single = [n for n, c in looked_at(q, told[i].cells) if not c.doubled]
            sides.without['cells beside a doubled one, held to the Rust'] += len(single)
            good[i] = good[i] and all(a[n] == b[n] for n in single)
    return good


def on_their_grids(sides, forms, answers, rust, told):
    """Of each form, its answer, the published Rust's without a grid and what the copy tells, whether the answer's new points are those of the
    same overlay without a grid, booked. Where the published Rust stops, or layers keep nodes apart, the copy lists them; where that stops too, it still
    tells them."""
    rows = [i for i, form in enumerate(forms) if grid(form) is not None]
    rust = ['' if apart(t) else r for r, t in zip(rust, told)]
    stopped = [i for i in rows if not rust[i].startswith('(overlay')]
    turned = dict(zip(stopped, sides.ask('later', [without_grid(forms[i]) for i in stopped])))
    good = [True] * len(forms)
    for i in rows:
        form, points = forms[i], told[i].points
        for who, a in (("the published Rust's", rust[i]), ("the copy's", turned.get(i, ''))):
            if a.startswith('(overlay'):
                sides.on_grid['overlays whose new points are %s without a grid, booked' % who] += 1
                good[i] = good[i] and booked.new_points(form, a) == points
        good[i] = good[i] and not booked.faults(form, answers[i], points)
        sides.booked.update(booked.reached(form, answers[i], points) if good[i] else {})
    return good


def near_their_edges(sides, forms, answers, told):
    """Of each form, its answer and what the copy tells of it, whether every new point is within W11's bound of its meeting's subject edge."""
    good = []
    for form, answer, later in zip(forms, answers, told):
        faults, sizes = near_edge.measured(form, answer, later.points, later.ends, sides.eighths)
        sides.tally(form)['new points held to the bound'] += len(sizes)
        sides.furthest[grid(form)] = max(sides.furthest.get(grid(form), 0.0), *sizes, 0.0)
        good.append(not faults)
    return good


def on_their_layers(sides, forms, answers, told):
    """Of each form, its answer and what the copy tells of it, whether the layers are right, and the copy's weld that of Python's floats."""
    good = []
    for form, answer, later in zip(forms, answers, told):
        good.append(later.weld == layered.weld(form) and not layered.faults(form, bare(answer), later.ends))
        sides.layers.update(layered.reached(form, later.ends))
    return good


def code(answer):
    """The number of a refusal; 0 where there is none."""
    return int(answer[9:-2]) if answer.startswith('(refused') else 0


def count_line(answer):
    """The pieces and all new points of an answer."""
    return tuple(map(int, COUNT.search(answer).groups()))


def limit(form):
    return int(form[:form.index('\n')].split()[2])


def wanted(form, later):
    """The refusal that the copy's counts and its stop give, the first one in the order of module 7; 0 where there is none. The copy goes on
    but for 11, in the last cell that it tells of, so what it tells of a cell holds before its walk."""
    if later.meetings > limit(form):
        return 8
    if later.collected > 256:
        return 9
    for c in later.cells:
        if c.repeats or c.slots > 1024:
            return 19 if c.repeats else 10
    return 11 if later.answer == STOPPED else 0


def points_right(form, answer, points, copy):
    """Whether the second count is that of the points that the copy's pieces name (W5), all of them where no piece of the subject is dropped."""
    return points == len(named_points(form, copy)) and (operation(form) not in ALL_NAMED or points == count_line(answer)[1])


def counted(sides, forms, later, ours, rust, beside):
    """For each form what the copy says of our answer and its second and third counts: a refusal explained, that it has a grid, that layers keep nodes
    apart, that the published table is doubled, that it is unexplained, or nothing: then the published Rust is the measure as well."""
    out = []
    for form, told, a, r, (points, third) in zip(forms, later, ours, rust, beside):
        want, got = wanted(form, told), code(a)
        doubled = sum(c.doubled for c in told.cells)
        tally = sides.tally(form)
        tally['overlays'] += 1
        tally['overlays with a doubled cell'] += doubled > 0
        if want != got or third or not got and (a != told.answer or not points_right(form, a, points, told.answer)):
            out.append('unexplained')
            continue
        if not got:
            tally['accepted'] += 1
            added = count_line(a)[1]
            tally["new points held to the Rust's count"] += added
            tally["of these named, held to the copy's pieces"] += points
            tally['overlays with a new point that no piece names'] += points < added
            tally['cells'] += len(told.cells)
            tally['accepted with a doubled cell'] += doubled > 0
            tally['doubled, cut'] += sum(c.doubled and not c.copied for c in told.cells)
            tally['doubled, copied'] += sum(c.doubled and c.copied for c in told.cells)
            tally['accepted with a doubled cell, the Rust lists the same'] += grid(form) is None and doubled > 0 and flat(a) == r
        out.append(REFUSED.get(got) or by_the_copy(form, told, got, doubled))
    return out


def by_the_copy(form, told, got, doubled):
    """The verdict where the copy is the measure, by our refusal, if any, and how many cells the Rust doubles; nothing where the published Rust is."""
    if grid(form) is not None:
        return 'unexplained' if got else ON_GRID
    if apart(told):
        return APART_11 if got else APART
    return (DOUBLED_11 if got else DOUBLED) if doubled else None


def compared(sides, forms):
    """Each form, our answer, the Rust's without a grid, the verdict and our second count. The verdict: equal, stops alike, turns back, a cause,
    doubled, with a grid, layers apart, a refusal with its explanation, or unexplained."""
    jobs = sides.start('oracle', list(map(without_grid, forms))), sides.start('ours', forms)
    (rust, _), (listed, beside) = map(sides.take, jobs)
    beside = [tuple(map(int, line.split())) for line in beside.splitlines()]
    ours = list(map(bare, listed))
    later = sides.later(forms)
    verdict = counted(sides, forms, later, ours, rust, beside)
    verdict = [v or ('equal' if flat(a) == b else None) for v, a, b in zip(verdict, ours, rust)]
    # beyond the limit of meetings: with the largest limit the answer must be explained as well
    over = [i for i, v in enumerate(verdict) if v == REFUSED[8]]
    if over:
        for i, row in zip(over, compared(sides, [raised(forms[i]) for i in over])):
            verdict[i] = 'unexplained' if row[3] in ('unexplained', REFUSED[8]) else REFUSED[8]
    left = [i for i, v in enumerate(verdict) if v is None]
    rows = ([r[i] for i in left] for r in (forms, list(map(flat, ours)), rust, [flat(told.answer) for told in later]))
    for i, why in zip(left, explained(sides, *rows)):
        verdict[i] = why
    accepted = [i for i, v in enumerate(verdict) if v != 'unexplained' and not code(ours[i])]
    form, answer, alone, told = ([r[i] for i in accepted] for r in (forms, listed, rust, later))
    held = (closed(sides, form, answer, told), descended(sides, form, answer, told), on_their_grids(sides, form, answer, alone, told),
            near_their_edges(sides, form, answer, told), on_their_layers(sides, form, answer, told))
    for i, *good in zip(accepted, *held):
        verdict[i] = verdict[i] if all(good) else 'unexplained'
    return list(zip(forms, listed, rust, verdict, [points for points, _ in beside]))


def show(title, row, sides):
    form, ours, rust, why, points = row
    told = sides.later([form])[0]
    by_families = sides.ask('later', [numbered(form, operation(form))])[0]
    print('---- %s: %s\n%sours (%d points named): %srust without a grid: %slaw: %scopy (wanted %d, %d points named): %sparents: %s' % (
        title, why, form, points, ours, rust, sides.ask('oracle-law', [without_grid(form)])[0], wanted(form, told), len(named_points(form, told.answer)), told.answer,
        parents_of_rust(by_families)))


def table(counts, verdicts):
    names = sorted(counts)
    print('%-22s' % '' + ''.join('%12s' % v for v in range(1, len(verdicts) + 1)))
    for n in names:
        print('%-22s' % n + ''.join('%12d' % counts[n][v] for v in verdicts))
    print('%-22s' % 'all' + ''.join('%12d' % sum(counts[n][v] for n in names) for v in verdicts))


def made_overlays(sides, made, n, show, shown):
    """So many made overlays, as tables; how many have each verdict."""
    counts, ops = (collections.defaultdict(collections.Counter) for _ in range(2))
    scales, grids, reached, all_ = (collections.Counter() for _ in range(4))
    while all_.total() < n:
        rows = [made.one() for _ in range(min(BATCH, n - all_.total()))]
        forms = [text(op, limit, *meshes, grid=k) for _, _, op, limit, k, *meshes in rows]
        for (family, scale, op, _, k, _, _), row in zip(rows, compared(sides, forms)):
            _, ours, _, why, points = row
            for c in counts[family], ops['operation %d' % op], all_:
                c[why] += 1
            scales[scale] += 1
            grids[k] += 1
            if ours.startswith('(overlay'):
                listed, added = count_line(ours)
                reached['pieces'] += listed
                reached['new points'] += added
                reached['new points that a piece names'] += points
                reached['overlays with a new point'] += added > 0
                reached['overlays without a piece'] += listed == 0
                reached['operation %d with a new point that no piece names' % op] += points < added
            if why == 'unexplained' and len(shown) < show:
                shown.append((family + ', ' + scale, row))
    verdicts = sorted(all_, key=lambda v: (v not in ('equal',), v))
    table(counts, verdicts)
    table(ops, verdicts)
    for i, v in enumerate(verdicts):
        print('%d: %s' % (i + 1, v))
    print('scales: ' + ', '.join('%s %d' % s for s in scales.most_common()))
    if made.on_grid:
        print('k: ' + ', '.join('%d %d' % s for s in sorted(grids.items())))
    print('reached: ' + ', '.join('%s %d' % s for s in sorted(reached.items())))
    return all_


def known_refusals(sides, shown):
    """The Rust isn't asked what is refused because of the input: it may stop as a whole there."""
    rows = list(known())
    codes = list(map(code, sides.ask('ours', [form for _, form, _ in rows])))
    bad = 0
    for (name, _, want), got in zip(rows, codes):
        if got != want:
            bad += 1
            print('known refusal: %s: %d in the place of %d' % (name, got, want))
    asked = [(form, want) for _, form, want in rows if want in (0, 8, 9, 10, 19)]
    for (_, want), row in zip(asked, compared(sides, [form for form, _ in asked])):
        if row[3] not in ((REFUSED[want],) if want else ('equal', DOUBLED, ON_GRID)):
            bad += 1
            shown.append(('limit', row))
    return collections.Counter(codes), bad


def replayed(sides, folders, shown):
    counts = collections.Counter()
    for folder in folders:
        for f in sorted(glob.glob(os.path.join(folder, '*.in'))):
            form = open(f, errors='replace').read()
            ours = subprocess.run(sides.commands['ours'], input=form, text=True, capture_output=True).stdout
            if not FORM.fullmatch(form) or re.match(r'\(refused ([1-7]|13)\)', ours) or '(unread)' in ours:
                counts['refused because of the input, or unread'] += 1
                continue
            row = compared(sides, [form])[0]
            counts[row[3]] += 1
            if row[3] == 'unexplained':
                shown.append((os.path.basename(f), row))
    return counts


def build(a):
    built, later, driver = a.built, a.later, a.driver
    if not built:
        built = os.path.join(ROOT, 'target', 'oracle')
        subprocess.run(['sh', os.path.join(ROOT, 'differential', 'oracle.sh'), built], check=True)
    if not later:
        later = os.path.join(ROOT, 'target', 'oracle-02')
        subprocess.run(['sh', os.path.join(ROOT, 'differential', 'oracle-02.sh'), later], check=True)
    if not driver:
        subprocess.run(['rt', 'lib'], cwd=os.path.join(ROOT, 'crates', 'overlay_c'), check=True, stdout=subprocess.DEVNULL)
        out = os.path.join(ROOT, 'target', 'overlays')
        subprocess.run(['cargo', 'build', '--release', '--offline', '--quiet', '--target-dir', out], cwd=os.path.join(HERE, 'driver'), check=True)
        driver = os.path.join(out, 'release', 'overlays')
    return Sides(driver, built, later, a.eighths)


def options():
    p = argparse.ArgumentParser()
    p.add_argument('--overlays', type=int, default=120000)
    p.add_argument('--seed', type=int, default=1)
    p.add_argument('--only', default='')
    p.add_argument('--grids', type=int)
    p.add_argument('--layers', type=int)
    p.add_argument('--replay', action='append', default=[])
    p.add_argument('--show', type=int, default=3)
    p.add_argument('--eighths', type=int, default=near_edge.off.EIGHTHS)
    p.add_argument('--built')
    p.add_argument('--later')
    p.add_argument('--driver')
    a = p.parse_args()
    a.grids = a.overlays // 4 if a.grids is None else a.grids
    a.layers = a.overlays // 6 if a.layers is None else a.layers
    return a


def main():
    a = options()
    sides = build(a)
    shown = []
    start = time.time()
    n = made_overlays(sides, Made(a.seed, a.only), a.overlays, a.show, shown)
    print('counted in the Rust: ' + in_words(sides.without))
    between = time.time()
    print('\nwith a grid')
    m = made_overlays(sides, Made(a.seed, a.only, True), a.grids, a.show, shown)
    print('counted in the copy: ' + in_words(sides.on_grid))
    print('booked: ' + in_words(sides.booked))
    print('one layer: ' + in_words(sides.layers))
    later = time.time()
    sides.afresh()
    print('\nwith two to four layers')
    l = made_overlays(sides, Made(a.seed, a.only, layered=True), a.layers, a.show, shown)
    for name, tally in ('in the copy', sides.without), ('of these with a grid', sides.on_grid), ('layers', sides.layers):
        print('%s: %s' % (name, in_words(tally)))
    print('furthest off, in M × 2^-53, on a grid beyond half a step: ' + ', '.join(
        '%s %.4f' % ('no grid' if k is None else 'k %d' % k, most) for k, most in sorted(sides.furthest.items(), key=lambda row: -1 if row[0] is None else row[0])) + '\n')
    end = time.time()
    codes, bad = known_refusals(sides, shown)
    print('known refusals: ' + ', '.join('%d: %d' % c for c in sorted(codes.items())) + '; %d not as known' % bad)
    named = replayed(sides, [os.path.join(ROOT, 'differential', 'oracle', 'cases')] + a.replay, shown)
    print('named inputs: ' + ', '.join('%s %d' % c for c in sorted(named.items())))
    for title, row in shown:
        show(title, row, sides)
    left = n['unexplained'] + m['unexplained'] + l['unexplained'] + bad + named['unexplained']
    print('%d made overlays in %.0f s, %d equal, %d turn back and close up, %d stop alike (11), %s, %d doubled in the Rust, %d of them 11, %s; ' % (
        a.overlays, between - start, n['equal'], n[TURNED], n[ALIKE], ', '.join('%d %s' % (n[c], c) for c in CAUSES), n[DOUBLED] + n[DOUBLED_11],
        n[DOUBLED_11], refusals(n)), end='')
    print('%d with a grid in %.0f s, %d booked and close up, %s; ' % (a.grids, later - between, m[ON_GRID], refusals(m)), end='')
    print('%d with layers in %.0f s, %d kept apart by them, %d of these 11, %d with a grid, %s; %d known refusals and limits, %d named inputs, %d unexplained' % (
        a.layers, end - later, l[APART] + l[APART_11], l[APART_11], l[ON_GRID], refusals(l), sum(codes.values()), sum(named.values()), left))
    return 1 if left else 0


def in_words(tally):
    return ', '.join('%s %d' % s for s in tally.items())


def refusals(n):
    return ', '.join('%d refused %d' % (n[REFUSED[c]], c) for c in REFUSED)


if __name__ == '__main__':
    sys.exit(main())
