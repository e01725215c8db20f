"""Puts what `bench` measured into Markdown tables: python3 table.py FOLDER

FOLDER has the files facts (what `bench facts` printed) and callers (what nm printed of bench.o) and, for the levels 2 and 3 that hand.c and cells.c were compiled at,
timeN (what some runs of `bench time` printed), codeN (what objdump printed of the program) and the callgrind dumps of `bench count`, countsN.*.
"""

import glob
import math
import os
import re
import sys
from collections import defaultdict, namedtuple

sys.dont_write_bytecode = True
from operations import operations, read_callers, read_code

GUARDS = {'guard': 'guard', 'hand': 'C', 'hand_rs': 'Rust'} # and beside them 'cells', the C with the proved guard's own design
LEVELS = (2, 3)
# a session's bits: one rule's state (fragment 8, the range whose event came last 8, states 8 x 8, counts 8 x 16, the masks of lacking and of full ranges 8 + 8, end of
# P 32), and what all rules share (taken 32, latest 32, verdict 8, masks 16 + 16)
RULE_BITS, SHARED_BITS = 256, 104

Facts = namedtuple('Facts', 'number part title figure_ops figure_bits table_ops table_bits rules tables_bits')
Round = namedtuple('Round', 'number title records')


# ---------------------------------------------------------------------------------------------
# What was measured: each a value by way ('run', 'live', 'write' and 'play'), guard and configuration or round
# ---------------------------------------------------------------------------------------------

def lines(path):
    with open(path, encoding='utf-8') as f:
        return [line.rstrip('\n').split('\t') for line in f]


def read_facts(folder):
    """The configurations and the rounds."""
    facts, rounds = [], []
    for number, part, title, *rest in lines(os.path.join(folder, 'facts')):
        if part == 'play':
            rounds.append(Round(int(number), title, int(rest[0])))
        else:
            facts.append(Facts(int(number), part, title, *map(int, rest)))
    return facts, rounds


def read_times(path):
    """Nanoseconds per record, per sheet written or per round played: the least of the runs."""
    times = {}
    for number, guard, way, ns in lines(path):
        key = way, guard, int(number)
        times[key] = min(float(ns), times.get(key, math.inf))
    return times


def read_dumps(pattern):
    """The text of each dump, by its label: {(what, guard, configuration): {records: text}}."""
    dumps = defaultdict(dict)
    for path in glob.glob(pattern):
        with open(path, encoding='utf-8') as f:
            text = f.read()
        label = re.search(r'^desc: Trigger: Client Request: (\S+) (\d+) (\S+) (\d+)$', text, re.M)
        if label:
            guard, number, what, records = label.groups()
            dumps[what, guard, int(number)][int(records)] = text
    return dumps


def read_counts(dumps):
    """Instructions: the total of each dump."""
    return {key: {records: int(re.search(r'^(?:totals|summary): (\d+)', text, re.M).group(1)) for records, text in of.items()} for key, of in dumps.items()}


def read_operations(dumps, code, callers):
    """The operations of each record that was counted alone."""
    return {key: {records: operations(text, code, callers) for records, text in of.items()} for key, of in dumps.items() if key[0] in ('each', 'foreign')}


def means(counts):
    """Instructions per record: the difference of two lengths; for a session less that of the call that does nothing. Of a sheet written back, which is counted twice, and of a
    round all of them."""
    out = {}
    for key, of in counts.items():
        if key[0] in ('run', 'live'):
            (short, low), (long, high) = sorted(of.items())
            out[key] = (high - low) / (long - short)
        elif key[0] in ('write', 'play'):
            out[key] = min(of.values())
    for way, guard, number in out:
        if way == 'live' and guard != 'none':
            out[way, guard, number] -= out[way, 'none', number]
    return out


def most(counts, guard, number):
    """The instructions of the costliest record of two rounds, less those of the call that does nothing."""
    each, nothing = counts['each', guard, number], counts['each', 'none', number]
    return max(each[i] - nothing[i] for i in each)


def most_operations(ops, guard, number):
    """The operations of the costliest record: of the whole call, and of the rule itself, which are the call's less those of an event that concerns no rule. What is
    in that, the refusals 11 to 13, the count, the masks and the answer, has no counterpart in the papers' monitors, which watch one property and answer nothing."""
    whole = max(ops['each', guard, number].values())
    foreign, = ops['foreign', guard, number].values()
    return whole, whole - foreign


def typical(times, guard):
    """One number for all times of a guard, those of records: the mean of their logarithms, back in nanoseconds."""
    logs = [math.log(ns) for (way, g, _), ns in times.items() if g == guard and way in ('run', 'live')]
    return math.exp(sum(logs) / len(logs))


def each_at_its_level(levels, level, cells_level):
    """The values of one level, and of the C with cells those of its own: {level: {(what, guard, configuration): value}}."""
    return {**levels[level], **{key: value for key, value in levels[cells_level].items() if key[1] == 'cells'}}


# ---------------------------------------------------------------------------------------------
# What is printed
# ---------------------------------------------------------------------------------------------

def table(head, rows):
    print('| ' + ' | '.join(head) + ' |')
    print('|' + '---|' * len(head))
    for row in rows:
        print('| ' + ' | '.join(row) + ' |')
    print()


def figures(values, way, number):
    guard, c, rust = (values[way, g, number] for g in GUARDS)
    return ['%.1f' % x for x in (guard, c, rust)] + ['%.2f' % (guard / c), '%.2f' % (guard / rust)]


def figures_of_cells(times, mean, way, number):
    instructions = mean[way, 'cells', number]
    return ['%.1f' % times[way, 'cells', number], '%.1f' % instructions, '%.2f' % (mean[way, 'guard', number] / instructions)]


def print_way(way, title, facts, times, mean):
    print('### %s\n' % title)
    head = ['%s %s' % (h, unit) for unit in ('ns', 'instr.') for h in (*GUARDS.values(), 'guard/C', 'guard/Rust')]
    rows = [[f.title] + figures(times, way, f.number) + figures(mean, way, f.number) + figures_of_cells(times, mean, way, f.number) for f in facts]
    table(['configuration'] + head + ['cells ns', 'cells instr.', 'guard/cells instr.'], rows)


def print_rounds(rounds, times, mean):
    named = [r._replace(title='%s: %d record%s' % (r.title, r.records, 's' * (r.records > 1))) for r in rounds]
    print_way('play', 'Playing a round, per round', named, times, mean)


def different(facts, mean):
    """The first configuration of each different sheet, told apart by what writing it costs."""
    costs = {}
    for f in facts:
        costs.setdefault(tuple(mean['write', g, f.number] for g in (*GUARDS, 'cells')), f)
    return list(costs.values())


def paper_row(f, counts, ops):
    state = RULE_BITS * f.rules + SHARED_BITS
    figure_ops, table_ops, figure_bits, table_bits = (str(n or '') for n in (f.figure_ops, f.table_ops, f.figure_bits, f.table_bits))
    instructions = [str(most(counts, g, f.number)) for g in GUARDS]
    (guard, rule), (c, _), (rust, _) = (most_operations(ops, g, f.number) for g in GUARDS)
    return ([f.title] + instructions + [str(n) for n in (c, rust, guard, rule)] + [figure_ops, table_ops]
            + [str(state), str(state + f.tables_bits), figure_bits, table_bits])


def print_papers(facts, counts, ops):
    print('### The costliest record of a live session, beside the papers\' figures for their direct monitor\n')
    head = ([g + ' instr.' for g in GUARDS.values()] + ['C ops', 'Rust ops', 'guard ops', 'rule ops', 'Figure 6 ops', 'Table 7.2 ops']
            + ['guard bits', 'with tables', 'Figure 6 bits', 'Table 7.2 bits'])
    table(['configuration'] + head, [paper_row(f, counts, ops) for f in facts if f.part == 'paper'])


def opening(counts, guard, number):
    """The instructions of opening a session, the sheet's reading included."""
    return min(counts['open', guard, number].values())


def print_opening(facts, counts):
    """What is done once for a book: each different sheet of the first table."""
    print('### Opening a session, per sheet\n')
    rows = []
    for f in facts:
        guard, c, rust = (opening(counts, g, f.number) for g in GUARDS)
        row = ['%d' % n for n in (guard, c, rust)] + ['%.2f' % (guard / c), '%.2f' % (guard / rust), '%d' % opening(counts, 'cells', f.number)]
        if f.part != 'clock' and row not in [r[1:] for r in rows]:
            rows.append([f.title] + row)
    table(['configuration'] + [g + ' instr.' for g in GUARDS.values()] + ['guard/C', 'guard/Rust', 'cells instr.'], rows)


def largest(facts, values, guard, ways=('run', 'live')):
    """The largest quotient of the proved guard by another, and where it is."""
    ratio, way, f = max(((values[way, 'guard', f.number] / values[way, guard, f.number], way, f) for way in ways for f in facts), key=lambda x: x[0])
    return '%.2f (%s, %s)' % (ratio, way, f.title)


def print_reach(facts, rounds, times, mean, ops):
    """The two goals: guard/C at most 1.2, and no record above a paper's operations. Beside them the C with cells, of which no goal is set."""
    print('- Largest guard/C in nanoseconds: %s.' % largest(facts, times, 'hand'))
    print('- Largest guard/C in instructions: %s.' % largest(facts, mean, 'hand'))
    print('- Largest guard/C of a sheet written back: in nanoseconds %s, in instructions %s.' % tuple(largest(different(facts, mean), values, 'hand', ('write',)) for values in (times, mean)))
    print('- Largest guard/C of a round played: in nanoseconds %s, in instructions %s.' % tuple(largest(rounds, values, 'hand', ('play',)) for values in (times, mean)))
    print('- Largest guard/cells: in instructions %s, in nanoseconds %s.' % (largest(facts, mean, 'cells'), largest(facts, times, 'cells')))
    for which, what in ((1, 'the rule itself'), (0, 'the whole call')):
        above = [f.title for f in facts if f.part == 'paper'
                 and most_operations(ops, 'guard', f.number)[which] > min(n for n in (f.figure_ops, f.table_ops) if n)]
        print('- Configurations whose costliest record has more operations than a paper gives, counting %s: %s.' % (what, '; '.join(above) or 'none'))


def main(folder):
    facts, rounds = read_facts(folder)
    times = {level: read_times(os.path.join(folder, 'time%d' % level)) for level in LEVELS}
    level, cells_level = (min(LEVELS, key=lambda n: typical(times[n], guard)) for guard in ('hand', 'cells'))
    dumps = {n: read_dumps(os.path.join(folder, 'counts%d.*' % n)) for n in LEVELS}
    counts = each_at_its_level({n: read_counts(dumps[n]) for n in LEVELS}, level, cells_level)
    ops = read_operations(dumps[level], read_code(os.path.join(folder, 'code%d' % level)), read_callers(os.path.join(folder, 'callers')))
    mean = means(counts)
    fastest = each_at_its_level(times, level, cells_level)
    print_way('run', 'Log run, per record', facts, fastest, mean)
    print_way('live', 'Live session, per record', facts, fastest, mean)
    print_papers(facts, counts, ops)
    print_opening(facts, counts)
    print_way('write', 'Writing a book back, per sheet', different(facts, mean), fastest, mean)
    print_rounds(rounds, fastest, mean)
    print_reach(facts, rounds, fastest, mean, ops)
    print('- The host\'s loop with a call that does nothing: %.1f ns and %.1f instructions per record.'
          % (fastest['live', 'none', 0], mean['live', 'none', 0]))
    for guard, at in (('hand', level), ('cells', cells_level)):
        print('- %s.c is compiled at -O%d, the faster: its mean time is %s.'
              % (guard, at, ', '.join('%.2f ns at -O%d' % (typical(times[n], guard), n) for n in LEVELS)))


if __name__ == '__main__':
    main(sys.argv[1])
