"""Prints the tables of docs/BENCHMARKS.md: bench_table.py FOLDER LIBRARY HEADER, of what oracle/bench.sh has measured there."""
import re
import subprocess
import sys

GOALS = {'open': (None, 1.05), 'measure': (0.9, 1.05), 'draw': (0.85, 1.05)}


def table(*rows):
    print('\n'.join(['', '| ' + ' | '.join(rows[0]) + ' |', '|' + '---|' * len(rows[0])]))
    for row in rows[1:]:
        print('| ' + ' | '.join(row) + ' |')


def lines(path):
    with open(path, encoding='utf-8') as file:
        return file.read().splitlines()


def numbers(path):
    return [tuple(map(int, line.split())) for line in lines(path)]


def counts(folder, rows):
    """Instructions a call, Rust, ours and ours packed: six dumps a row, of which each second is of ten calls."""
    def total(i):
        return next(int(line.split()[1]) for line in lines('%s/count.%d' % (folder, i)) if line.startswith('totals:')) / 10
    return [(total(6 * i + 2), total(6 * i + 4), total(6 * i + 6)) for i in range(rows)]


def ratio(a, b, goal):
    return ('**%.2f**' if goal and a / b > goal else '%.2f') % (a / b)


# What grows: its name, the rows in which it does, and how often a call goes over it.
GROWTH = [('record', r'(measure), chain of ([\d,]+),', 16), ('table entry', r'(measure), jump table of ([\d,]+),', 16),
          ('pixel', r'(draw.*), 16 pairs, ([\d,]+) pixels', 1), ('pair', r'(draw.*), 1,024 pixels, (\d+) pairs', 1)]


def growth(names, release, lto):
    """Instructions for one more, from the first size to the second and from that to the third."""
    out = [('One more', 'Rust', 'Rust, LTO', 'ours')]
    for unit, form, times in GROWTH:
        groups = {}
        for name, a, b in zip(names, release, lto):
            if found := re.match(form, name):
                groups.setdefault(found[1], []).append((int(found[2].replace(',', '')) * times, a[0], b[0], a[1]))
        for call, sizes in groups.items():
            steps = [['%.2f' % ((b[k] - a[k]) / (b[0] - a[0])) for a, b in zip(sizes, sizes[1:])] for k in (1, 2, 3)]
            out.append(('%s, %s' % (unit, call), *map(', '.join, steps)))
    return out


def stack_bounds(library):
    """The most that each call of the library can take below its arguments, by its disassembly: return address, saved registers,
    frame, what a function writes below its frame, and the deepest function that it calls. memset is left out."""
    text = subprocess.run(['objdump', '-dr', '--no-show-raw-insn', library], capture_output=True, text=True, check=True).stdout
    own, calls, name = {}, {}, None
    for line in text.splitlines():
        if found := re.match(r'[0-9a-f]+ <(.*)>:', line):
            name = found[1]
            own[name], calls[name] = [8, 0], set()
        elif re.search(r'\tpush ', line):
            own[name][0] += 8
        elif found := re.search(r'\tsub +\$0x([0-9a-f]+),%rsp', line):
            own[name][0] += int(found[1], 16)
        elif found := re.search(r'-0x([0-9a-f]+)\(%rsp\)', line):
            own[name][1] = max(own[name][1], int(found[1], 16))
        elif found := re.search(r'R_X86_64_PLT32\t\.text\.(.*)-0x4', line):
            calls[name].add(found[1])
        elif re.search(r'\tcall +\*|%rsp$', line) and not re.search(r'\tadd |\tpop ', line):
            sys.exit('not understood: ' + line)

    def need(name):
        return own[name][0] + max([own[name][1]] + [need(called) for called in calls[name]])
    return {name: need(name) for name in own if name.startswith('papayahelm_')}


def stack_arguments(header):
    """Bytes of the arguments that do not fit the six registers."""
    found = re.findall(r'uint32_t (papayahelm_\w+)\(([^)]*)\)', '\n'.join(lines(header)))
    return {name: 8 * max(0, arguments.count(',') + 1 - 6) for name, arguments in found}


def main(folder, library, header):
    names = lines(folder + '/release/names')
    release, lto = (counts('%s/%s' % (folder, build), len(names)) for build in ('release', 'lto'))
    times, lto_times = (numbers('%s/%s/time' % (folder, build)) for build in ('release', 'lto'))
    rows = []
    for name, (rust, ours, _), (fat, *_), time, lto_time in zip(names, release, lto, times, lto_times):
        goals = GOALS[re.match(r'\w+', name)[0]]
        rows.append((name, *map('{:,.0f}'.format, (rust, fat, ours)), ratio(ours, rust, goals[0]), ratio(ours, fat, goals[1]),
                     ratio(time[1], time[0], None), ratio(lto_time[1], lto_time[0], None)))
    table(('Row', 'Rust', 'Rust, LTO', 'ours', 'ours / Rust', 'ours / LTO', 'time / Rust', 'time / LTO'), *rows)
    apart = max(abs(a[1] - b[1]) for a, b in zip(release, lto))
    print('\nThe most by which ours differs between the two programs, in instructions a call: %.0f.' % apart)

    # what the calls that draw take on a packed framebuffer
    table(('Row', 'ours', 'ours, packed', 'packed / bytes'),
          *((name, *map('{:,.0f}'.format, (ours, packed)), ratio(packed, ours, 1.5))
            for name, (_, ours, packed) in zip(names, release) if name.startswith('draw')))

    table(*growth(names, release, lto))

    arguments = stack_arguments(header)
    table(('Call of the library', 'bytes of stack', 'and of arguments on it'),
          *((name, str(need), str(arguments[name])) for name, need in sorted(stack_bounds(library).items())))

    painted = {}
    for name, a, b in zip(names, *(numbers('%s/%s/stack' % (folder, build)) for build in ('release', 'lto'))):
        painted.setdefault(name.split(',')[0], []).append((a[0], b[0], max(a[1], b[1])))
    table(('Painted, with the program around it', 'Rust', 'Rust, LTO', 'ours'),
          *((call, *(str(max(column)) for column in zip(*found))) for call, found in painted.items()))


main(*sys.argv[1:])
