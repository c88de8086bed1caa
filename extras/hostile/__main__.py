"""Tries random cases on superpin, as ../hostile.sh says."""

import argparse
import collections
import multiprocessing
import os
import shutil
import sys
import tempfile

import cases
import memory
import qemu
import running

REFUSED = ' with memory refused'


def arguments():
    """What the command asks for."""
    parser = argparse.ArgumentParser(prog='hostile.sh')
    parser.add_argument('--superpin', required=True)
    parser.add_argument('--live', required=True)
    parser.add_argument('--refuse', default='')
    parser.add_argument('--keep', required=True)
    parser.add_argument('--seconds', type=float, default=60)
    parser.add_argument('--memory', type=int, default=8192)
    parser.add_argument('--processes', type=int, default=os.cpu_count())
    parser.add_argument('seed', nargs='?', default='1')
    parser.add_argument('count', nargs='?', type=int, default=10_000)
    parser.add_argument('first', nargs='?', type=int, default=0)
    asked = parser.parse_args()
    asked.address_space = asked.memory * running.MEBIBYTE
    return asked


def most_memory(case, serial):
    """The mebibytes that a run may take: those of the guest, the file and the report, with 64 bytes for each step where the tool
    lists calls; and by windows what twice the limit of outstanding jobs may hold, with their pages and records."""
    whole = 384 + case.listed * 64 / running.MEBIBYTE
    return whole if serial else whole + 2 * case.limit * (case.frames * 4 / 1024 + 8)


def ways_of(asked, case):
    """The words of the run, and of each other run that must give the same, by name."""
    if not case.ways:
        return {'first': [asked.superpin, *case.words], 'second': [asked.superpin, *case.words]}
    ways = {way: [asked.superpin, 'run', '--by', way, *case.words] for way in ('serial', 'windows')}
    ways['live'] = [asked.live, 'run', '--workers', str(case.workers), *case.words]
    if asked.refuse and case.refused:
        ways.update({way + REFUSED: words for way, words in ways.items()})
    return ways


def environment(asked, case, name):
    """The variables of a run, or None for the usual ones."""
    if not name.endswith(REFUSED):
        return None
    at, on = case.refused
    return dict(os.environ, LD_PRELOAD=asked.refuse, REFUSE_AT=str(at), **({'REFUSE_ON': '1'} if on else {}))


def without_counts(done):
    """The run without the lines of its tool, where its steps depend on the clock."""
    lines = done.report().splitlines(keepends=True)
    kept = [line for line in lines if not line.startswith((b'icount ', b'bcount ', b'mix ', b'block ', b'call ', b'cache '))]
    return running.Run(done.status, done.out, b''.join(kept), done.seconds, done.memory)


def wrong_in(case, runs):
    """What is wrong with the runs of a case, the first of which is the one to compare with; or None."""
    steps = None
    for name, done in runs.items():
        serial = name.startswith(('serial', 'first', 'second'))
        is_run = case.ways or case.words[:1] == ['run']
        bad = running.wrong_alone(done, most_memory(case, serial), is_run) or running.wrong_slices(done, steps)
        if bad:
            return f'{name}: {bad}'
        if name == 'serial' and not case.clocked:
            found = running.SLICE.findall(done.err)
            steps = int(found[0][1]) if found else None
    (_, first), *others = runs.items()
    for name, done in others:
        pair = (without_counts(first), without_counts(done)) if case.clocked else (first, done)
        bad = running.differs(*pair)
        if bad and not (name.endswith(REFUSED) and running.is_without_memory(first, done)):
            return f'{name}: {bad}'
    return None


def run_ways(asked, case, folder):
    """Makes the runs of a case."""
    runs = {}
    for name, words in ways_of(asked, case).items():
        given = os.open('/', os.O_RDONLY) if case.given is None else case.given
        runs[name] = running.run(words, folder, asked, given, case.out_name, environment(asked, case, name))
        if case.given is None:
            os.close(given)
    return runs


def keep(asked, case, number, folder, runs, bad):
    """Keeps the files of a case that failed, with its words and what its runs left."""
    kept = os.path.join(asked.keep, f'{asked.seed}-{number}')
    shutil.rmtree(kept, ignore_errors=True)
    shutil.copytree(folder, kept)
    if case.given is not None:
        with open(os.path.join(kept, 'input'), 'wb') as file:
            file.write(case.given)
    with open(os.path.join(kept, 'words'), 'w', encoding='utf-8') as file:
        print(f'{case.kind}: {bad}', f'memory refused: {case.refused}', *(repr(words) for words in ways_of(asked, case).values()), sep='\n', file=file)
    for name, done in runs.items():
        for part, data in (('out', done.out), ('err', done.err), ('status', f'{done.status}\n'.encode())):
            with open(os.path.join(kept, f'{name}.{part}'), 'wb') as file:
                file.write(data)
    return kept


def try_case(number):
    """Tries the case of a number. Its kind, how it ended, how many lines of slices it has, and a line on what is wrong with it or None."""
    asked, folder = try_case.asked, try_case.folder
    case = cases.case_of(asked.seed, number)
    cases.place(case, folder)
    runs = run_ways(asked, case, folder)
    bad = wrong_in(case, runs)
    first = next(iter(runs.values()))
    ended = 'refused' if first.status == 125 else 'ended by a signal' if first.status is None or first.status > 128 else 'exited'
    slices = sum(len(running.SLICE.findall(done.err)) for name, done in runs.items() if name in ('windows', 'live'))
    if bad is None:
        return case.kind, ended, slices, None
    kept = keep(asked, case, number, folder, runs, bad)
    return case.kind, ended, slices, f'seed {asked.seed}, case {number}, {case.kind}: {bad}; kept in {kept}'


def begin(asked, folders):
    """What a process does before its first case."""
    try_case.asked = asked
    try_case.folder = tempfile.mkdtemp(dir=folders)


def main():
    asked = arguments()
    if asked.seed == 'memory':
        return memory.main(asked)
    if asked.seed == 'qemu':
        return qemu.main(asked)
    passed = failed = sliced = 0
    seen = collections.Counter()
    numbers = range(asked.first, asked.first + asked.count)
    with tempfile.TemporaryDirectory() as folders, multiprocessing.Pool(asked.processes, begin, (asked, folders)) as pool:
        for kind, ended, slices, bad in pool.imap_unordered(try_case, numbers, chunksize=8):
            seen[kind, ended] += 1
            sliced += slices
            if bad is None:
                passed += 1
            else:
                failed += 1
                print(bad, flush=True)
    for (kind, ended), count in sorted(seen.items()):
        print(f'{count} {kind} {ended}')
    print(f'{sliced} lines of slices')
    print(f'{passed} passed, {failed} failed')
    return 1 if failed else 0


sys.exit(main())
