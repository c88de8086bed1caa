"""Refuses memory to runs of examples, one request after the other."""

import os
import tempfile

import cases
import running

NAMES = ('hello.elf', 'read-twice', 'count-to-six', 'call-deep', 'write-pages')
OPTIONS = ('--poll', '1', '--records', '1', '--frames', '64', '--slices', '--tool', 'calls')
# So many runs after each other that do what they do with memory are behind the last request.
QUIET = 100


def ways_of(asked):
    """The words of each way, by name."""
    ways = {way: [asked.superpin, 'run', '--by', way, *OPTIONS, 'f'] for way in ('serial', 'windows')}
    ways['live'] = [asked.live, 'run', '--workers', '2', *OPTIONS, 'f']
    return ways


def refuse_each(asked, words, folder, on):
    """Refuses each request in turn, and with it each later one if `on`. How many runs did as they must, the texts of those that did not, and
    the number of the last request whose refusal showed."""
    whole = running.run(words, folder, asked, b'ab')
    passed, wrong, at, last = 0, [], 0, 0
    while at < last + QUIET:
        at += 1
        environment = dict(os.environ, LD_PRELOAD=asked.refuse, REFUSE_AT=str(at), **({'REFUSE_ON': '1'} if on else {}))
        done = running.run(words, folder, asked, b'ab', environment=environment)
        if running.differs(whole, done) is None:
            passed += 1
        else:
            last = at
            if running.is_without_memory(whole, done):
                passed += 1
            else:
                wrong.append(f'request {at}: status {done.status}, {done.err[-60:]!r}')
    return passed, wrong, last


def main(asked):
    """Tries the examples, and prints what is wrong and the numbers. The status."""
    passed = failed = 0
    if not asked.refuse:
        print('0 passed, 1 failed: there is no cc')
        return 1
    with tempfile.TemporaryDirectory() as folder:
        for name in NAMES:
            with open(os.path.join(folder, 'f'), 'wb') as file:
                file.write(cases.EXAMPLES[name])
            for way, words in ways_of(asked).items():
                for on in (False, True):
                    good, wrong, last = refuse_each(asked, words, folder, on)
                    print(f'{name}, {way}, {"from each request on" if on else "each request"}: {last} requests')
                    for text in wrong:
                        print(f'{name}, {way}, {text}')
                    passed += good
                    failed += len(wrong)
    print(f'{passed} passed, {failed} failed')
    return 1 if failed else 0
