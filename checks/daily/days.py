"""What geofeed-daily does on bad days: the tables of checks/daily.sh.

usage: days.py CONTRIB PROGRAM [ALL]

Each row is a day with one fault: what is wrong, what is said, and whether city.mmdb is that day's.
After each the file is whole, and the next run, without the fault, is well. With ALL, each call that
a run makes of the system is a row of the tables of killed runs and full disks, else one in five.
"""
import concurrent.futures
import fcntl
import gzip
import hashlib
import json
import os
import pathlib
import re
import shutil
import signal
import subprocess
import sys
import tempfile
import time

CONTRIB, PROGRAM = (pathlib.Path(word).resolve() for word in sys.argv[1:3])
ALL = 'ALL' in sys.argv[3:]
COUNTRIES = ('DE', 'FR', 'US', 'CN', 'JP', 'BR', 'AU', 'ZA', 'EG', 'IN')
FETCH = """#!/bin/sh
(cd {net} || exit 1; {before})
[ -f "{net}/${{2##*/}}" ] || exit 22
cp "{net}/${{2##*/}}" "$1"
"""
STUB = """#!/bin/sh
n=$(($(cat {at} 2> /dev/null || echo 0) + 1))
echo $n > {at}
[ $n != "$KILL_BEFORE" ] || kill -9 0
{real} "$@"
status=$?
[ $n != "$KILL_AFTER" ] || kill -9 0
exit $status
"""


class World:
    """A folder of served files and one of the daily run."""

    def __init__(self, path):
        self.path, self.day = pathlib.Path(path), 0
        self.net, self.geo, self.bin = (self.path / name for name in ('net', 'geo', 'bin'))

    def make(self):
        for folder in (self.net, self.bin):
            folder.mkdir(parents=True)
        for tool in ('geofeed-daily', 'feeds-of-dump'):
            shutil.copy(CONTRIB / tool, self.bin / tool)
        os.symlink(PROGRAM, self.bin / 'geofeed')
        self.configure()
        self.fetches()
        self.own('203.0.113.0/24,set,AT,,Wien,\n')
        self.serve()
        return self

    def copy(self, path):
        subprocess.run(['cp', '-a', self.path, path], check=True)
        new = World(path)
        new.day = self.day
        new.configure()
        new.fetches()
        return new

    def configure(self, **changed):
        keys = {'folder': self.geo, 'statistics': 'https://x.example/statistics', 'disk': 0,
                'least-records': 20, 'overrides': self.path / 'own.csv', 'keep': 3, **changed}
        lines = [f'{key} = {value}' for key, value in keys.items()]
        lines += [f'dump {slot} = https://x.example/{slot}.gz' for slot in ('d4', 'd6')]
        (self.path / 'conf').write_text('\n'.join(lines) + '\n')

    def fetches(self, before=':'):
        (self.path / 'fetch').write_text(FETCH.format(net=self.net, before=before))
        os.chmod(self.path / 'fetch', 0o755)

    def own(self, text):
        (self.path / 'own.csv').write_text(text)

    def put(self, name, content):
        content = content if isinstance(content, bytes) else content.encode()
        (self.net / name).write_bytes(content)

    def get(self, name):
        return (self.net / name).read_text()

    def serve(self):
        """The next day's sources: the city of 192.0.2.1 tells the day."""
        self.day += 1
        lines = []
        for at, country in enumerate(COUNTRIES):
            lines.append(f'nro|{country}|ipv4|{at * 16 + 16}.0.0.0|16777216|20200101|allocated|a')
            lines.append(f'nro|{country}|ipv6|2a{at:02x}::|16|20200101|allocated|a')
            lines.append(f'nro||asn|{at + 1}|1||available|')
        self.put('statistics', f'2|nro|2024|{len(lines)}|1983|2024|+0000\nnro|*|ipv4|*|10|summary\n'
                 + ''.join(f'{line}\n' for line in lines))
        objects = [f'inetnum: 192.0.{at}.0/24\ngeofeed: https://x.example/{name}\n'
                   for at, name in enumerate(('gone', 'b', 'a', 'b'))]
        objects.insert(1, 'inetnum: 198.51.100.0/24\nremarks: of no feed\n')
        self.dump('d4', '\n'.join(objects))
        self.dump('d6', 'inet6num: 2001:db8::/32\ngeofeed: https://x.example/six\n')
        self.put('a', f'192.0.2.0/25,CH,CH-ZH,Day {self.day},\n')
        self.put('b', ''.join(f'192.0.{net}.{at}/32,FR,,Lyon,\n' for net in (1, 3)
                              for at in range(10)))
        self.put('six', '2001:db8::/33,AT,AT-9,Wien,\n')

    def dump(self, slot, text):
        self.put(f'{slot}.gz', gzip.compress(text.encode(), mtime=0))

    def begin(self, *words, before=(), **env):
        return subprocess.Popen(
            [*before, self.bin / 'geofeed-daily', '--config', self.path / 'conf', *words],
            stdin=subprocess.DEVNULL, stdout=subprocess.PIPE, stderr=subprocess.PIPE,
            start_new_session=True, cwd='/',
            env={'PATH': '/usr/bin:/bin', 'FETCH': str(self.path / 'fetch'), **env})

    def run(self, *words, **more):
        """The run's status, and what it said."""
        process = self.begin(*words, **more)
        printed, told = process.communicate(timeout=300)
        return process.returncode, (printed + told).decode()

    def city(self):
        path = self.geo / 'city.mmdb'
        return path.read_bytes() if path.exists() else b''

    def whole(self):
        """Of which day city.mmdb is, by what it answers; it has to be the file of a kept run."""
        runs = [run.read_bytes() for run in self.geo.glob('runs/*/city.mmdb')]
        if self.city() not in runs:
            return 'city.mmdb is the file of no run'
        found = [subprocess.run([PROGRAM, 'lookup', 'city.mmdb', address], cwd=self.geo,
                                capture_output=True, check=False, text=True).stdout
                 for address in ('192.0.2.1', '192.0.3.9', '2001:db8::1', '16.0.0.1')]
        day = re.search(r'"Day ([0-9]+)"', found[0])
        if not day or 'Lyon' not in found[1] or 'Wien' not in found[2] or '"DE"' not in found[3]:
            return f'city.mmdb answers {found}'
        return int(day.group(1))

    def kept(self):
        return sorted(self.geo.glob('runs/*'), key=lambda run: int(run.name))

    def known(self, name, change):
        """Changes what is known of the newest run."""
        path = self.kept()[-1] / name
        path.write_text(change(path.read_text()))


# ---- The days: what is wrong, how, what is said, and whether the file is that day's

def statistics(change):
    return lambda world: world.put('statistics', change(world.get('statistics')))


def without(*files):
    return lambda world: [os.remove(world.net / file) for file in files]


def serves(file, content):
    return lambda world: world.put(file, content)


def known(name, change):
    return lambda world: world.known(name, change)


def old(days):
    def change(text):
        index = json.loads(text)
        index['https://x.example/b']['came'] -= days * 86_400
        return json.dumps(index)

    def fault(world):
        world.known('feeds.list.index', change)
        os.remove(world.net / 'b')
    return fault


def later(text):
    return json.dumps({**json.loads(text), 'epoch': int(time.time()) + 86_400})


def start(text):
    return text[:9]


def junk(world):
    (world.geo / 'next' / 'feeds').mkdir(parents=True)
    (world.geo / 'next' / 'job').write_text('junk')
    (world.geo / 'city.mmdb.new').write_text('junk')
    (world.geo / 'state.json').write_text('{')
    (world.geo / 'runs' / '000777').mkdir()


def program(text):
    def fault(world):
        (world.bin / 'geofeed').unlink()
        (world.bin / 'geofeed').write_text(f'#!/bin/sh\n{text}\n')
        os.chmod(world.bin / 'geofeed', 0o755)
    return fault


KEPT = 'city.mmdb is not replaced'
ONCE = f'{KEPT}; to take it once: geofeed-daily --config .*/conf --accept'
DAYS = (
    ('nothing is wrong', lambda world: None, [], True),
    ('the server of the statistics is down', without('statistics'),
     [f'the statistics did not come: .*: {KEPT}'], False),
    ('the statistics are a web page', serves('statistics', '<html>503</html>\n'),
     [f'the statistics are no statistics: {KEPT}'], False),
    ('the statistics are empty', serves('statistics', ''),
     [f'the statistics are no statistics: {KEPT}'], False),
    ('half of the statistics', statistics(lambda text: text[:len(text) // 2]),
     [f'the statistics have 14 of their 30 records: {KEPT}'], False),
    ('statistics of few records', serves('statistics', '2|nro|x|1|x|x|x\nnro||asn|1|1||free|\n'),
     [f'the statistics have 1 records, and least-records is 20: {KEPT}'], False),
    ('statistics without IPv6', statistics(lambda text: text.replace('|ipv6|', '|asn|')),
     [f'the statistics have no line of IPv6: {KEPT}'], False),
    ('statistics without IPv4', statistics(lambda text: text.replace('|ipv4|', '|asn|')),
     [f'the statistics have no line of IPv4: {KEPT}'], False),
    ('statistics in another form', statistics(lambda text: text.replace('|allocated|', '|given|')),
     [f'the statistics have no line of IPv4: {KEPT}',
      f'the statistics have no line of IPv6: {KEPT}'], False),
    ('half of the lines of IPv6', statistics(lambda text: text.replace('|ipv6|', '|asn|', 6)),
     [f'the statistics have 4 lines of IPv6, and had 10: {ONCE}'], False),
    ('lines of the statistics that are none', statistics(
        lambda text: text.replace('|ipv4|16.0.0.0|', '|ipv4|16.0.0|')),
     [f'1 lines of the statistics could not be used: {ONCE}'], False),
    ('a country is gone', statistics(lambda text: text.replace('|DE|ipv4|', '|FR|ipv4|')),
     [f'DE has 0 IPv4 addresses, and had 16777216: {ONCE}'], False),
    ('the IPv6 of a country is gone', statistics(
        lambda text: text.replace('|DE|ipv6|', '|FR|ipv6|')),
     [f'DE has 0 IPv6 blocks of /48, and had 4294967296: {ONCE}'], False),
    ('a dump does not come', without('d4.gz'), [f'the dump d4 did not come: .*: {KEPT}'], False),
    ('no dump comes', without('d4.gz', 'd6.gz'), [f'the dump d4 did not come: .*: {KEPT}',
                                                 f'the dump d6 did not come: .*: {KEPT}'], False),
    ('half a dump', lambda world: world.put('d4.gz', (world.net / 'd4.gz').read_bytes()[:60]),
     [f'the dump d4 did not come: not whole: .*: {KEPT}'], False),
    ('a dump that is a whole gzip file of nothing', serves('d6.gz', gzip.compress(b'')),
     [f'the dump d6 names no feed: {KEPT}'], False),
    ('a dump of 0 bytes', serves('d6.gz', ''), [f'the dump d6 names no feed: {KEPT}'], False),
    ('a dump that is a web page', serves('d4.gz', '<html>moved</html>'),
     [f'the dump d4 did not come: a web page and no dump: {KEPT}'], False),
    ('a packed web page', serves('d4.gz', gzip.compress(b'<html>moved</html>')),
     [f'the dump d4 names no feed: {KEPT}'], False),
    ('a dump with a quarter of its references', lambda world: world.dump(
        'd4', 'inetnum: 192.0.2.0/24\ngeofeed: https://x.example/a\n'),
     [f'the dump d4 names a feed 1 times, and did so 4 times: {ONCE}'], False),
    ('the server of a feed is down', without('b'), [], True),
    ('a feed is a web page', serves('b', '<!DOCTYPE html><html>for sale</html>'), [], True),
    ('a feed is empty', serves('six', ''), [], True),
    ('a feed has lost most of its lines', serves('b', '192.0.1.0/24,DE,,,\n'), [], True),
    ('a feed was saved with semicolons', serves('six', '2001:db8::/33;AT;AT-9;Wien;\n'), [], True),
    ('a feed has no line that fits', serves('six', '2001:db8::1/33,AT,AT-9,Wien,\n'), [], True),
    ('a feed is over the limit of bytes', serves('b', b'#' * (67_108_864 + 1)),
     ['the feed https://x.example/b is left as it was, or out: it has more than 67108864 bytes'],
     True),
    ('a feed is over the limit of lines', serves('b', b'x\n' * 2_097_153),
     ['the feed https://x.example/b is left as it was, or out: it has more than 2097152 lines'],
     True),
    ('a feed does not come for 31 days', old(31),
     ['the feed https://x.example/b is that of 20.*Z: .*; to take what comes: geofeed-daily '
      '--config .*/conf --accept https://x.example/b'], True),
    ('a feed does not come for 29 days', old(29), [], True),
    ('a line of the overrides is wrong', lambda world: world.own('203.0.113.0/24;set;AT\n'),
     [f'.*/own.csv:1: the line cannot be used \\(O03\\): {ONCE}'], False),
    ('the overrides are gone', lambda world: os.remove(world.path / 'own.csv'),
     [f'the overrides .*/own.csv are not there: {KEPT}'], False),
    ('the clock went back', known('counts.json', later),
     [f'the clock says .*, which is before the file in use .*: {ONCE}'], False),
    ('the disk has no room', lambda world: world.configure(disk='999999g'),
     [f'the disk has .* MiB free, and a run may need .*: {KEPT}'], False),
    ('the program is killed', program('kill -9 $$'),
     [f'geofeed ends with status -9: {KEPT}'], False),
    ('the program says why it stops', program('echo "job:2: a reason" >&2; exit 7'),
     [f'job:2: a reason: {KEPT}'], False),
    ('the fetch is killed', lambda world: world.fetches('kill -9 $PPID'),
     [f'fetching the sources ends with status -9: {KEPT}'], False),
    ('what is known of the feeds is damaged', known('feeds.list.index', start), [], True),
    ('what is known of the last run is damaged', known('counts.json', start), [], True),
    ('a killed run has left its folder', junk, [], True),
    ('city.mmdb was removed', lambda world: os.remove(world.geo / 'city.mmdb'), [], True),
)


def faults_of(world, title, fault, said, new):
    """What is not as the row says: a list of texts."""
    found = []
    before, day = world.city(), world.day
    world.serve()
    fault(world)
    status, told = world.run()
    lines = told.splitlines()
    wanted = [f'geofeed-daily: {line}' for line in said]
    if len(lines) != len(wanted) or not all(map(re.fullmatch, wanted, lines)):
        found.append(f'it says {told!r}')
    if status != (0 if new else 1):
        found.append(f'it ends with {status}')
    if not new and world.city() != before:
        found.append('city.mmdb is another')
    if world.whole() != (world.day if new else day):
        found.append(f'city.mmdb is of day {world.whole()}, and not {world.day if new else day}')
    return [f'{title}: {what}' for what in found]


def well(world, title):
    """The next run, without the fault, is well."""
    world.configure()
    world.fetches()
    world.own('203.0.113.0/24,set,AT,,Wien,\n')
    if not (world.bin / 'geofeed').is_symlink():
        (world.bin / 'geofeed').unlink()
        os.symlink(PROGRAM, world.bin / 'geofeed')
    world.serve()
    for run in world.kept():
        if (run / 'counts.json').is_file() and 'the clock' in title:
            known('counts.json', lambda text: json.dumps({**json.loads(text), 'epoch': 1}))(world)
    wait_for_lock(world.geo / '.lock')
    ran = world.run()
    left = [path.name for path in world.geo.iterdir()
            if path.name not in ('.lock', 'city.mmdb', 'runs')]
    if ran != (0, '') or world.whole() != world.day or left or len(world.kept()) > 3:
        return [f'the run after "{title}": {ran}, day {world.whole()}, {left}, {world.kept()}']
    return []


def days(world, rows):
    found = []
    for row in rows:
        found += faults_of(world, *row)
        found += well(world, row[0])
    return found


# ---- What a person does about it

def accepted(world):
    """The command that the refusal names takes it once; a new refusal later needs a new one."""
    found = []
    halve = DAYS[[row[0] for row in DAYS].index('a dump with a quarter of its references')][1]
    gone = DAYS[[row[0] for row in DAYS].index('a country is gone')][1]
    world.serve()
    halve(world)
    gone(world)
    told = world.run()
    again = world.run('--accept')
    last = world.run('--accept')
    if 'dump d4' not in told[1] or 'DE has 0' not in again[1] or last != (0, ''):
        found.append(f'two reasons one after the other: {told}, {again}, {last}')
    if world.whole() == world.day:
        found.append('an accepted run has the country all the same')
    world.serve()
    halve(world)
    if world.run()[0] or (world.geo / 'state.json').exists():
        found.append('what was accepted is refused the next day')
    found += well(world, 'accepted')
    os.remove(world.path / 'own.csv')
    world.configure(overrides='')
    return found + accepted_feed(world)


def accepted_feed(world):
    found = []
    world.own('203.0.113.0/24,set,AT,,Wien,\n')
    world.configure()
    world.serve()
    world.put('b', '192.0.3.0/28,FR,,Lyon,\n')
    first = world.run()
    held = world.kept()[-1] / 'feeds'
    lines = sum(len(path.read_text().splitlines()) for path in held.iterdir())
    second = world.run('--accept', 'https://x.example/b')
    held = world.kept()[-1] / 'feeds'
    less = sum(len(path.read_text().splitlines()) for path in held.iterdir())
    if first != (0, '') or second != (0, '') or lines != 22 or less != 3:
        found.append(f'--accept URL: {first} {lines} {second} {less}')
    return found


def three_in_a_row(world):
    world.serve()
    os.remove(world.net / 'statistics')
    told = [world.run()[1].splitlines() for _ in range(4)]
    last = [lines[-1] for lines in told]
    good = [len(lines) for lines in told] == [1, 1, 2, 2] and all(
        re.fullmatch(f'geofeed-daily: this is refusal {times} in a row; city.mmdb is that of 20.*Z',
                     last[times - 1]) for times in (3, 4))
    return ([] if good else [f'refused four times it says {told}']) + well(world, 'four refusals')


def a_first_run(world):
    """A first run takes no source that is empty, and leaves nothing in use."""
    found = []
    for title, fault, said, _ in DAYS:
        if 'nothing' in title and 'dump' in title or 'statistics are' in title:
            shutil.rmtree(world.geo)
            world.serve()
            fault(world)
            status, told = world.run()
            if status != 1 or not re.fullmatch(f'geofeed-daily: {said[0]}\n', told) or world.city():
                found.append(f'a first run, {title}: {status} {told!r}')
    world.serve()
    if world.run() != (0, '') or world.whole() != world.day:
        found.append('the first run after these is not well')
    return found


def back(world):
    """Three files are kept; each can be put in its place again."""
    found = []
    for _ in range(4):
        found += well(world, 'a day')
    newest = world.day
    steps = [(('--back',), newest - 1), (('--back',), newest - 2), (('--back',), None),
             (('--back', '0'), newest), (('--back', '2'), newest - 2), (('--back', '3'), None)]
    for words, day in steps:
        status, told = world.run(*words)
        if (status == 0) != (day is not None) or (day and world.whole() != day) or not told:
            found.append(f'{words}: {status} {told!r}, day {world.whole()}')
    listed = world.run('--list')[1].splitlines()
    if len(listed) != 3 or [line.endswith(' in use') for line in listed] != [False, False, True]:
        found.append(f'the list is {listed}')
    kept = world.kept()[-1]
    six = {(run / line.split()[2]).stat().st_ino for run in world.kept()
           for line in (run / 'job').read_text().splitlines() if line.endswith(file_of_six())}
    if len(six) != 1:
        found.append(f'a feed that is the same takes its place {len(six)} times')
    for name in ('job', 'report', 'census', 'statistics', 'overrides', 'dumps/d4', 'dumps/d6'):
        if not (kept / name).is_file():
            found.append(f'{name} is not kept')
    explained = subprocess.run([PROGRAM, 'explain', 'job', '192.0.2.1'], cwd=kept,
                               capture_output=True, check=False, text=True).stdout
    if f'Day {newest}' not in explained:
        found.append(f'the kept job explains {explained!r}')
    return found + well(world, 'going back')


def file_of_six():
    return hashlib.sha256(b'https://x.example/six').hexdigest()[:20]


def two_at_once(world):
    world.serve()
    world.fetches('echo > began; while [ ! -e go ]; do sleep 0.05; done')
    first = world.begin()
    wait_for(world.net / 'began')
    second = world.run()
    (world.net / 'go').touch()
    first.communicate(timeout=300)
    found = []
    says = f'geofeed-daily: another run is at work in {world.geo}\n'
    if second != (75, says) or first.returncode:
        found.append(f'two at once: {second}, {first.returncode}')
    if world.whole() != world.day:
        found.append('two at once: the first is not in use')
    return found + orphan(world) + well(world, 'two at once')


def orphan(world):
    """A killed run whose program still writes: no other begins before that ends."""
    for name in ('go', 'began'):
        (world.net / name).unlink(missing_ok=True)
    first = world.begin()
    wait_for(world.net / 'began')
    first.kill()
    second = world.run()
    (world.net / 'go').touch()
    first.communicate(timeout=300)
    return [] if second[0] == 75 else [f'beside what a killed run has left: {second}']


def wait_for_lock(path):
    """What a killed run has left ends by itself, but a moment after its output does."""
    if not path.exists():
        return
    with open(path, 'r+b') as lock:
        for _ in range(600):
            try:
                fcntl.flock(lock, fcntl.LOCK_EX | fcntl.LOCK_NB)
                return
            except BlockingIOError:
                time.sleep(0.05)


def wait_for(path):
    for _ in range(600):
        if path.exists():
            return
        time.sleep(0.05)


def wrong_words(world):
    found = []
    conf = world.path / 'wrong'
    for text, wanted in (('keep = x\n', 'wrong:1: keep is no number'), ('keep\n', 'no KEY = VALUE'),
                         ('kept = 1\n', 'there is no key "kept"'), ('keep = 0\n', 'at least one'),
                         ('dump ../x = https://x.example/\n', 'there is no key')):
        conf.write_text(text)
        status, told = world.run('--config', str(conf))
        if status != 2 or wanted not in told or len(told.splitlines()) != 1:
            found.append(f'{text!r}: {status} {told!r}')
    for words in (('--none',), ('--fetch', '--build'), ('--back', 'x'), ('--config', '/nowhere')):
        status, told = world.run(*words)
        if status != 2 or len(told.splitlines()) != 1:
            found.append(f'{words}: {status} {told!r}')
    says = f'geofeed-daily: nothing was fetched since the last run: {KEPT}\n'
    if world.run('--build') != (1, says):
        found.append('--build builds what was not fetched')
    world.serve()
    if world.run('--fetch') != (0, '') or world.run('--build') != (0, '') \
            or world.whole() != world.day:
        found.append('in two steps it is not done')
    return found


# ---- Killed at each command and call, and a full disk at each write

def killed(world, title, before=(), **env):
    """A run that is killed, and the next one: whether it was killed, and what is wrong."""
    day = world.day
    world.serve()
    process = world.begin(before=before, **env)
    process.communicate(timeout=300)
    found = []
    if world.whole() not in (day, world.day):
        found.append(f'{title}: {world.whole()}')
    return process.returncode not in (0, 1), found + well(world, title)


def at_each_command(world, point):
    """Before and after each program that a run calls."""
    at = world.path / 'at'
    for tool in ('geofeed', 'feeds-of-dump'):
        real = PROGRAM if tool == 'geofeed' else CONTRIB / tool
        (world.bin / tool).unlink()
        (world.bin / tool).write_text(STUB.format(at=at, real=real))
        os.chmod(world.bin / tool, 0o755)
    which, number = point
    if which == 'IN_FETCH':
        world.fetches(f'n=$(($(cat {at}.f 2> /dev/null || echo 0) + 1)); echo $n > {at}.f; '
                      f'[ $n != {number} ] || kill -9 0')
        world.configure(**{'at-once': 1})
    died, found = killed(world, f'killed {which} {number}', **{which: str(number)})
    return found if died else [*found, f'there is no command {number} for {which}']


def at_each_call(world, number):
    """At the Nth call that changes a name."""
    calls = 'rename,link,unlink,unlinkat,mkdir,rmdir'
    _, found = killed(world, f'killed at call {number}', [
        'strace', '-qq', '-o', '/dev/null', '-e', f'trace={calls}',
        '-e', f'inject={calls}:signal=KILL:when={number}'])
    return found


def with_full_disk(world, limit, inodes):
    """With so many bytes, or so many names, left on the disk."""
    day = world.day
    world.serve()
    used = os.statvfs(world.geo)
    size = (used.f_blocks - used.f_bfree) * used.f_frsize + limit
    names = used.f_files - used.f_ffree + inodes
    remount(world, size, names)
    status, told = world.run()
    found = []
    if world.whole() != (day if status else world.day):
        found.append(f'full: {status} {told!r} {world.whole()}')
    if status and (status != 1 or len(told.splitlines()) < 1 or 'Traceback' in told):
        found.append(f'full: {status} {told!r}')
    remount(world, 64 << 20, 9999)
    return status, found + well(world, f'{limit} bytes and {inodes} names left')


def remount(world, size, names):
    subprocess.run(['mount', '-o', f'remount,size={size},nr_inodes={names}', world.geo], check=True)


def full_disk(world, count):
    """A disk with more and more room, until a run is well: first of bytes, then of names."""
    kept = world.path / 'was'
    os.rename(world.geo, kept)
    world.geo.mkdir()
    subprocess.run(['mount', '-t', 'tmpfs', 'none', world.geo], check=True)
    subprocess.run(['cp', '-a', f'{kept}/.', world.geo], check=True)
    found, runs = [], 0
    step = 4096 if ALL else 5 * 4096
    for kind in ('bytes', 'names'):
        room = 0
        while True:
            names = room // 4096
            limit = (room, 5000) if kind == 'bytes' else (32 << 20, names)
            status, more = with_full_disk(world, *limit)
            found, runs, room = found + more, runs + 1, room + step
            if not status or runs > 400:
                break
    count.append(runs)
    subprocess.run(['umount', world.geo], check=True)
    return found if runs > 8 else [*found, f'a full disk was tried {runs} times']


def main():
    folder = pathlib.Path(tempfile.mkdtemp())
    base = World(folder / 'base').make()
    if base.run() != (0, '') or base.whole() != 1:
        sys.exit(f'the first run is not well: {base.run()}')
    tasks, count = [], []
    commands = (('KILL_BEFORE', 5), ('KILL_AFTER', 5), ('IN_FETCH', 7))
    points = [(which, number) for which, most in commands for number in range(1, most + 1)]
    calls = list(range(1, 61, 1 if ALL else 5)) if shutil.which('strace') else []
    with concurrent.futures.ThreadPoolExecutor(4) as threads:
        def add(what, *words):
            world = base.copy(folder / f'world{len(tasks)}')
            tasks.append(threads.submit(what, world, *words))
        if 'mounts' in sys.argv:
            add(full_disk, count)
        for first in range(4):
            add(days, DAYS[first::4])
        for what in (accepted, three_in_a_row, a_first_run, back, two_at_once, wrong_words):
            add(what)
        for point in points:
            add(at_each_command, point)
        for number in calls:
            add(at_each_call, number)
        found = [line for task in tasks for line in task.result()]
    shutil.rmtree(folder)
    print('\n'.join(found) or f'{len(DAYS)} days, {len(points) + len(calls)} killed runs, '
          f'{sum(count)} full disks')
    return 1 if found else 0


if __name__ == '__main__':
    signal.signal(signal.SIGPIPE, signal.SIG_DFL)
    sys.exit(main())
