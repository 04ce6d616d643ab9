"""What the benchmarks share: builds, measurements and tables."""
import glob
import os
import platform
import re
import statistics
import subprocess
import sys
import time

ROOT = os.path.dirname(os.path.dirname(os.path.abspath(__file__)))
OUT = os.path.join(ROOT, 'bench', 'out')
STEPS = os.path.join(ROOT, 'crates', 'syn_bench', 'out', 'syn_bench')
GNU_TIME = '/usr/bin/time'


def say(text):
    print('bench/%s: %s' % (os.path.basename(sys.argv[0]), text), file=sys.stderr, flush=True)


def bytes_of(word):
    """10K is 10,000 bytes, 1M is 1,000,000."""
    units = {'K': 1000, 'M': 1000000}
    return int(word[:-1]) * units[word[-1]] if word[-1] in units else int(word)


def build_steps():
    """Builds syn_bench, which times steps apart."""
    say('building syn_bench, which times the steps apart')
    built = subprocess.run(['rt', 'run', '--', '1'], cwd=os.path.join(ROOT, 'crates', 'syn_bench'), input=b'struct S;',
                           stdout=subprocess.DEVNULL, stderr=subprocess.PIPE)
    if built.returncode != 0:
        sys.exit(built.stderr.decode('utf-8', 'replace')[-3000:] + '\nsyn_bench was not built')


def build_peer(features):
    """The peer's path, or None where it can't be built here."""
    target = os.path.join(OUT, '-'.join(['peer'] + features))
    command = ['cargo', 'build', '--release', '--offline', '--quiet', '--target-dir', target, '--features', ','.join(features)]
    say('building the peer' + (' with ' + ' and '.join(features) if features else ''))
    built = subprocess.run(command, cwd=os.path.join(ROOT, 'bench', 'peer'))
    return os.path.join(target, 'release', 'peer') if built.returncode == 0 else None


def peers(wanted, features=()):
    """What is measured beside the program, built with these features: names and paths."""
    if not wanted:
        return []
    if not glob.glob('/usr/share/cargo/registry/syn-1.*'):
        say('no peer: it needs `apt-get install librust-syn-dev` (librust-syn-1-dev where that is syn 2)')
        return []
    built = [('syn 1', build_peer([*features])), ('syn 1, spans', build_peer([*features, 'spans']))]
    return [(name, path) for name, path in built if path]


def library():
    """The library of Debian's package rust-src, if it is there."""
    folders = sorted(glob.glob('/usr/src/rustc-*/library'))
    return folders[-1] if folders else None


def milliseconds(commands, path, rounds):
    """The median time of whole runs of each command, from start to end of the process; they take turns."""
    times = [[] for _ in commands]
    for _ in range(rounds):
        for command, own in zip(commands, times):
            with open(path, 'rb') as source:
                start = time.perf_counter()
                subprocess.run(command, stdin=source, stdout=subprocess.DEVNULL, check=True)
                own.append((time.perf_counter() - start) * 1000)
    return [statistics.median(own) for own in times]


def megabytes(command, path):
    """The peak memory of one run in millions of bytes, or None without GNU time."""
    if not os.path.exists(GNU_TIME):
        return None
    with open(path, 'rb') as source:
        run = subprocess.run([GNU_TIME, '-f', '%M'] + command, stdin=source, stdout=subprocess.DEVNULL,
                             stderr=subprocess.PIPE, check=True)
    kibibytes = int(run.stderr.split()[-1])
    return kibibytes * 1024 / 1e6


def step_times(command, path, rounds):
    """The median milliseconds of each step."""
    with open(path, 'rb') as source:
        run = subprocess.run(command + [str(rounds)], stdin=source, stdout=subprocess.DEVNULL, stderr=subprocess.PIPE,
                             check=True)
    lines = [[int(word) / 1e6 for word in line.split()] for line in run.stderr.decode().splitlines()]
    return [statistics.median(column) for column in zip(*lines)]


def output_of(command, path):
    """What the command prints, white space aside."""
    with open(path, 'rb') as source:
        run = subprocess.run(command, stdin=source, stdout=subprocess.PIPE, check=True)
    return b''.join(run.stdout.split())


def instructions(command, path):
    """How many instructions one run executes."""
    counter = ['valgrind', '--tool=cachegrind', '--cache-sim=no', '--cachegrind-out-file=/dev/null']
    with open(path, 'rb') as source:
        run = subprocess.run(counter + command, stdin=source, stdout=subprocess.DEVNULL, stderr=subprocess.PIPE, check=True)
    return int(re.search(rb'I +refs: +([0-9,]+)', run.stderr).group(1).replace(b',', b''))


def row(cells):
    print('| ' + ' | '.join(cells) + ' |', flush=True)


def heads(names):
    row(names)
    row(['---'] + ['---:'] * (len(names) - 1))


def ratio(own, other):
    return '%.2f' % (own / other)


def versions():
    """What was measured, on what machine."""
    model = platform.processor() or platform.machine()
    try:
        with open('/proc/cpuinfo') as file:
            model = next(line.split(':', 1)[1].strip() for line in file if line.startswith('model name'))
    except (OSError, StopIteration):
        pass
    kit = subprocess.run(['rt', 'version'], stdout=subprocess.PIPE).stdout.decode().strip()
    found = ['%s, %d processors' % (model, os.cpu_count()), kit]
    found += [os.path.basename(path) for path in sorted(glob.glob('/usr/share/cargo/registry/syn-1.*'))]
    rustc = subprocess.run(['sh', '-c', 'rustc --version 2>/dev/null'], stdout=subprocess.PIPE).stdout.decode().strip()
    found += [rustc, 'load before the measurements %.1f' % os.getloadavg()[0]]
    return '; '.join(part for part in found if part)
