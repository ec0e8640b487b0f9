"""The programs that bench/measure.py runs beside mincut: how they are built and called, and the machine that runs them all."""
import os
import platform
import re
import shlex
import subprocess
import sys
from typing import NamedTuple

from checks import running

HERE = os.path.dirname(os.path.abspath(__file__))
PEERS_FOLDER = os.path.join(HERE, 'peers')
COMPILING = ['-O3', '-march=native', '-DNDEBUG', '-std=c++17']
CALL_SIZES = ((50, 100, 4_000), (200, 1_000, 1_000), (1_000, 5_000, 200))    # vertices, edges, and how many calls are timed


class Peer(NamedTuple):
    """A program beside mincut: its title, its source and word, the Debian package that it needs, and the name of that for pkg-config."""
    title: str
    source: str
    word: str
    package: str
    flags: str = ''


PEERS = {
    'lemon-ni': Peer('LEMON, Nagamochi-Ibaraki', 'lemon_peer.cpp', 'ni', 'liblemon-dev'),
    'lemon-ho': Peer('LEMON, Hao-Orlin', 'lemon_peer.cpp', 'ho', 'liblemon-dev'),
    'igraph': Peer('igraph, mincut_value', 'igraph_peer.cpp', 'value', 'libigraph-dev', 'igraph'),
    'networkx': Peer('networkx, stoer_wagner', 'networkx_peer.py', '', 'python3-networkx'),
    'boost': Peer('Boost, Stoer-Wagner', 'boost_peer.cpp', '', 'libboost-graph-dev'),
}


def output_of(command):
    """What the command prints, or nothing if it fails or is not there."""
    try:
        done = subprocess.run(command, stdin=subprocess.DEVNULL, stdout=subprocess.PIPE, stderr=subprocess.DEVNULL)
    except OSError:
        return ''
    return done.stdout.decode('utf-8', 'replace').strip() if done.returncode == 0 else ''


def flags_of(package):
    return shlex.split(output_of(['pkg-config', '--cflags', '--libs', package])) if package else []


def is_compiled(words):
    """Whether g++ makes a program by these words."""
    try:
        return subprocess.run(['g++', *words], stdout=subprocess.DEVNULL, stderr=subprocess.DEVNULL).returncode == 0
    except OSError:
        return False


def built(peer, folder):
    """The path of the peer's program, which is built if it is not there yet; None if it cannot be built."""
    binary = os.path.join(folder, peer.source.removesuffix('.cpp'))
    source = os.path.join(PEERS_FOLDER, peer.source)
    if os.path.exists(binary) or is_compiled([*COMPILING, source, '-o', binary, *flags_of(peer.flags)]):
        return binary
    return None


def python_with_networkx():
    """A Python that has networkx: the one that runs this, or that of the system."""
    for python in (sys.executable, '/usr/bin/python3'):
        if output_of([python, '-W', 'ignore', '-c', 'import networkx; print(1)']):
            return python
    return None


def command_of(peer, folder):
    """The command of a peer, or None if it is not installed."""
    words = [peer.word] if peer.word else []
    if peer.source.endswith('.py'):
        python = python_with_networkx()
        return [python, '-W', 'ignore', os.path.join(HERE, peer.source), *words] if python else None
    binary = built(peer, folder)
    return [binary, *words] if binary else None


def installed(names, folder):
    """{name of a peer: its command}; says which peers are left out."""
    commands = {name: command_of(PEERS[name], folder) for name in names}
    for name, command in commands.items():
        if command is None:
            print(f'{name} is left out: {PEERS[name].package} is not installed')
    return {name: command for name, command in commands.items() if command}


def library_calls(prefix, folder):
    """(call, vertices, edges, microseconds) of the C library in that folder and of its peers, or nothing if they do not build."""
    binary = os.path.join(folder, 'library')
    words = ['-O2', '-std=c++17', os.path.join(HERE, 'library.cpp'), f'-I{prefix}/include', f'{prefix}/lib/libmincut.a']
    if not is_compiled([*words, *flags_of('igraph'), '-o', binary]):
        print('library calls are left out: bench/library.cpp did not build')
        return []
    calls = []
    for vertices, edges, count in CALL_SIZES:
        told = output_of([binary, str(vertices), str(edges), str(count)])
        calls += [(name, vertices, edges, float(time)) for name, time in re.findall(r'^(.*?) +([\d.]+) us a call', told, re.M)]
    return calls


# The machine

def processor_name():
    try:
        with open('/proc/cpuinfo') as source:
            found = re.search(r'model name\s*: (.*)', source.read())
        return found[1] if found else platform.machine()
    except OSError:
        return platform.machine()


def commit_of_crates():
    """The last commit that changed the crates, and a word if they were changed since."""
    commit = output_of(['git', '-C', running.TOP, 'log', '-1', '--format=%h', '--', 'crates'])
    changed = output_of(['git', '-C', running.TOP, 'status', '--porcelain', '--', 'crates'])
    return commit + (' with changes' if changed else '') if commit else 'unknown'


def version_of(package):
    found = output_of(['dpkg-query', '-W', '-f=${Version}', package])
    return f'{package} {found or "(not a package)"}'


def machine_facts():
    """What the results say of the machine."""
    memory = os.sysconf('SC_PAGE_SIZE') * os.sysconf('SC_PHYS_PAGES') / 2**30
    return {'processor': processor_name(), 'processors': os.cpu_count(), 'memory_gib': f'{memory:.0f}',
            'system': f'{platform.system()} {platform.release()}', 'compiler': output_of(['g++', '--version']).split('\n')[0]}
