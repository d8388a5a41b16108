"""The prover and rt, as tools call them: over the libraries that stand in crates/NAME/out. tools/proved and tools/try-edits stand on this page.

What `rt ci` leaves in out/ is built of what it has just proved, but rt's other commands take none of it and prove every library again: it has the statements
alone, and no stamp. So `note` writes down, in target/passed, what `rt ci` passed on and what it made, and while neither has changed (`stands`, `is_left`), the
prover itself is called over it. A library with a stamp is rt's own, from a `rt check`, and rt knows what it is of."""
import functools, hashlib, json, os, re, shutil, subprocess, sys, time

sys.dont_write_bytecode = True
import edits
from edits import ROOT

TARGET = f'{ROOT}/target'
PASSED = f'{TARGET}/passed'


def say(text):
    print(f'proved: {text}', file=sys.stderr, flush=True)


def sum_of(path):
    """A digest of a file, or None where there is no such file."""
    if not os.path.isfile(path):
        return None
    with open(path, 'rb') as file:
        return hashlib.sha256(file.read()).hexdigest()


@functools.cache
def kit():
    rt = shutil.which('rt') or sys.exit('rt is missing: install the Rattle kit')
    return os.path.dirname(os.path.dirname(os.path.realpath(rt)))


def whole_sum():
    """A digest of the crates' text and of the kit."""
    hashed = hashlib.sha256(edits.read(f'{ROOT}/crates.txt').encode())
    for crate in sorted(edits.dependencies()):
        hashed.update(f'{crate} {edits.digest(crate)}\n'.encode())
    return hashed.hexdigest()


def out(crate):
    return f'{ROOT}/crates/{crate}/out'


def format_of(crate):
    """The file of a built library that has the sums of all its files."""
    return f'{out(crate)}/rlib/{crate}.rlib/format'


def has_stamp(crate):
    return os.path.exists(f'{out(crate)}/rlib/stamp')


def note(before):
    """Notes what `rt ci` left, if the text is still the one with this digest: the programs, and the libraries without a stamp."""
    for it in (edits.digest, edits.dependencies):
        it.cache_clear()
    if whole_sum() != before:
        return
    files = [f'{out(crate)}/{crate}' for crate in edits.dependencies()] + [format_of(crate) for crate in edits.dependencies() if not has_stamp(crate)]
    edits.put(PASSED, json.dumps({'sum': before, 'files': {os.path.relpath(path, ROOT): sum_of(path) for path in files if os.path.isfile(path)}}, indent=1))


@functools.cache
def noted():
    """What `note` noted, or nothing where a crate or the kit has changed since."""
    try:
        told = json.loads(edits.read(PASSED))
        return told['files'] if told['sum'] == whole_sum() else {}
    except (OSError, ValueError, KeyError, TypeError):
        return {}


def stands(path):
    """Whether this file is as `rt ci` left it, when it passed on what is here now."""
    known = noted().get(os.path.relpath(path, ROOT))
    return known is not None and known == sum_of(path)


def below(crate):
    """The crates of this repository on which a crate stands, lowest first."""
    found = []
    for need in edits.dependencies().get(crate, []):
        if need in edits.dependencies():
            found += [it for it in [*below(need), need] if it not in found]
    return found


def is_left(crate):
    """Whether all libraries below the crate are as `rt ci` left them."""
    return all(not has_stamp(it) and stands(format_of(it)) for it in below(crate))


def words(crate, jobs=2):
    """The words by which rt calls the prover on a crate whose folder it stands in."""
    root = 'main' if os.path.isfile(f'{ROOT}/crates/{crate}/src/main.rt') else 'lib'
    said = ['--crate-name', crate, f'src/{root}.rt', '--extern', f'std={kit()}/rlibs/std.rlib', '-L', f'dependency={kit()}/rlibs']
    for need in edits.dependencies()[crate]:
        own = need in edits.dependencies()
        said += ['--extern', f'{need}={out(need)}/rlib/{need}.rlib' if own else f'{need}={kit()}/rlibs/{need}.rlib']
    for need in below(crate):
        said += ['-L', f'dependency={out(need)}/rlib']
    return [*said, '--antt-project', f'{kit()}/rattle/logic/antt-project.json', '--logic-built', f'{kit()}/logic_built', '--jobs', str(jobs), '--links', f'{crate}=']


def call(folder, *command, show=True):
    """Calls rt or the prover in a folder, and says which crate is proved; gives the status and all that was said, which goes to standard output too."""
    said, crate, began = [], '', time.time()
    with subprocess.Popen(command, cwd=folder, stdin=subprocess.DEVNULL, stdout=subprocess.PIPE, stderr=subprocess.STDOUT, encoding='utf-8', errors='replace') as ran:
        for line in ran.stdout:
            said.append(line)
            if show:
                sys.stdout.write(line)
            if found := re.match(r'rt: chose --jobs \d+ for (\w+)', line):
                crate, began = found[1], time.time()
            elif crate and line.startswith('logic=proved '):
                say(f'{crate} proved ({time.time() - began:.0f} s)')
                crate = ''
    sys.stdout.flush()
    return ran.returncode, ''.join(said)


def rt(crate, *command, show=True):
    return call(f'{ROOT}/crates/{crate}', 'rt', *command, show=show)


def prover(crate, verb, *more, folder=None, jobs=2):
    """Calls the prover itself, over the libraries that stand in out/: on the crate, or on a copy of it in another folder."""
    return call(folder or f'{ROOT}/crates/{crate}', f'{kit()}/bin/rattle', verb, *words(crate, jobs), *more, show=False)
