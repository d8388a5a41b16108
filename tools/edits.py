"""The must-fail edits: what an .edit file says, and what rt and the prover said to it. tools/try-edits and tools/check-edits both judge by this page.

An .edit begins with a line that says what the wrong version does. `at: FILE DECLARATION` is the place where the prover must say that a fact fails: a theorem or
a law, or a goal of a function's proof, in a file of proofs/ or specs/; or, where the prover names a line of the code, `at: FILE FUNCTION GOAL`. The pairs `old:`
and `new:` after a `file:` line are the change.

rt says in one line what came of an edit: `rt: must-fail CRATE/EDIT.edit: ` and, where the prover refused it, the first place at which it stopped, with its
words, cut after 160 characters. Where that is not the edit's place, the prover is asked once more for all that it says. The log of an edit,
target/edits/CRATE/EDIT.log, has rt's line and, if it was asked for, what the prover said at the edit's place. Its head names the edit, the place, and a digest
of all that it was tried on. It appears only when it is complete."""
import functools, glob, hashlib, os, re, subprocess

ROOT = os.path.realpath(os.path.join(os.path.dirname(os.path.abspath(__file__)), '..'))
LOGS = f'{ROOT}/target/edits'
PARTS = ('src', 'specs', 'proofs')
END = 'end'

# what rt says of an edit
SAID = re.compile(r'^rt: must-fail (\w+)/(\S+?)\.edit: (.*)$', re.M)
REFUSED = 'refused, as it must be'
# the place at which the prover stopped: in the code, a goal that it could not prove, or in a file an error in a declaration
PLACE = re.compile(r'(?:note: (?=src/)|(?=\S+ error: ))(?:\./)?((?:src|specs|proofs)/\S+?):(\d+):(\d+): (?:error: )?(?:`([^`]*)`: )?(.*)')
# how the prover words a fact that fails: a goal that is not proved, two types or sides that differ, or numbers from which a goal does not follow
FACT = re.compile(r"""it\ is\ not\ proved\ that|the\ two\ (types|sides)\ |^expected\ type\ `|^computed\ as\ a\ goal\ is,\ one\ side\ reads|^`omega`:\ .*does\ not\ follow
    |^`rw`:\ no\ occurrence\ of\ the\ path's|^give\ a\ proof\ of\ that\ as\ the\ last\ argument""", re.X)


def read(path, errors='strict'):
    with open(path, encoding='utf-8', errors=errors) as file:
        return file.read()


def put(path, text):
    """Writes a file under a name of its own and renames it, so that it is there whole or not at all, also where two try the same edit."""
    os.makedirs(os.path.dirname(path), exist_ok=True)
    part = f'{path}.{os.getpid()}.part'
    with open(part, 'w', encoding='utf-8') as file:
        file.write(text)
    os.replace(part, path)


class Edit:
    """One .edit file. `wrong` is what is wrong with its form, or empty."""

    def __init__(self, crate, name):
        self.crate, self.name, self.label = crate, name, f'{crate}/{name}'
        self.text = read(f'{ROOT}/crates/{crate}/must-fail/{name}.edit')
        self.log = f'{LOGS}/{crate}/{name}.log'
        self.at, self.pairs, self.wrong = None, [], ''
        path = old = ''
        for line in self.text.splitlines():
            if line.startswith('at: '):
                self.at = tuple(line[4:].split(' '))
            elif line.startswith('file: '):
                path = line[6:]
            elif line.startswith('old: '):
                old = line[5:]
            elif line.startswith('new:'):
                self.pairs.append((path, old, line[4:].removeprefix(' ')))
                old = ''
        if not self.text.startswith('# '):
            self.wrong = 'its first line does not say what the wrong version does'
        elif not self.at or len(self.at) != (3 if self.at[0].startswith('src/') else 2):
            self.wrong = "it has no line 'at: FILE DECLARATION' or 'at: FILE FUNCTION GOAL'"
        elif not self.pairs:
            self.wrong = "it has no 'old:' and 'new:' pair"

    def changed(self, path):
        """The text of a file of the crate with the edit's changes. Each pair applies to what the earlier ones made; a fault is raised as a ValueError."""
        text = read(f'{ROOT}/crates/{self.crate}/{path}')
        for where, old, new in self.pairs:
            if where == path:
                if not old or text.count(old) != 1:
                    raise ValueError(f"an 'old:' text stands in {path} {text.count(old) if old else 0} times, and not once")
                text = text.replace(old, new)
        return text


def all_edits():
    paths = sorted(glob.glob(f'{ROOT}/crates/*/must-fail/*.edit'))
    return [Edit(path.split(os.sep)[-3], os.path.basename(path)[:-5]) for path in paths]


@functools.cache
def dependencies():
    """What each crate of crates.txt stands on."""
    rows = (line.split('#')[0].split(':') for line in read(f'{ROOT}/crates.txt').splitlines())
    return {row[0].split()[0]: row[1].split() for row in rows if len(row) == 2}


@functools.cache
def digest(crate):
    """A digest of a crate's text, of all that it stands on, and of the kit."""
    hashed = hashlib.sha256()
    for need in dependencies().get(crate, []):
        hashed.update(digest(need).encode())
    if crate not in dependencies():
        hashed.update(subprocess.run(['rt', 'version'], stdout=subprocess.PIPE, check=True).stdout)
    for part in PARTS:
        for path in sorted(glob.glob(f'{ROOT}/crates/{crate}/{part}/**/*', recursive=True)):
            if os.path.isfile(path):
                hashed.update(f'\n{os.path.relpath(path, ROOT)}\n{read(path)}'.encode())
    return hashed.hexdigest()


def tried_on(edit):
    """What an edit's log is good for: the edit, its crate, and all that the crate stands on."""
    return hashlib.sha256(f'{digest("std")} {digest(edit.crate)} {edit.text}'.encode()).hexdigest()


def function_at(text, line):
    """The function whose head is the last one down to this line of a file of src/, or right below it, where the line is an attribute."""
    lines = text.split('\n')
    while line < len(lines) and lines[line - 1].lstrip().startswith(('#[', '//')):
        line += 1
    names = (re.match(r'\s*(?:pub(?:\([\w ]+\))? )?(?:extern "C" )?fn (\w+)', head) for head in lines[:line])
    return ([found[1] for found in names if found] or ['?'])[-1]


def place(edit, said):
    """The place of which a line of the prover speaks, as an `at:` line has it, and the prover's words; no place where it names none."""
    found = PLACE.match(said)
    if not found:
        return (), said
    path, line, _, name, words = found.groups()
    if not path.startswith('src/'):
        return (path, name or '?'), words
    goal = name or ''.join(re.findall(r'\(`([^`]*)`\)', words)[:1]) or '?'
    return (path, function_at(edit.changed(path), int(line)), goal), words


def is_fact(words):
    """Whether these words of the prover say that a fact fails. A parse error, an unknown name, and a declaration that was not admitted do not."""
    return bool(FACT.search(words)) and 'was not admitted (' not in words


def facts(edit, lines):
    """Of these lines of the prover those that say at the edit's place that a fact fails."""
    return [line for line in lines if (at := place(edit, line))[0] == edit.at and is_fact(at[1])]


def first(said):
    """The first place with the prover's words, of rt's line for an edit that the prover refused; else nothing."""
    return said.removeprefix(f'{REFUSED}: ') if said.startswith(f'{REFUSED}: ') else ''


def keep_log(edit, said, whole=None):
    """Writes the log of an edit: its head, rt's line and, where the prover was asked for all that it says, the facts at the edit's place, or at which other
    places it stopped."""
    head = [f'edit: {edit.label}', f'at: {" ".join(edit.at)}', f'of: {tried_on(edit)}', '']
    more = []
    if whole is not None:
        lines = [line for line in whole.splitlines() if PLACE.match(line)]
        at_place = facts(edit, lines)
        more = at_place or ['elsewhere:', *(f'  {" ".join(place(edit, line)[0])}: {place(edit, line)[1]}' for line in lines)]
    put(edit.log, '\n'.join([*head, said, *more, END]) + '\n')


def keep_all(said):
    """Writes the log of each edit of which these lines of rt speak, and gives rt's line of each, by its label."""
    lines = {f'{crate}/{name}': line for crate, name, line in SAID.findall(said)}
    for edit in all_edits():
        if edit.label in lines and not edit.wrong:
            keep_log(edit, lines[edit.label])
    return lines


def logged(edit):
    """The head of an edit's log, and the lines of what was said. A log that is cut may end within a character."""
    head, _, said = read(edit.log, errors='replace').partition('\n\n')
    return head, said.split('\n')


def fact(edit):
    """What the prover said of the fact that fails at an edit's place, by a log without fault."""
    said = logged(edit)[1]
    return facts(edit, [first(said[0]), *said[1:]])[0]


def fault(edit):
    """What is wrong with the refusal of an edit, by its log; empty where a fact fails at its place."""
    if edit.wrong:
        return edit.wrong
    if not os.path.exists(edit.log) or not os.path.getsize(edit.log):
        return 'was not tried'
    head, said = logged(edit)
    if f'\nof: {tried_on(edit)}' not in head:
        return 'was not tried on what stands there now'
    if said[-2:] != [END, '']:
        return 'was not tried to the end: its log is cut'
    if not said[0].startswith(REFUSED):
        return f'is not refused: {said[0][:300]}'
    if edit.crate == 'rules' and not re.match(r'proofs/(Worked|Sessions\w+)\.antt', edit.at[0]):
        return f'names {edit.at[0]}, which is no session'
    if facts(edit, [first(said[0]), *said[1:-2]]):
        return ''
    return f'is not refused by a fact at {" ".join(edit.at)}; the prover stops first at {first(said[0]) or said[0]}'
