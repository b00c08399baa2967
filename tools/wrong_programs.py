"""The wrong programs of the crates, for tools/edits, tools/reasons and tools/lint: how an edit reads, how it is applied, how rt tries it, and at
which fact the prover refuses it.

An edit is a file of crates/CRATE/must-fail, which `rt ci` tries, or of crates/CRATE/edits, which tools/edits tries. Its first line says in words
what is wrong, after `# `. Its line `fact: NAME in FILE` names a fact whose proof must fail, and not only for want of another (FILE in proofs/, without
the ending, as in `returns in words/flip/Answers`). The fact of a goal that no file answers is `NAME in src/FILE.rt FUNCTION`, as in `returns in
src/points.rt vektrid_point`, where NAME is the goal that `rt check` prints in brackets. Each `old:` is replaced by the `new:` after it, in the file of the last
`file:`, as rt does it: one line, which occurs once in the text that the replacements before it have left.
"""
import contextlib
import glob
import os
import re
import shutil
import signal
import subprocess
import tempfile

FOLDERS = ['must-fail', 'edits']
RT = shutil.which('rt') or '/opt/rattle/bin/rt'

# What rt says of an edit that it tried, with the beginning of the first line that the prover said of it.
SAID = re.compile(r'^rt: must-fail (?P<crate>[\w-]+)/(?P<name>[\w.-]+)\.edit: (?P<says>.*)$', re.M)
REFUSED = re.compile(r'refused, as it must be(?P<only> \([^:]*)?: (?P<first>.*)')
# What rt says where the crate itself is not proved, so that a refusal says nothing of an edit.
UNPROVED = re.compile(r'^rt: (?P<crate>\w+): the check that its must-fail edits begin with did not end well', re.M)
# The lines of a check that say where it refuses: a proof fails, or a function without a proof file has a contract that is not found to hold.
TOLD = re.compile(r'^(?:note: \S+:\d+:\d+: |\S+:\d+:\d+: error).*$', re.M)
REFUSAL = re.compile(r'(?:note: )?(?:\./)?(?P<path>\S+?):(?P<line>\d+):\d+: '
                   r'(?:error: `(?P<fact>[^`]*)`: (?P<says>.*)|(?P<unproved>it is not proved that .*?) \(`(?P<goal>[^`]*)`\))')
# The line of a source file at which a function begins.
FUNCTION = re.compile(r'^[^/]*\bfn (\w+)[(<]')
# A message that says that the proof file no longer fits the text, and not that a fact is false.
UNFIT = re.compile(r'not in scope|was not admitted|was not checked|can be named from here|^record `|has no field|no `mod` line|unexpected'
                   r'|expected a |reserved word')
running = set()
stopped = False


class Misfit(Exception):
    """An edit that cannot be applied."""


class Unproved(Exception):
    """A crate that is not proved without an edit."""


class Edit:
    def __init__(self, path):
        self.path = path
        _, self.crate, self.folder, file = path.split('/')
        self.name = file.removesuffix('.edit')
        lines = open(path, encoding='utf-8').read().split('\n')
        self.words = lines[0].removeprefix('# ') if lines[0].startswith('# ') else ''
        facts = [line.removeprefix('fact: ') for line in lines if line.startswith('fact: ') and ' in ' in line]
        self.fact = facts[0] if len(facts) == 1 else ''
        self.replacements = []
        file = old = ''
        for line in lines:
            if line.startswith('file: '):
                file = line.removeprefix('file: ')
            elif line.startswith('old: '):
                old = line.removeprefix('old: ')
            elif line.startswith('new:'):
                self.replacements.append((file, old, line.removeprefix('new:').removeprefix(' ')))
                old = ''

    def edited(self, crate_folder):
        """The files of the crate that change, with their new text."""
        texts = {}
        for file, old, new in self.replacements:
            path = os.path.join(crate_folder, file)
            if not re.match(r'(src|specs|proofs)/', file) or '..' in file.split('/') or not os.path.isfile(path):
                raise Misfit(f'no file {file or "is named"}')
            text = texts[file] if file in texts else open(path, encoding='utf-8').read()
            if not old or text.count(old) != 1:
                raise Misfit(f'{text.count(old) if old else "no"} places in {file} for `old: {old}`')
            texts[file] = text.replace(old, new)
        if not texts:
            raise Misfit('no `old:` with a `new:`')
        return texts

    def refused_at(self, line, crate_folder):
        """Whether a line that the prover said refuses the edit at its fact; the fact of the line, and what it says. `crate_folder` holds the crate
        without the edit, whose lines have the same numbers."""
        found = REFUSAL.match(line)
        if not found:
            return False, 'no fact', line
        file = re.sub(r'^proofs/|/Proof\.antt$|\.antt$', '', found['path'])
        fact, says = f'{found["fact"] or found["goal"]} in {file}', found['says'] or found['unproved']
        if file.startswith('src/'):
            fact += f' {function_at(os.path.join(crate_folder, file), int(found["line"]))}'
        return fact == self.fact and not UNFIT.search(says), fact, says


def function_at(path, number):
    """The function of a source file that has a line: the last that begins there or above. An attribute belongs to the function below it,
    and the prover gives its line for a fact of the whole function."""
    lines = open(path, encoding='utf-8').read().split('\n')
    while number < len(lines) and lines[number - 1].lstrip().startswith('#['):
        number += 1
    begun = [found[1] for found in map(FUNCTION.match, lines[:number]) if found]
    return begun[-1] if begun else 'outside every function'


def edits_of(folders, crates=None):
    """The edits of the folders, crate by crate."""
    paths = sorted(path for folder in folders for path in glob.glob(f'crates/*/{folder}/*.edit'))
    return [Edit(path) for path in paths if crates is None or path.split('/')[1] in crates]


# ---- rt

def rt(folder, jobs, *words):
    """Runs rt in a folder: its exit status, and all that it prints. `jobs` is how many edits it tries at a time; where it is empty rt sees itself how
    many there are processors and memory for. The run has a process group of its own, so that an interrupt can end it whole."""
    if stopped:
        raise KeyboardInterrupt
    child = subprocess.Popen([RT, *words], cwd=folder, env={**os.environ, 'RT_JOBS': str(jobs)}, start_new_session=True,
                             stdin=subprocess.DEVNULL, stdout=subprocess.PIPE, stderr=subprocess.STDOUT, encoding='utf-8', errors='replace')
    running.add(child)
    printed = child.communicate()[0]
    running.discard(child)
    return child.returncode, printed


def end():
    """Ends what still runs, and starts nothing more."""
    global stopped
    stopped = True
    for child in list(running):
        with contextlib.suppress(ProcessLookupError):
            os.killpg(child.pid, signal.SIGTERM)


def linked(one, other):
    """Copies a file, one of what is proved by a link: a check replaces such a file, and changes none."""
    with contextlib.suppress(OSError):
        if one.endswith('.oantt'):
            return os.link(one, other)
    return shutil.copy2(one, other)


@contextlib.contextmanager
def copied(edits):
    """A temporary folder with a copy of the crates and of what is kept of their proofs, in which each must-fail/ has the given edits and no others.
    It goes again, whatever comes, with all that runs there."""
    room = tempfile.mkdtemp(prefix='vektrid-edits-')
    try:
        shutil.copytree('crates', f'{room}/crates', copy_function=linked, ignore=shutil.ignore_patterns(*FOLDERS))
        for file in ['crates.txt', 'HANDLES']:
            if os.path.exists(file):
                shutil.copy(file, room)
        for edit in edits:
            os.makedirs(f'{room}/crates/{edit.crate}/must-fail', exist_ok=True)
            shutil.copy(edit.path, f'{room}/crates/{edit.crate}/must-fail/{edit.name}.edit')
        yield room
    except BaseException:
        end()
        raise
    finally:
        shutil.rmtree(room, ignore_errors=True)


def said_of(printed, in_ci=False):
    """What rt says of each edit that it tried, by its crate and name. A crate that is not proved itself stops all; `rt ci` tries no edits of one."""
    unproved = UNPROVED.search(printed)
    if unproved and not in_ci:
        raise Unproved(f'{unproved["crate"]} is not proved without an edit')
    return {(found['crate'], found['name']): found['says'] for found in SAID.finditer(printed)}


def judged(edit, says, whole):
    """Whether an edit is refused at its fact, and what is said of it, by what rt says. Rt tells the first line that the prover said, and cuts it; `whole`
    gives all of them, and is called where that line is at no fact or at another: the prover goes through the files by their names, so a fact that a
    later file has is refused behind it."""
    refused = REFUSED.fullmatch(says)
    if not refused:
        return False, 'NOT REFUSED' if says.startswith('NOT REFUSED') else f'not tried: {says or "rt says nothing of it"}'
    folder, only = f'crates/{edit.crate}', refused['only'] or ''
    fits, fact, said = edit.refused_at(refused['first'], folder)
    if not fits and not only:
        told = [edit.refused_at(line, folder) for line in whole(edit)]
        fits, fact, said = next((each for each in told if each[0]), told[0] if told else (False, fact, said))
    return fits and not only, f'{"" if fits and not only else "refused at another fact, or for another reason: "}{fact}: {said[:300]}{only}'


def all_said(room, edit):
    """The lines in which the prover refuses an edit, by a check of its own in a copy of the crates."""
    folder = f'{room}/crates/{edit.crate}'
    texts = edit.edited(folder)
    was = {file: open(f'{folder}/{file}', encoding='utf-8').read() for file in texts}
    try:
        for file, text in texts.items():
            open(f'{folder}/{file}', 'w', encoding='utf-8').write(text)
        printed = rt(folder, 1, 'check', '--jobs', '1')[1]
    finally:
        for file, text in was.items():
            open(f'{folder}/{file}', 'w', encoding='utf-8').write(text)
    return TOLD.findall(printed)
