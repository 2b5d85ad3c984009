"""What an edit holds: one wrong program or several, each of another function.

    # a comment
    # by: proofs/File.antt          where definitions alone are altered: the one file that must fail, and no other
    wrong: LABEL of FUNCTION        the wrong program's name, and the function whose proof must fail: as the source has it, without
                                    the crate, `parts::after`; of a constant the functions that name it, `row_at, row_of`; where
                                    definitions alone are altered there is no such line, and the name is the file's
    file: src/..                    what is altered: pairs of an 'old:' and a 'new:' line
    old: ..                         a text that stands once there ('each:' in its place, of twins: wherever it stands)
    new: ..
    and: ..                         of twins: a line behind the new one

Wrong programs of different functions are tried together: a function is proved by its own text and by what others promise, so that
what is wrong with one of them is no matter of another's proof. `refused` holds the log of such a try to each of them.
"""
import collections, glob, os, re, shutil, subprocess, sys, tempfile, threading

sys.path.insert(0, os.path.join(os.path.dirname(os.path.abspath(__file__)), '..'))
from source import code  # noqa: E402

Wrong = collections.namedtuple('Wrong', 'label functions pairs')
HEAD = re.compile(r'^wrong: (\w+) of ([\w:]+(?:, [\w:]+)*)$')
ERROR = re.compile(r'^(\S+?):\d+:\d+: error: (.*(?:\n +has no field .*)?)$', re.M)
NO_PROOF = re.compile(r'^fn (\w+)::([\w:]+): no proof: expected .*?; (.*)$', re.M)
PROOF_OF_A_FUNCTION = re.compile(r'^proofs/(.+)/(?:Proof|Answers|Invariants)\.antt$')
FALLS_WITH_ANOTHER = re.compile(r'was not admitted|which (?:is|are) not proved')
SHOWS_NOTHING = re.compile(FALLS_WITH_ANOTHER.pattern + r'|that can be named from here|has no field|is not in scope')


def read(path):
    """The wrong programs of an edit, in order."""
    found = [Wrong(os.path.basename(path)[:-5], [], [])]
    name = old = key = None
    with open(path, encoding='utf-8') as lines:
        for line in lines.read().split('\n'):
            head = HEAD.match(line)
            word, _, rest = line.partition(':')
            rest = rest[1:] if rest.startswith(' ') else rest
            if head:
                found.append(Wrong(head.group(1), head.group(2).split(', '), []))
            elif word == 'file':
                name = rest.strip()
            elif word in ('old', 'each'):
                old, key = rest, word
            elif word == 'new':
                found[-1].pairs.append((name, old, key, rest))
            elif word == 'and':
                name, old, key, new = found[-1].pairs.pop()
                found[-1].pairs.append((name, old, key, new + '\n' + rest))
    return [wrong for wrong in found if wrong.functions or wrong.pairs]


def by(path):
    """The file that an edit of definitions names as the one that must fail, or None."""
    with open(path, encoding='utf-8') as f:
        named = re.search(r'^# by: (\S+)$', f.read(), re.M)
    return named and named.group(1)


def paths(crate='*'):
    """The edits of a crate, or of all: those that the gate tries, then the others; twins apart."""
    gate = sorted(glob.glob('crates/%s/must-fail/*.edit' % crate))
    others = sorted(glob.glob('tests/edits/%s/*.edit' % crate))
    return gate + [path for path in others if not path.startswith('tests/edits/twins/')]


def crate_of(path):
    parts = path.split('/')
    return parts[1] if parts[0] == 'crates' else parts[2]


def alters_code(crate, wrong):
    """Whether it alters more than definitions and contracts."""
    for name, old, _, new in wrong.pairs:
        path = 'crates/%s/%s' % (crate, name)
        if name.startswith('src/') and os.path.exists(path):
            with open(path, encoding='utf-8') as f:
                text = f.read()
            if code(text) != code(text.replace(old, new)):
                return True
    return False


def faults_in(log, place, left_out=SHOWS_NOTHING):
    """What fails by itself: functions, and files that are no function's proof; place is where the edited crate stood."""
    functions, files = set(), set()
    for path, said in ERROR.findall(log):
        path = path.split(place)[-1].removeprefix('./')
        if left_out.search(said):
            continue
        function = PROOF_OF_A_FUNCTION.match(path)
        if function:
            functions.add(function.group(1).replace('/', '::'))
        elif not path.startswith('src/'):
            files.add(path)
    for _, function, said in NO_PROOF.findall(log):
        if 'did not prove' in said:
            functions.add(function)
    return functions, files


class Copy:
    """A copy of the crates in a temporary folder, in which edits are tried one after another."""

    def __init__(self, top='.'):
        self.room = tempfile.mkdtemp(prefix='edits-')
        shutil.copytree(os.path.join(top, 'crates'), os.path.join(self.room, 'crates'))
        shutil.copy(os.path.join(top, 'crates.txt'), self.room)
        subprocess.run(['git', 'init', '-q', self.room], check=True)

    def check(self, crate, altered):
        """What `rt check` says of the crate with these texts, by their path from the top, in the place of the tree's own."""
        was = {}
        for path, text in altered.items():
            with open(os.path.join(self.room, path), encoding='utf-8') as f:
                was[path] = f.read()
            with open(os.path.join(self.room, path), 'w', encoding='utf-8') as f:
                f.write(text)
        run = subprocess.run(['rt', 'check'], cwd=os.path.join(self.room, 'crates', crate), stdin=subprocess.DEVNULL,
                             stdout=subprocess.PIPE, stderr=subprocess.STDOUT, text=True, encoding='utf-8', errors='replace')
        for path, text in was.items():
            with open(os.path.join(self.room, path), 'w', encoding='utf-8') as f:
                f.write(text)
        return run.returncode, run.stdout

    def away(self):
        shutil.rmtree(self.room, ignore_errors=True)


def altered_by(pairs, place):
    """The texts that these pairs make, by their path from the top; place is put before each file's name."""
    texts = {}
    for name, old, key, new in pairs:
        path = place + name
        if path not in texts:
            with open(path, encoding='utf-8') as f:
                texts[path] = f.read()
        if old not in texts[path] or key == 'old' and texts[path].count(old) > 1:
            raise ValueError("'%s' stands %d times in %s" % (old, texts[path].count(old), path))
        texts[path] = texts[path].replace(old, new)
    return texts


def held(copy, tried):
    """What is wrong with how an edit is refused; tried is its crate, its wrong programs and the file that it names, or None."""
    crate, programs, only = tried
    place = 'crates/%s/' % crate
    try:
        texts = altered_by([pair for wrong in programs for pair in wrong.pairs], place)
    except ValueError as error:
        return [str(error)]
    status, said = copy.check(crate, texts)
    if status == 0:
        return ['NOT REFUSED: %s is still proved' % crate]
    functions, files = faults_in(said, place)
    meant = {function: wrong.label for wrong in programs for function in wrong.functions}
    if not meant:
        if only and files | functions != {only}:
            return ['%s fails, and not %s alone' % (', '.join(sorted(files | functions)) or 'nothing', only)]
        return [] if functions or files else ['nothing in its log is untrue']
    found = ['%s is not refused by the proof of %s' % (meant[f], f) for f in sorted(meant) if f not in functions]
    found += ['%s is refused too, and is not wrong' % f for f in sorted(functions - set(meant))]
    if all(alters_code(crate, wrong) for wrong in programs):
        found += ['%s fails, and no contract was altered' % f for f in sorted(files)]
    return found


def all_held(tries):
    """Tries them, by what they are called; status 1 where one is not refused for what is wrong with it."""
    wrong = 0
    for name, faults in zip(tries, in_copies(list(tries.values()), held)):
        for fault in ['was not tried'] if faults is None else faults:
            print('%s: %s' % (name, fault))
            wrong += 1
    programs = sum(len(tried[1]) for tried in tries.values())
    print('%d wrong programs and definitions in %d edits; %d faults' % (programs, len(tries), wrong))
    return 1 if wrong else 0


def in_copies(tasks, work, copies=2):
    """work(copy, task) for each of the tasks, so many at a time, each in a copy of its own; what it gave, in the order of the tasks."""
    given, waiting, lock = {}, list(enumerate(tasks)), threading.Lock()

    def go():
        copy = Copy()
        try:
            while True:
                with lock:
                    if not waiting:
                        return
                    at, task = waiting.pop(0)
                given[at] = work(copy, task)
        finally:
            copy.away()

    threads = [threading.Thread(target=go) for _ in range(min(copies, len(tasks)))]
    for thread in threads:
        thread.start()
    for thread in threads:
        thread.join()
    return [given.get(at) for at in range(len(tasks))]
