"""What the tools here share that prove: the crates of this repository, the words of their checks, and their libraries.

Words, sums and the store of what the gate has proved on this machine are those of `rt` itself, whose Python is loaded as
a module: so a check here is given exactly what the gate would give it. One thing is changed. rt asks for the crates
below a crate, and some kits' rt for the checksum of their files, by walking every path through crates.txt, thousands of
times; here each answer is remembered. Some kits' rt has no such store: with these only what a tool here has built itself is
known again.

Nothing here writes into rt's store. Libraries stand in crates/NAME/out/rlib, where the gate leaves its own.
"""
import copy
import hashlib
import importlib.machinery
import importlib.util
import inspect
import json
import os
import shutil
import sys
import tempfile
import threading

TOP = os.path.dirname(os.path.dirname(os.path.abspath(__file__)))
# What one check takes of memory at the most, nearly always, in bytes.
EACH = 2_500_000_000


def load():
    """rt as a module, which remembers the crates below a crate and the checksum of all of them."""
    found = shutil.which("rt") or sys.exit("there is no rt, which proves: see README.md")
    loader = importlib.machinery.SourceFileLoader("rt_of_kit", os.path.realpath(found))
    sys.dont_write_bytecode = True
    tool = importlib.util.module_from_spec(importlib.util.spec_from_loader("rt_of_kit", loader))
    loader.exec_module(tool)
    walked, summed = tool.rtlib.Crate.below, tool.rtlib.Crate.stamp

    def below(crate):
        if "found_below" not in crate.__dict__:
            crate.found_below = walked(crate)
        return list(crate.found_below)

    def stamp(crate):
        if "found_stamp" not in crate.__dict__:
            crate.found_stamp = summed(crate)
        return crate.found_stamp

    tool.rtlib.Crate.below, tool.rtlib.Crate.stamp = below, stamp
    # a library holds what others can cite of it, and not its proofs, as under the gate
    tool.Crate.cuts_libraries = True
    tool.Crate.allowed = tool.handles_of(TOP)
    # what is started ends when this process ends; the first call has to come from the main thread
    tool.rtlib.guarded()
    return tool


def all_crates(tool):
    """The crates of crates.txt by name, lowest first."""
    if len(inspect.signature(tool.crates_of).parameters) == 1:
        found = tool.crates_of(TOP)
    else:
        # in this kit that call is the gate's own, and sets aside what was built
        tool.rtlib.Crate = tool.Crate
        found = sorted(tool.rtlib.crates_below(TOP), key=lambda it: len(it.below()))
    return {it.name: it for it in found}


def at_once(tool):
    """How many checks there can be at a time: one a processor, as far as the free memory goes."""
    return max(1, min(tool.processors(), tool.free() // EACH))


def words(tool, crate, flags, changed=(), room=None):
    """The words of a check of the crate. Crates below it that are changed are given as source, as they stand in `room`, and
    those between as they are: the libraries of these hold what they were before."""
    words = crate.words(flags, keeps=False)
    given = [it for it in crate.below() if changed and (it.name in changed or {dep.name for dep in it.below()} & {*changed})]
    if not given:
        return words
    names = {it.name for it in given}
    without = {word for it in given for word in (f"{it.name}={it.rlib}", f"dependency={os.path.dirname(it.rlib)}")}
    found = []
    for word in words:
        if word in without:
            # and the flag before it
            found.pop()
        else:
            found.append(word)
    externs = {f"{dep.name}={dep.rlib}" for it in given for dep in it.deps if dep.name not in names}
    externs |= {f"{name}={tool.KIT}/rlibs/{name}.rlib" for it in given for name in ("core", *it.of_kit)}
    for it in sorted(externs - {*found}):
        found += ["--extern", it]
    for it in given:
        uses = dict.fromkeys(["core", *it.of_kit, *[dep.name for dep in it.deps]])
        folder = f"{room}/{it.name}" if it.name in changed else it.folder
        found += ["--lib", f"{it.name}:{','.join(uses)}={folder}/src/lib.rt"]
    return found


def edited(path, folder):
    """What a wrong body changes, as texts by the names of the files, or why it cannot be applied.

    It is a file of lines 'file: PATH', 'old: TEXT' and 'new: TEXT'; each old text stands in that file exactly once."""
    name, old, texts, pairs = None, None, {}, 0
    with open(path, encoding="utf-8") as file:
        lines = file.read().split("\n")
    for line in lines:
        if line.startswith("file: "):
            name, old = line[6:].strip(), None
        elif line.startswith("old: "):
            old = line[5:]
        elif line.startswith("new:"):
            if name is None or old is None:
                return None, "a 'new:' line without a 'file:' and an 'old:' line before it"
            if name not in texts:
                if not os.path.isfile(os.path.join(folder, name)):
                    return None, f"there is no file {name}"
                with open(os.path.join(folder, name), encoding="utf-8") as file:
                    texts[name] = file.read()
            found = texts[name].count(old)
            if found != 1:
                return None, f"an 'old:' text stands in {name} {found} times, and not once"
            texts[name], old, pairs = texts[name].replace(old, line[4:].removeprefix(" ")), None, pairs + 1
    return (texts, None) if pairs else (None, "it changes nothing")


def only_of(path):
    """The functions whose proofs an edit breaks, by its lines '# only:'."""
    with open(path, encoding="utf-8") as file:
        return [line[7:].strip() for line in file if line.startswith("# only:")]


def write_only(path, functions):
    """Writes those lines anew, before the edit's first 'file:'."""
    with open(path, encoding="utf-8") as file:
        lines = [it for it in file if not it.startswith("# only:")]
    at = next((i for i, it in enumerate(lines) if it.startswith("file:")), len(lines))
    with open(path, "w", encoding="utf-8") as file:
        file.writelines([*lines[:at], *[f"# only: {it}\n" for it in functions], *lines[at:]])


def sources_sum(crate, own):
    """The checksum of the sources of a crate and of all below it; `own` remembers those of the crates met before."""
    for it in [crate, *crate.below()]:
        if it.name not in own:
            made = hashlib.sha256(repr((it.name, [dep.name for dep in it.deps], sorted(it.of_kit))).encode())
            for path in files_of(it.folder):
                with open(path, "rb") as file:
                    made.update(f"{os.path.relpath(path, it.folder)} {hashlib.sha256(file.read()).hexdigest()}\n".encode())
            own[it.name] = made.hexdigest()
    return hashlib.sha256(repr(sorted(own[it.name] for it in [crate, *crate.below()])).encode()).hexdigest()


def files_of(folder):
    """The files of a crate that checks read."""
    for part in ("src", "specs", "proofs"):
        for at, folders, names in os.walk(os.path.join(folder, part)):
            folders.sort()
            yield from (os.path.join(at, name) for name in sorted(names) if name.endswith((".rt", ".antt")))


class Unkept:
    """Stands in for rt's store where rt has none. A library is known by the sources of its crate and of all below, and by the
    names, sizes and times of its files; nothing can be taken from here."""

    def __init__(self, anew):
        self.anew, self.rlibs, self.own, self.lock = anew, {}, {}, threading.Lock()

    def key(self, crate):
        with self.lock:
            return sources_sum(crate, self.own)

    def is_built(self, crate):
        made = hashlib.sha256()
        for at, folders, names in os.walk(f"{crate.folder}/out/rlib"):
            folders.sort()
            for path in (os.path.join(at, it) for it in sorted(names) if it != "made.sum"):
                found = os.lstat(path)
                made.update(f"{os.path.relpath(path, crate.folder)} {found.st_size} {found.st_mtime_ns}\n".encode())
        self.rlibs[crate.name] = made.hexdigest()

    def is_whole(self, crate, tests, made):
        return made

    def made(self, crate, tests):
        return crate.is_program or os.path.exists(crate.rlib)

    def place(self, crate, tests, key):
        return os.devnull


class Libraries:
    """The libraries in crates/NAME/out/rlib: which are of the sources as they are, and how those come about that aren't."""

    def __init__(self, tool, crates, anew=False):
        self.tool, self.lock = tool, threading.Lock()
        self.kept = tool.Kept(crates, anew) if hasattr(tool, "Kept") else Unkept(anew)

    def note_of(self, crate):
        return f"{crate.folder}/out/rlib/made.sum"

    def is_current(self, crate):
        """Whether the library that stands there was made of these sources over the libraries that stand below it.

        That tells the note that this tool wrote, or the list of files in rt's store, where the gate made it."""
        key = self.kept.key(crate)
        self.kept.is_built(crate)
        stands = self.kept.rlibs[crate.name]
        if not self.kept.is_whole(crate, False, self.kept.made(crate, False)):
            return False
        if self.tool.rtlib.text_of(self.note_of(crate)) == f"{key} {stands}\n":
            return True
        try:
            with open(f"{self.kept.place(crate, False, key)}/made.json", encoding="utf-8") as file:
                files = [tuple(it) for it in json.load(file)["files"]]
        except (OSError, ValueError, KeyError):
            return False
        return hashlib.sha256(repr(files).encode()).hexdigest() == stands

    def take(self, crate):
        """Takes what the gate has kept on this machine of the same sources, and says whether there was any."""
        key = self.kept.key(crate)
        if self.kept.anew or not os.path.isdir(self.kept.place(crate, False, key)):
            return False
        self.clear(crate)
        return self.kept.give(crate, False, key) and self.note(crate, key)

    def prove(self, crate):
        """Proves the crate from nothing, over the libraries below it, and builds it. Answers nothing, or what was said."""
        key = self.kept.key(crate)
        self.clear(crate)
        crate = copy.copy(crate)
        with tempfile.TemporaryFile("w+", errors="replace") as crate.out:
            status = crate.ci(["--jobs", "1"], False)
            if status < 0:
                # killed, most likely for memory
                status = crate.ci(["--jobs", "1"], False)
            crate.out.seek(0)
            said = crate.out.read()
        if status:
            return said or f"status {status}"
        self.note(crate, key)
        return None

    def note(self, crate, key):
        """Notes of what a library was made."""
        self.kept.is_built(crate)
        if not crate.is_program:
            with open(self.note_of(crate), "w", encoding="utf-8") as file:
                file.write(f"{key} {self.kept.rlibs[crate.name]}\n")
        return True

    def clear(self, crate):
        """Removes what was made of a crate. (A file of a library is never written into: rt's store may hold it too.)"""
        out = f"{crate.folder}/out"
        os.makedirs(out, exist_ok=True)
        if crate.is_program:
            for name in os.listdir(out):
                if name.startswith(crate.name) or name == "sources.sum":
                    self.tool.clear(f"{out}/{name}")
        else:
            self.tool.clear(f"{out}/rlib")
