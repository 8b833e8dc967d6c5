#!/usr/bin/env python3
"""kept.py: the gate's own code over what earlier runs proved, for those who change a crate.

  tools/kept.py prove [NAME..]      proves these crates and all below them (no name: every crate), and keeps what is proved
  tools/kept.py gate                as rt ci, but for crates, tests and edits whose texts and libraries are as kept
  tools/kept.py check NAME [WORD..] one crate over kept libraries (--only FUNCTION, --fix-imports, --jobs N)
  tools/kept.py edits NAME [FILE..] tries edits against the crate: all of its must-fail/ and edits/ where none is named
  tools/kept.py plant NAME [WORD..] rt plant with these words over kept libraries
  tools/kept.py rt NAME WORD..      rt with these words (tidy) in the crate's folder over kept libraries

Runs at the top of a checkout. What is kept lies in the folder that KEPT names, or in out/kept, each crate under a sum of
all that it is made from, so that several checkouts can share it. The verdict is that of rt ci alone, which keeps nothing.
"""
import copy
import functools
import hashlib
import importlib.machinery
import importlib.util
import os
import shutil
import subprocess
import sys
import tempfile
import threading
import time

sys.dont_write_bytecode = True
ROOT = os.getcwd()
KEPT = os.environ.get("KEPT") or f"{ROOT}/out/kept"


def load(name, path):
    loader = importlib.machinery.SourceFileLoader(name, path)
    made = importlib.util.module_from_spec(importlib.util.spec_from_loader(name, loader))
    sys.modules[name] = made
    loader.exec_module(made)
    return made


rt = load("rtmain", os.path.realpath(shutil.which("rt")))
rtlib = rt.rtlib


def once(method):
    """Has a method without arguments answer from what it said first."""
    name = f"_once_{method.__name__}"

    @functools.wraps(method)
    def asked(self):
        if name not in self.__dict__:
            self.__dict__[name] = method(self)
        return self.__dict__[name]

    return asked


def own_sum(crate):
    """A sum of the crate's own files, and of the kit."""
    found = hashlib.sha256(repr((crate.is_program, crate.has_c, sorted(crate.of_kit))).encode())
    with open(f"{rtlib.KIT}/WHAT", "rb") as it:
        found.update(it.read())
    for file in rtlib.files_of(crate.folder):
        with open(file, "rb") as it:
            found.update(repr((file.replace(crate.folder, ""), it.read())).encode())
    return found.hexdigest()


@once
def key(crate):
    """A sum of all that the crate is made from. A library that another one reaches counts no more than that one."""
    reached = {id(it) for dep in crate.deps for it in dep.below()}
    tops = sorted(key(dep) for dep in crate.deps if id(dep) not in reached)
    return hashlib.sha256(repr((own_sum(crate), tops)).encode()).hexdigest()[:24]


def link_tree(source, to):
    shutil.rmtree(to, ignore_errors=True)
    shutil.copytree(source, to, copy_function=os.link)


def put(source, to):
    """Puts a kept file or folder where it is looked for."""
    if os.path.isdir(source):
        return link_tree(source, to)
    if os.path.lexists(to):
        os.remove(to)
    shutil.copy2(source, to)


def made_by(crate, tests):
    """What a proof leaves in the crate's out/."""
    if tests:
        return [f"{crate.name}_tests"]
    return [crate.name, f"{crate.name}.by-rattle"] if crate.is_program else ["rlib"]


def keep(crate, tests, kept):
    with tempfile.TemporaryDirectory(dir=KEPT) as room:
        for name in made_by(crate, tests):
            if os.path.exists(f"{crate.folder}/out/{name}"):
                put(f"{crate.folder}/out/{name}", f"{room}/{name}")
        try:
            os.rename(room, kept)
        except OSError:
            return
        os.mkdir(room)


def ci(crate, flags, tests, proves=rt.Crate.ci):
    """Takes what is kept of the crate, or proves it and keeps that."""
    kept = f"{KEPT}/{key(crate)}{'.tests' if tests else ''}"
    os.makedirs(f"{crate.folder}/out", exist_ok=True)
    if os.path.isdir(kept):
        for name in os.listdir(kept):
            put(f"{kept}/{name}", f"{crate.folder}/out/{name}")
        print(f"rt: {crate.name}{' (tests)' if tests else ''} is kept", file=crate.out)
        return 0
    status = proves(crate, flags, tests)
    if status == 0:
        keep(crate, tests, kept)
    return status


def must_fail(crate, edit, flags, kept=None, tries=rt.must_fail):
    """What was said of an edit that is kept as refused, or the edit tried."""
    with open(edit, "rb") as it:
        found = hashlib.sha256(it.read()).hexdigest()[:16]
    file = f"{KEPT}/edits/{key(crate)}.{found}"
    if os.path.isfile(file):
        return True, f"{rtlib.text_of(file)} (kept)"
    is_refused, text = tries(crate, edit, flags, kept)
    if is_refused:
        os.makedirs(os.path.dirname(file), exist_ok=True)
        with open(file, "w", encoding="utf-8") as it:
            it.write(text)
    return is_refused, text


def must_fail_all(crate, edits, flags):
    with tempfile.TemporaryDirectory(prefix="rt-edits-") as room:
        return [must_fail(crate, it, flags, room) for it in edits]


def take_over():
    os.makedirs(KEPT, exist_ok=True)
    rtlib.Crate.below = once(rtlib.Crate.below)
    rtlib.Crate.stamp = key
    rt.Crate.ci, rt.must_fail, rt.must_fail_all = ci, must_fail, must_fail_all


def crates():
    rtlib.stop, rtlib.Crate, rt.Crate.cuts_libraries = rt.stop, rt.Crate, True
    rtlib.guarded()
    rt.Crate.allowed = rt.handles_of(ROOT)
    return sorted(rtlib.crates_below(ROOT), key=lambda it: len(it.below()))


def prove(names):
    """Proves crates side by side, lowest first, and says of each that wasn't kept how long it took."""
    every, printing = crates(), threading.Lock()
    tops = [it for it in every if it.name in names or not names]

    def work(crate, given, jobs):
        if any(not given[it.name, "proof"] for it in crate.below()):
            return False
        crate, began = copy.copy(crate), time.time()
        with tempfile.TemporaryFile("a+", errors="replace") as crate.out:
            status = crate.ci(["--jobs", str(jobs)], False)
            crate.out.seek(0)
            said = crate.out.read()
        with printing:
            if status:
                print("\n".join(it for it in said.split("\n") if not it.startswith("statements ")))
            if status or " is kept\n" not in said:
                print(f"{time.strftime('%H:%M:%S')} {crate.name} {'NOT PROVED' if status else 'proved'} in {time.time() - began:.0f} s", flush=True)
        return not status

    tasks = {}
    for it in every:
        if it in tops or any(it in top.below() for top in tops):
            waits = [(below.name, "proof") for below in it.below()]
            tasks[it.name, "proof"] = waits, it.count(rb"\n"), rt.need(it), functools.partial(work, it)
    given = rt.in_lanes(tasks)
    lost = [name for (name, _), is_proved in given.items() if not is_proved]
    print(f"{len(given) - len(lost)} proved, {len(lost)} not: {' '.join(lost[:8])}")
    return 1 if lost else 0


def one(name):
    """The crate of this name, with the kept libraries below it where they are looked for."""
    crate = next((it for it in crates() if it.name == name), None) or rt.stop(f"no crate {name}")
    for it in crate.below():
        kept, mark = f"{KEPT}/{key(it)}/rlib", f"{it.folder}/out/rlib/stamp"
        if not os.path.isdir(kept):
            rt.stop(f"{it.name} isn't kept: tools/kept.py prove {it.name}")
        if rtlib.text_of(mark) != key(it):
            link_tree(kept, f"{it.folder}/out/rlib")
            with open(mark, "w", encoding="utf-8") as to:
                to.write(key(it))
    return crate


def check(name, words):
    crate = one(name)
    jobs = [] if "--jobs" in words else ["--jobs", "2"]
    whole = [rtlib.RATTLE, "check", *crate.words([*jobs, *words], keeps=False), "--incremental", "out/incremental"]
    return subprocess.run([*rtlib.guarded(), *whole], cwd=crate.folder, stdin=subprocess.DEVNULL).returncode


def edits(name, files):
    crate = one(name)
    for at in ("must-fail", "edits") if not files else ():
        folder = f"{crate.folder}/{at}"
        files = files + [f"{folder}/{it}" for it in sorted(os.listdir(folder)) if it.endswith(".edit")] if os.path.isdir(folder) else files
    tried = must_fail_all(crate, [os.path.abspath(it) for it in files], ["--jobs", "1"])
    print("\n".join(text for _, text in tried))
    return 0 if all(is_refused for is_refused, _ in tried) else 1


def plant(name, words):
    """rt plant has the code of rt a second time, which looks for its own sums."""
    folder = one(name).folder
    plants = load("rtplant", f"{rtlib.KIT}/bin/rt-plant")
    plants.rt.Crate.below = once(plants.rt.Crate.below)
    plants.rt.Crate.stamp = key
    os.chdir(folder)
    return plants.main(*words)


def by_rt(name, words):
    os.chdir(one(name).folder)
    return rt.main(words)


def main(words):
    take_over()
    if words[:1] == ["prove"]:
        return prove(words[1:])
    if words == ["gate"]:
        return rt.ci()
    for verb, call in ("check", check), ("edits", edits), ("plant", plant), ("rt", by_rt):
        if words[:1] == [verb] and len(words) > 1:
            return call(words[1], words[2:])
    print(__doc__)
    return 2


if __name__ == "__main__":
    sys.exit(main(sys.argv[1:]))
