#!/usr/bin/env python3
"""stubs.py: one crate as it stands over stubs of all crates below it, for those who change a crate before its libraries are proved.

  tools/stubs.py check NAME [WORD..]   checks the crate (--only FUNCTION, --jobs N)
  tools/stubs.py prove NAME            proves it, which finds contracts that no caller can meet as well
  tools/stubs.py edits NAME [FILE..]   tries edits against it
  tools/stubs.py plant NAME [WORD..]   rt plant over stubs
  tools/stubs.py below NAME            proves the stubs of all below it, several side by side

A stub has the crate's contracts, definitions and laws, and bodies that never return: each calls a foreign function that ensures what
can't be. So it is proved in a minute or so, whatever its crate takes, and a crate can be checked before those below it are
proved, or over contracts whose bodies are drafts. Nothing of this counts for the gate, which refuses foreign code.

Runs at the top of a checkout. The copies lie in out/stubs, what was proved in out/stubs/kept or in the folder that KEPT names,
which several checkouts can share.
"""
import os
import re
import shutil
import subprocess
import sys

sys.dont_write_bytecode = True
ROOT = os.getcwd()
HERE = os.path.dirname(os.path.abspath(__file__))
HEAD = re.compile(r"^(\s*)(?:pub(?:\([^)]*\))? )?(?:(?:const|unsafe|ghost) )*fn (\w+)")
BODY = "unsafe { crate::stub::never() }; unreachable!()"
STUB = 'unsafe extern "C" {\n    pub(crate) fn never()\n        ensures { ⊥ };\n}\n'


def end_of_head(lines, at, indent):
    """The last line of a function's head, and how its body begins there."""
    first = at
    while True:
        line = lines[at]
        if line in (f"{indent}{{", f"{indent}{{}}") or at > first and line.startswith(f"{indent}{{ "):
            return at, "own line"
        ends = at == first or line.startswith(f"{indent})")
        if ends and line.rstrip().endswith(" {"):
            return at, "same line"
        if ends and re.search(r" \{.*\}$", line):
            return at, "whole"
        if line.rstrip().endswith(";"):
            return at, "none"
        at += 1


def stub_text(text, names):
    """The text with the bodies of all functions that have a contract of their own or of a trait."""
    lines, out, at, of_trait = text.split("\n"), [], 0, False
    while at < len(lines):
        line = lines[at]
        if re.match(r"impl\b", line):
            last = at
            while not lines[last].rstrip().endswith(("{", "{}")):
                last += 1
            of_trait = " for " in " ".join(lines[at : last + 1]).replace("for<", "")
        elif line == "}":
            of_trait = False
        head = HEAD.match(line)
        if not head:
            out.append(line)
            at += 1
            continue
        indent, name = head.groups()
        last, how = end_of_head(lines, at, indent)
        end = last
        while how in ("own line", "same line") and not lines[last].rstrip().endswith("}") and lines[end] != f"{indent}}}":
            end += 1
        has_contract = any(it.strip().startswith("ensures") for it in lines[at : last + 1])
        if how == "none" or not (has_contract or of_trait and indent):
            out += lines[at : end + 1]
        else:
            names.add(name)
            while out and out[-1].strip().startswith(("#[cycle", "#[tactic", "#[inline")):
                out.pop()
            opening = lines[last] if how == "same line" else re.sub(r" \{.*\}$", " {", lines[last]) if how == "whole" else f"{indent}{{"
            out += [*lines[at:last], opening, f"{indent}    {BODY}", f"{indent}}}"]
        at = end + 1
    return "\n".join(out)


def stub(folder):
    """Makes a crate's copy a stub."""
    names, texts = set(), {}
    for at, _, files in os.walk(f"{folder}/src"):
        for file in (f"{at}/{it}" for it in sorted(files) if it.endswith(".rt")):
            with open(file, encoding="utf-8") as it:
                texts[file] = stub_text(it.read(), names)
    if not names or f"{folder}/src/main.rt" in texts:
        return
    top = f"{folder}/src/lib.rt"
    lines = texts[top].split("\n")
    first = next((at for at, it in enumerate(lines) if re.match(r"(pub )?mod ", it)), len(lines))
    lines.insert(first - 1 if first and lines[first - 1].startswith("#[") else first, "mod stub;")
    texts[top] = "\n".join(lines)
    texts[f"{folder}/src/stub.rt"] = STUB
    os.makedirs(f"{folder}/c", exist_ok=True)
    texts[f"{folder}/c/never.c"] = "void never(void) {}\n"
    for file, text in texts.items():
        with open(file, "w", encoding="utf-8") as it:
            it.write(text)
    for at, folders, _ in os.walk(f"{folder}/proofs", topdown=False):
        for it in folders:
            if it in names or it.startswith("+"):
                shutil.rmtree(f"{at}/{it}", ignore_errors=True)
    for it in "edits", "must-fail":
        shutil.rmtree(f"{folder}/{it}", ignore_errors=True)


def libraries():
    found = {}
    with open(f"{ROOT}/crates.txt", encoding="utf-8") as it:
        for line in it:
            name, colon, rest = line.split("#")[0].partition(":")
            if colon:
                found[name.strip()] = rest.split()
    return {name: [it for it in rest if it in found] for name, rest in found.items()}


def below(found, name, seen):
    for it in found[name]:
        if it not in seen:
            seen.add(it)
            below(found, it, seen)
    return seen


def copy_over(name, low, room):
    """The checkout without what was made, and with stubs below the crate. What a check of the copy made there stays."""
    os.makedirs(f"{room}/crates", exist_ok=True)
    for it in sorted({name, *low}):
        for part in os.listdir(f"{room}/crates/{it}") if os.path.isdir(f"{room}/crates/{it}") else ():
            if part != "out":
                shutil.rmtree(f"{room}/crates/{it}/{part}")
        for part in os.listdir(f"{ROOT}/crates/{it}"):
            source = f"{ROOT}/crates/{it}/{part}"
            if os.path.isdir(source) and part != "out":
                shutil.copytree(source, f"{room}/crates/{it}/{part}")
    with open(f"{room}/crates.txt", "w", encoding="utf-8") as to:
        to.writelines(f"{it}: {' '.join(libraries_of_kit(it))}\n" for it in in_order(name, low))
    shutil.copy(f"{ROOT}/HANDLES", room)
    for it in low:
        stub(f"{room}/crates/{it}")


def libraries_of_kit(name):
    """All that crates.txt names for a crate, those of the kit too."""
    with open(f"{ROOT}/crates.txt", encoding="utf-8") as it:
        return next(line.partition(":")[2].split() for line in it if line.startswith(f"{name}:"))


def in_order(name, low):
    with open(f"{ROOT}/crates.txt", encoding="utf-8") as it:
        return [line.partition(":")[0] for line in it if line.partition(":")[0] in {name, *low}]


def kept(room, *words):
    """tools/kept.py in the copy, where foreign code may be."""
    code = f"import sys; sys.argv = {['kept.py', *words]!r}; sys.path.insert(0, {HERE!r}); import kept; kept.rt.Crate.may_call_c = True; kept.rt.Crate.miscounted = lambda self, line: None; sys.exit(kept.main(sys.argv[1:]))"
    env = {**os.environ, "RT_ALLOW_C": "1", "KEPT": os.environ.get("KEPT") or f"{ROOT}/out/stubs/kept"}
    return subprocess.run([sys.executable, "-B", "-c", code], cwd=room, env=env).returncode


def main(words):
    if words[:1] not in (["check"], ["prove"], ["edits"], ["plant"], ["below"]) or len(words) < 2 or words[1] not in libraries():
        print(__doc__)
        return 2
    verb, name, rest = words[0], words[1], words[2:]
    found, room = libraries(), f"{ROOT}/out/stubs/{words[1]}"
    low = sorted(below(found, name, set()))
    copy_over(name, low, room)
    status = kept(room, "prove", *found[name]) if found[name] else 0
    return status or verb != "below" and kept(room, verb, name, *map(os.path.abspath, rest) if verb == "edits" else rest)


if __name__ == "__main__":
    sys.exit(main(sys.argv[1:]))
