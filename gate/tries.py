#!/usr/bin/env python3
"""Tries the must-fail edits and keeps what each check said, for gate/edits.sh: gate/tries.py ROOT CACHE [CRATE..]

`rt ci` tries each file of must-fail/ too, and says of each no more than that it was refused; which facts were missing, its check says. So each
file is applied once more, to a copy of the crates outside the checkout, and `rt check` run there: as many side by side as there are processors,
each in a copy of its own. What it said is kept in CACHE, under the checksum of all that it stands on (the kit, the crate with those below it, the
edit), and nothing is tried twice. It prints a line a file: CRATE/NAME and the log; without a log where the edit cannot be applied, and why."""
import hashlib
import os
import queue
import re
import shutil
import subprocess
import sys
import tempfile
import threading

PARTS = ("src", "specs", "proofs")


def crates_of(root):
    """Returns each crate of crates.txt with those that it stands on."""
    found = {}
    with open(f"{root}/crates.txt", encoding="utf-8") as it:
        for line in it:
            name, _, below = line.partition("#")[0].partition(":")
            if name.strip():
                found[name.split()[0]] = below.split()
    return found


def read(path):
    with open(path, "rb") as it:
        return it.read()


def files_of(folder):
    for part in PARTS:
        for at, folders, names in os.walk(f"{folder}/{part}"):
            folders.sort()
            for name in sorted(names):
                yield os.path.relpath(f"{at}/{name}", folder)


def sum_of(root, crates, name, known):
    """Returns the checksum of a crate and of those below it."""
    if name not in known:
        sum = hashlib.sha256(name.encode())
        for path in files_of(f"{root}/crates/{name}"):
            sum.update(repr((path, read(f"{root}/crates/{name}/{path}"))).encode())
        for below in crates[name]:
            sum.update(sum_of(root, crates, below, known).encode())
        known[name] = sum.hexdigest()
    return known[name]


def edited(edit, folder):
    """Returns the texts of the files that the edit changes, as `rt` applies it, or why it cannot be applied."""
    path, old, texts = None, None, {}
    for line in read(edit).decode().split("\n"):
        if line.startswith("file: "):
            path = line[len("file: "):].strip()
        elif line.startswith("old: "):
            old = line[len("old: "):]
        elif line.startswith("new:"):
            new = line[len("new:"):]
            new = new[1:] if new.startswith(" ") else new
            if path is None or old is None:
                return None, "a 'new:' line before a 'file:' or an 'old:' line"
            if path not in texts:
                if not os.path.isfile(f"{folder}/{path}"):
                    return None, f"there is no file {path}"
                texts[path] = read(f"{folder}/{path}").decode()
            found = texts[path].count(old)
            if found != 1:
                return None, f"the text is in {path} {found} times: {old.strip()}"
            texts[path], old = texts[path].replace(old, new), None
    return (texts, None) if texts else (None, "no pair of 'old:' and 'new:'")


def copy_crates(root, crates, to, parts):
    os.makedirs(f"{to}/crates")
    shutil.copyfile(f"{root}/crates.txt", f"{to}/crates.txt")
    for name in crates:
        for part in parts:
            if os.path.isdir(f"{root}/crates/{name}/{part}"):
                shutil.copytree(f"{root}/crates/{name}/{part}", f"{to}/crates/{name}/{part}")


def tried(root, lane, name, texts):
    """Checks the crate in the lane's copy with these texts in the place of its own, and returns what the check said."""
    folder = f"{lane}/crates/{name}"
    was = {path: read(f"{folder}/{path}") for path in texts}
    try:
        for path, text in texts.items():
            with open(f"{folder}/{path}", "w", encoding="utf-8") as it:
                it.write(text)
        how = {"stdin": subprocess.DEVNULL, "stdout": subprocess.PIPE, "stderr": subprocess.STDOUT, "text": True, "errors": "replace"}
        for _ in range(2):
            ran = subprocess.run(["rt", "check", "--jobs", "1"], cwd=folder, **how)
            # (killed, most likely for memory: once more)
            if ran.returncode >= 0:
                break
        return ran.stdout.replace(lane, root)
    finally:
        for path, text in was.items():
            with open(f"{folder}/{path}", "wb") as it:
                it.write(text)


def main(root, cache, *only):
    with tempfile.TemporaryDirectory(prefix="oxbreathe-tries-") as room:
        try_all(os.path.realpath(root), cache, room, only)


def try_all(given, cache, room, only):
    # (what is tried and what it is kept under is this copy, whatever is written meanwhile)
    root = f"{room}/crates-as-given"
    crates, known, work, told = crates_of(given), {}, queue.Queue(), {}
    copy_crates(given, crates, root, (*PARTS, "must-fail"))
    kit = subprocess.run(["rt", "version"], stdout=subprocess.PIPE, text=True, check=True).stdout
    os.makedirs(cache, exist_ok=True)
    count = 0
    for name in sorted(only or crates):
        folder = f"{root}/crates/{name}"
        at = f"{folder}/must-fail"
        for file in sorted(os.listdir(at)) if os.path.isdir(at) else ():
            if not file.endswith(".edit"):
                continue
            what = f"{name}/{file[:-len('.edit')]}"
            texts, why = edited(f"{at}/{file}", folder)
            if why:
                told[what] = f": {why}"
                continue
            sum = hashlib.sha256(repr((kit, sum_of(root, crates, name, known), sorted(texts.items()))).encode()).hexdigest()
            log = f"{cache}/{name}-{file[:-len('.edit')]}-{sum[:32]}.log"
            told[what] = f" {log}"
            if not os.path.isfile(log):
                work.put((name, texts, log))
                count += 1

    def lane(to):
        made = False
        while True:
            try:
                name, texts, log = work.get_nowait()
            except queue.Empty:
                return
            if not made:
                copy_crates(root, crates, to, PARTS)
                made = True
            said = tried(given, to, name, texts)
            # a check that came to no verdict is not kept
            if not re.search(r"(?m)^logic=(not-)?proved|error\[", said):
                log = f"{log}.broken"
            with open(f"{log}.{os.getpid()}", "w", encoding="utf-8") as it:
                it.write(said)
            os.replace(f"{log}.{os.getpid()}", log)

    lanes = min(int(os.environ.get("RT_JOBS") or len(os.sched_getaffinity(0))), count)
    threads = [threading.Thread(target=lane, args=(f"{room}/{number}",)) for number in range(lanes)]
    for it in threads:
        it.start()
    for it in threads:
        it.join()
    for what, log in sorted(told.items()):
        print(what + log, flush=True)
    print(f"tries: {count} of {len(told)} files were tried in this run", file=sys.stderr)


if __name__ == "__main__":
    main(*sys.argv[1:])
