"""Calls the kit's rattle on a crate over the libraries that `rt ci` left in crates/*/out/rlib. They have no stamp, so that `rt check`, `rt lib` and
`rt must-fail` would prove each of them anew first, which takes minutes; what is called here takes them as they are."""
import glob
import os
import shutil
import subprocess

ROOT = os.path.dirname(os.path.dirname(os.path.abspath(__file__)))
KIT = os.path.dirname(os.path.dirname(os.path.realpath(shutil.which("rt") or "rt")))
RATTLE = f"{KIT}/bin/rattle"
PARTS = ("src", "specs", "proofs")


def listed():
    """Returns the crates of crates.txt, each with whether it is a static library, and with the crates and the libraries of the kit that it names."""
    found = {}
    with open(f"{ROOT}/crates.txt", encoding="utf-8") as it:
        for line in it:
            words, _, named = line.partition("#")[0].partition(":")
            if words.strip():
                name, *kind = words.split()
                found[name] = ("staticlib" in kind, named.split())
    return found


CRATES = listed()


def below(name):
    """Returns the repository's libraries below a crate, each after those that it names."""
    found = []
    for it in CRATES[name][1]:
        if it in CRATES:
            found += [one for one in [*below(it), it] if one not in found]
    return found


def folder(name):
    return f"{ROOT}/crates/{name}"


def rlib(name):
    return f"{folder(name)}/out/rlib/{name}.rlib" if name in CRATES else f"{KIT}/rlibs/{name}.rlib"


def words(name):
    """Returns the words of rattle's command line that say what the crate is and what it rests on, as rt gives them."""
    is_static, named = CRATES[name]
    top = "main" if os.path.isfile(f"{folder(name)}/src/main.rt") else "lib"
    said = ["--crate-name", name, f"src/{top}.rt", "-L", f"dependency={KIT}/rlibs"]
    for it in ["std", *named]:
        said += ["--extern", f"{it}={rlib(it)}"]
    for it in below(name):
        said += ["-L", f"dependency={os.path.dirname(rlib(it))}"]
    said += ["--antt-project", f"{KIT}/rattle/logic/antt-project.json", "--logic-built", f"{KIT}/logic_built"]
    said += ["--jobs", "1", "--links", f"{name}=", *(["--crate-type", "staticlib"] if is_static else [])]
    return said


def rattle(at, *said):
    """Runs rattle in a folder, and returns its status and what it said."""
    how = {"cwd": at, "stdin": subprocess.DEVNULL, "stdout": subprocess.PIPE, "stderr": subprocess.STDOUT, "errors": "replace"}
    ran = subprocess.run([RATTLE, *said], **how)
    return ran.returncode, ran.stdout


def settle(names):
    """Sees that the libraries below the crates are of one build. After `rt ci` in a fresh clone they are. A checkout in which `rt check` ran before got
    its own back, with a stamp, beside those of `rt ci`: there rt builds what is not its own."""
    wanted = []
    for name in names:
        wanted += [it for it in below(name) if it not in wanted]
    has_own = any(glob.iglob(f"{ROOT}/crates/*/out/rlib/stamp"))
    for name in wanted:
        if has_own or not os.path.isdir(rlib(name)):
            ran = subprocess.run(["rt", "lib"], cwd=folder(name), stdin=subprocess.DEVNULL, stdout=subprocess.PIPE, stderr=subprocess.STDOUT, errors="replace")
            if ran.returncode:
                raise SystemExit(f"rt lib in crates/{name}:\n{ran.stdout}")
