"""What tests/must_fail.test and tests/refused.test share: crates checked in a copy, where something in them is wrong."""
import pathlib
import re
import shutil
import subprocess

ROOT = pathlib.Path(__file__).resolve().parent.parent
# The file, the clause and the text of an error of a check; a goal of a function that is left open; the verdict on a function, behind its goals.
SAID = re.compile(r"^(?:\./)?(\S+?):\d+:\d+: error: (?:`([^`\s]+)`: )?(.*)|^note: \S+:\d+:\d+: (it is not proved that .*?) ?\(`(\S+)`\)|^fn \w+?::(\S+): ", re.M)
# An error that follows from another one.
FOLLOWS = re.compile(r"was not admitted|was rejected, were not checked")
# One that tells of a name that an edit took away, and of no law.
NAMES = re.compile(r"can(not)? be named|is not in scope|has no field|is no name")
BUILT = pathlib.Path("out", "rlib")
# The libraries that each crate of crates.txt uses, and its row there.
NEEDS, ROWS = {}, {}
for _row in (ROOT / "crates.txt").read_text().splitlines():
    _name, _colon, _deps = _row.split("#")[0].partition(":")
    if _colon:
        NEEDS[_name.split()[0]], ROWS[_name.split()[0]] = _deps.split(), _row


def below(crate):
    """A crate and all that it depends on, from bottom to top."""
    found = {}
    for dep in NEEDS.get(crate, []):
        found |= below(dep)
    return found | ({crate: None} if crate in NEEDS else {})


def copy_of(copy, crates, built=()):
    """Copies crates, with what they depend on, and of the crates named as built what `rt ci` or `rt lib` built here. A check there begins with what `rt` kept of
    the same crates in other copies on this machine."""
    listed = {name: None for crate in crates for name in below(crate)}
    (copy / "crates").mkdir(parents=True)
    (copy / "crates.txt").write_text("".join(ROWS[name] + "\n" for name in ROWS if name in listed))
    for name in listed:
        shutil.copytree(ROOT / "crates" / name, copy / "crates" / name, ignore=shutil.ignore_patterns("out"))
        if name in built and (ROOT / "crates" / name / BUILT).exists():
            shutil.copytree(ROOT / "crates" / name / BUILT, copy / "crates" / name / BUILT)


def rt(folder, *words):
    """The status of a command of rt, and what it printed."""
    ran = subprocess.run(["rt", *words], cwd=folder, stdin=subprocess.DEVNULL, stdout=subprocess.PIPE, stderr=subprocess.STDOUT, text=True)
    return ran.returncode, ran.stdout


def errors_of(said):
    """The errors of a check, as it printed them: (file, clause, text). In the place of a file stands a function whose goal no file answers."""
    found, open_goals = [], []
    for file, clause, text, why, goal, function in SAID.findall(said):
        if file:
            found.append((file, clause, text))
        elif goal:
            open_goals.append((goal, why))
        else:
            found += [(function, *it) for it in open_goals]
            open_goals = []
    return found
