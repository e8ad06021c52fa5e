"""What the tests of arraymap share: how the programs are built and run, and what is compared."""
import os
import pathlib
import subprocess
import sys
import tempfile

ROOT = pathlib.Path(__file__).resolve().parent.parent
GRAPHS = ROOT / "tests/graphs"
MARKER = ROOT / "examples/marker"
LIBRARY = pathlib.Path(os.environ.get("ARRAYMAP_LIB_DIR", ROOT / "target/staticlib"))
ENV = {**os.environ, "CARGO_TARGET_DIR": str(ROOT / "target/cargo"), "ARRAYMAP_LIB_DIR": str(LIBRARY)}
BIN = ROOT / "target/cargo/release"
CARGO = ["--offline", "--release", "--quiet", "--manifest-path"]

NAMES = "cell pins table area d0 d1 d2 d3\n"
RANGED = NAMES[:-1] + " l0 l1 l2 l3\n"
CELLS = NAMES + "inv 1 0001 1 10 0 0 0\nnand2 2 0007 2 20 20 0 0\n"
RANGES = RANGED + "inv 1 0001 1 10 0 0 0 5 0 0 0\nnand2 2 0007 2 20 20 0 0 10 15 0 0\n"
GRAPH = "aag 3 2 0 1 1\n2\n4\n6\n6 2 4\n"
NETLIST = """.model top
.inputs p1 p2
.outputs o0
.gate inv A=m3 O=p3
.gate nand2 A=p1 B=p2 O=m3
.names p3 o0
1 1
.end
# gates 2 area 3 arrival 30
"""
PAIRED = NETLIST.replace(".gate inv A=m3 O=p3\n.gate nand2 A=p1 B=p2 O=m3\n", ".gate nand2 A=p1 B=p2 O=sp3\n.gate inv A=sp3 O=p3\n")

failed, tried = [], 0


def check(what, good, told=""):
    global tried
    tried += 1
    if not good:
        failed.append(what)
        print(f"WRONG: {what}\n{told}")


def run(*words, program="arraymap", **more):
    more = {"capture_output": True, "text": True, "timeout": 300, **more}
    return subprocess.run([BIN / program, *words], **more)


def is_(what, ran, status, out="", err=""):
    told = f"status {ran.returncode}, not {status}\n--- out\n{ran.stdout}--- err\n{ran.stderr}--- due\n{out}--- and\n{err}"
    check(what, (ran.returncode, ran.stdout, ran.stderr) == (status, out, err), told)


def put(path, text):
    path.write_bytes(text if isinstance(text, bytes) else text.encode())
    return path


def build():
    """Builds the programs, over the archive that is there or is proved first."""
    if not (LIBRARY / "libarraymap.a").exists():
        subprocess.run([ROOT / "tools/prove", "arraymap"], check=True, stdout=subprocess.DEVNULL, stderr=subprocess.DEVNULL)
    subprocess.run(["cargo", "build", *CARGO, ROOT / "cli/Cargo.toml"], env=ENV, check=True)


def all_of(title, parts):
    """Runs each part in a folder of its own, and ends the test."""
    for part in parts:
        with tempfile.TemporaryDirectory() as folder:
            os.chmod(folder, 0o755)
            part(pathlib.Path(folder))
    print(f"{title}: {tried} tried, {len(failed)} wrong")
    sys.exit(1 if failed else 0)
