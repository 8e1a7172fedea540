"""Runs what a script of checks/ tries, and says what passed and failed: the last line is 'N passed, M failed'."""
import os
import re
import shutil
import subprocess
import sys
import tempfile
from pathlib import Path


def words_given(are_right=lambda words: not words):
    """The script's words. `--help` prints the script's docs; words that aren't right do so on standard error, with status 2."""
    words, docs = sys.argv[1:], sys.modules["__main__"].__doc__.strip()
    if words in (["--help"], ["-h"]):
        print(docs)
        sys.exit(0)
    if not are_right(words):
        print(docs, file=sys.stderr)
        sys.exit(2)
    return words


def has_options(words):
    return any(it.startswith("-") for it in words)


def run(*words, **more):
    """What a program prints on both outputs, and its status."""
    how = {"stdin": subprocess.DEVNULL, "stdout": subprocess.PIPE, "stderr": subprocess.STDOUT, "text": True, "errors": "replace"}
    ran = subprocess.run([str(it) for it in words], **{**how, **more})
    return ran.stdout, ran.returncode


def report(name, holds, said=""):
    """Prints what was tried, and with a failure what was said. Returns how many passed and failed."""
    print(f"{name}: {'passed' if holds else 'FAILED'}" + (f"\n{said.strip()[-2000:]}" if said and not holds else ""), flush=True)
    return int(bool(holds)), int(not holds)


def report_faults(faults, count=1):
    """Prints the faults of so many things that were tried. Returns how many passed and failed."""
    for it in faults:
        print(it, flush=True)
    return max(count - len(faults), 0), len(faults)


def summary(found):
    """Prints how many passed and failed, of results that are true or false or count both. Returns the script's status.
    Nothing at all is a fault too."""
    counts = [it if isinstance(it, tuple) else (int(bool(it)), int(not it)) for it in found]
    passed, failed = sum(it for it, _ in counts), sum(it for _, it in counts)
    print(f"{passed} passed, {failed} failed")
    return int(failed > 0 or passed == 0)


def run_tries(tries, *tools, lacking=(), are_right=lambda words: not words):
    """Reads the script's words, runs its tries, which get a new folder, and exits with the status. Where a tool isn't here, or
    something else is lacking, nothing is tried, which is a fault under CI alone."""
    words_given(are_right)
    if lacking := [*lacking, *(it for it in tools if not shutil.which(it))]:
        print(f"nothing was tried, for want of {', '.join(lacking)}")
        failed = int(bool(os.environ.get("CI")))
        print(f"0 passed, {failed} failed")
        sys.exit(failed)
    with tempfile.TemporaryDirectory(prefix=f"checks-{Path(sys.argv[0]).name}-") as room:
        sys.exit(summary(tries(Path(room))))


def path_of(room, *tools):
    """A path to these commands alone."""
    path = tempfile.mkdtemp(dir=room)
    for it in tools:
        os.symlink(shutil.which(it), f"{path}/{it}")
    return path


def lowest_rust(package):
    """The lowest version of Rust that a package states, and the folder of its rustc, or None: of the folder that the
    variable LOWEST_RUST names, of /usr/bin, and of rustup's."""
    version = re.search(r'^rust-version = "([\d.]+)"', (package / "Cargo.toml").read_text(encoding="utf-8"), re.M)[1]
    home = Path(os.environ.get("RUSTUP_HOME", Path.home() / ".rustup"))
    given = [Path(os.environ["LOWEST_RUST"])] if "LOWEST_RUST" in os.environ else []
    for folder in (*given, Path("/usr/bin"), *home.glob("toolchains/*/bin")):
        if (folder / "rustc").exists() and re.match(rf"rustc {version}[. ]", run(folder / "rustc", "--version")[0]):
            return version, folder
    return version, None
