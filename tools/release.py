#!/usr/bin/env python3
"""Packs the program that `rt ci` built, with the bridge, the examples, the pages and the licences, into an archive.

    python3 tools/release.py FOLDER                 FOLDER/snova-VERSION-x86_64-linux.tar.gz
    python3 tools/release.py --unproved FOLDER      the same, named -unproved, whatever the program says of a proof

The files that git knows are packed as they were committed, and the program where `rt ci` leaves it, so that all pages
hold in the archive too. RELEASE says what it was made of. Each run gives the same bytes. Nothing is packed if the
program doesn't name the logic in which it was proved, if the bytes that it renders aren't those of examples/sums.txt,
or if a file isn't as it was committed.
"""
import gzip
import hashlib
import io
import re
import subprocess
import sys
import tarfile
from pathlib import Path

ROOT = Path(__file__).resolve().parent.parent
PROGRAM = "crates/snova/out/snova"
PACKED = ["README.md", "CHANGELOG.md", "LICENSE-APACHE", "LICENSE-MIT", "bench/README.md", "bench/speedup.png",
          "bridge", "crates/*/README.md", "docs", "examples", "outside"]


def said(*words):
    """What a command prints, from the top of the repository."""
    return subprocess.run(words, cwd=ROOT, check=True, capture_output=True, text=True).stdout.strip()


def logic_of(program):
    """The logic in which a program says that it was proved, or None."""
    found = re.search(rb"rattle logic=([0-9a-f]{64})", program)
    return found and found[1].decode()


def reason_against(is_proved):
    """Why nothing is packed, or None."""
    path = ROOT / PROGRAM
    if not path.exists():
        return f"{PROGRAM} isn't there: `rt ci` proves and builds it"
    if is_proved and not logic_of(path.read_bytes()):
        return f"{PROGRAM} names no logic in which it was proved; --unproved packs it all the same"
    if changed := said("git", "status", "--porcelain", "--", *PACKED):
        return f"these files aren't as they were committed:\n{changed}"
    if subprocess.run([sys.executable, ROOT / "examples/check.py"]).returncode:
        return f"{PROGRAM} renders other bytes than those of examples/sums.txt"
    return None


def release_text(version, program):
    logic = logic_of(program)
    proof = f"proved in the logic {logic}" if logic else "NOT PROVED"
    commit, digest = said("git", "rev-parse", "HEAD"), hashlib.sha256(program).hexdigest()
    return f"{version}\ncommit {commit}\n{proof}\n{digest}  {PROGRAM}\n".encode()


def contents(version):
    """Each file of the archive: its path, its bytes, and whether it can be run."""
    program = (ROOT / PROGRAM).read_bytes()
    yield PROGRAM, program, True
    yield "RELEASE", release_text(version, program), False
    for path in said("git", "ls-files", "--", *PACKED).splitlines():
        yield path, (ROOT / path).read_bytes(), bool((ROOT / path).stat().st_mode & 0o100)


def archive(name, version):
    """The bytes of the archive, in which nothing depends on who makes it, where and when."""
    packed, time = io.BytesIO(), int(said("git", "log", "-1", "--format=%ct"))
    with tarfile.open(fileobj=packed, mode="w", format=tarfile.USTAR_FORMAT) as tar:
        for path, content, is_program in sorted(contents(version)):
            entry = tarfile.TarInfo(f"{name}/{path}")
            entry.size, entry.mtime, entry.mode = len(content), time, 0o755 if is_program else 0o644
            tar.addfile(entry, io.BytesIO(content))
    return gzip.compress(packed.getvalue(), mtime=0)


def main():
    is_proved = "--unproved" not in sys.argv[1:]
    folders = [word for word in sys.argv[1:] if word != "--unproved"]
    if len(folders) != 1 or folders[0].startswith("-"):
        raise SystemExit(__doc__.strip())
    if reason := reason_against(is_proved):
        raise SystemExit(f"not packed: {reason}")
    version = said(str(ROOT / PROGRAM), "--version")
    name = version.replace(" ", "-") + "-x86_64-linux" + ("" if is_proved else "-unproved")
    target = Path(folders[0]) / f"{name}.tar.gz"
    data = archive(name, version)
    target.parent.mkdir(parents=True, exist_ok=True)
    target.write_bytes(data)
    print(f"{hashlib.sha256(data).hexdigest()}  {target}")


if __name__ == "__main__":
    main()
