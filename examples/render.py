#!/usr/bin/env python3
"""Renders pieces of this directory to out/NAME.wav and out/NAME.replies, and prints the replies.

    python3 examples/render.py [--unproved] [NAME..]      some pieces, or all

If `snova` isn't built yet, the kit's `rt ci` proves and builds it first, which takes about an hour on four
processors; it says so first. With --unproved the kit's `rt try` builds it once for all these pieces, which takes a
minute or two, proves nothing and keeps no program. It exits with 1 if a piece isn't rendered to its end, or if a
command of it is refused.
"""
import subprocess
import sys

import make
import replies
import unproved

BUILT = unproved.CRATE / "out" / "snova"
TAKES = "the proof takes about an hour on four processors"


def is_built():
    """Whether the proved program stands there, after its proof if it wasn't there yet."""
    if BUILT.exists():
        return True
    print(f"snova isn't built yet. `rt ci` proves and builds it now: {TAKES}; --unproved takes two minutes", flush=True)
    return unproved.rt("ci", cwd=make.HERE.parent).returncode == 0


def run_built(words):
    """The line and the status of a call of the proved program, which runs where pieces find the files in sounds/."""
    done = subprocess.run([str(BUILT), *words], cwd=make.HERE, capture_output=True, text=True)
    return done.stdout.rstrip("\n"), done.returncode


def run(calls, is_proved):
    """The line and the status of each call of `snova`, as it ends."""
    if is_proved:
        if not is_built():
            raise SystemExit("`rt ci` failed, so there is no proved snova")
        return map(run_built, calls)
    print(f"snova is built without a proof now, in two minutes. `rt ci` proves and builds it: {TAKES}", flush=True)
    return unproved.run(calls)


def chosen(every, usage):
    """The pieces that the words name, or every one, and whether the proved program renders them."""
    names = [word for word in sys.argv[1:] if word != "--unproved"]
    if any(name.startswith("-") for name in names):
        raise SystemExit(usage.strip())
    return names or every, "--unproved" not in sys.argv[1:]


def is_good(name, line, status):
    """Prints how a piece was rendered, and says whether it was, with no command refused."""
    print(f"{name}: {line}", flush=True)
    return status == 0 and replies.printed(make.HERE / "out" / f"{name}.replies") == 0


def main():
    names, is_proved = chosen(make.all_names(), __doc__)
    files = [[make.write(name).with_suffix(end) for end in (".osc", ".wav", ".replies")] for name in names]
    ended = run([["render", *map(str, paths)] for paths in files], is_proved)
    return 0 if all([is_good(name, *end) for name, end in zip(names, ended)]) else 1


if __name__ == "__main__":
    sys.exit(main())
