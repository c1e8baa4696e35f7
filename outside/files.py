"""Runs over files that fail or that something would be lost of: what is printed, what is said on the standard error, and what stands in the files
before and after."""
import os
import pathlib
import resource
import shutil
import signal
import subprocess
import threading
import osc
import server
import shelf

# An answer that needs no block, and half a second of silence.
STREAM = osc.frame(osc.message("/sync", 1)) + osc.frame(osc.bundle(1 << 31))
SILENT = osc.frame(osc.bundle(1 << 31))  # no answer
BAD = STREAM + b"\0\0\0\1x"
BAD_LINE = f"bad stream: packet 2, byte {len(STREAM)}, fault P13"
OLD = b"what was there before"
WAVE = shelf.FILES["notes.wav"]
# A piece that reads the recording that it is about to write.
READING = osc.frame(osc.message("/b_allocRead", 0, "take")) + osc.frame(osc.message("/b_query", 0)) + osc.frame(osc.bundle(1 << 31))
OUTSIDER = 65534  # a user who has no file

HELD = {"sound": OLD, "replies": OLD, "out": OLD}
NO_FILE = "No such file or directory"
TWICE = "the words name this file twice"


def rendered(stream):
    """What the model leaves in SOUND and in REPLIES."""
    _, _, sound, replies = server.run([], stream)
    return {"sound": sound, "replies": replies}


# What happens: the words, the files before, the line, the status, what is said, and the files that are others afterwards.
REFUSED = [
    ("a bad stream is rendered", "render in sound replies", {"in": BAD}, BAD_LINE, 3, []),
    ("a bad stream is reported", "plan in out", {"in": BAD}, BAD_LINE, 3, []),
    ("a bad stream is dumped", "dump in out", {"in": BAD}, BAD_LINE, 3, []),
    ("a bad text is scored", "score in out", {"in": b"/a\nx\n"}, "bad score: line 2", 16, []),
    ("no commands", "render none sound replies", {}, "cannot open", 9, ["none: " + NO_FILE]),
    ("no commands of a plan", "plan none out", {}, "cannot open", 9, ["none: " + NO_FILE]),
    ("no text", "score none out", {}, "cannot open", 9, ["none: " + NO_FILE]),
    ("no folder of the sound", "render in none/sound replies", {"in": STREAM}, "cannot open", 9, ["none/sound: " + NO_FILE]),
    ("no folder of the replies", "render in sound none/replies", {"in": STREAM}, "cannot open", 9, ["none/replies: " + NO_FILE]),
    ("a folder of commands", "render . sound replies", {}, "read fault", 6, [".: Is a directory"]),
    ("a folder of text", "score . out", {}, "read fault", 6, [".: Is a directory"]),
    ("a folder for the sound", "render in . replies", {"in": STREAM}, "cannot open", 9, [".: Is a directory"]),
    ("a folder for a report", "plan in .", {"in": STREAM}, "cannot open", 9, [".: Is a directory"]),
    ("the commands twice", "render in in replies", {"in": STREAM}, "cannot open", 9, ["in: " + TWICE]),
    ("the commands for the replies", "render in sound in", {"in": STREAM}, "cannot open", 9, ["in: " + TWICE]),
    ("the sound twice", "render in sound sound", {"in": STREAM}, "cannot open", 9, ["sound: " + TWICE]),
    ("the sound by another path", "render in sound ./sound", {"in": STREAM}, "cannot open", 9, ["./sound: " + TWICE]),
    ("the commands by another path", "render in ./in replies", {"in": STREAM}, "cannot open", 9, ["./in: " + TWICE]),
    ("a text over itself", "score in ./in", {"in": b"/a\n"}, "cannot open", 9, ["./in: " + TWICE]),
    ("commands over themselves", "dump in ./in", {"in": STREAM}, "cannot open", 9, ["./in: " + TWICE]),
    ("a report over the commands", "plan in ./in", {"in": STREAM}, "cannot open", 9, ["./in: " + TWICE]),
    ("words that are refused", "render rate=1 in sound replies", {"in": STREAM}, "bad word 1", 2, []),
]


def with_short_files():
    """No file may have more than 1,000 bytes."""
    signal.signal(signal.SIGXFSZ, signal.SIG_IGN)
    resource.setrlimit(resource.RLIMIT_FSIZE, (1000, 1000))


def ended(binary, words, folder, **how):
    done = subprocess.run([*binary, *words.split()], cwd=folder, capture_output=True, timeout=300, **how)
    return done.stdout.decode().rstrip("\n"), done.returncode, done.stderr.decode()


def held(folder):
    return {path.name: path.read_bytes() for path in folder.iterdir() if path.is_file()}


class Tries:
    """Runs a program, each time in a folder of its own, and notes what is other than it should be."""

    def __init__(self, binary, folder):
        self.binary, self.root, self.count, self.found = binary, pathlib.Path(folder), 0, []

    def folder(self, files):
        self.count += 1
        folder = self.root / f"files {self.count}"
        folder.mkdir()
        for name, content in files.items():
            (folder / name).write_bytes(content)
        return folder

    def expect(self, name, came, wanted):
        if came != wanted:
            self.found.append(f"files, {name}: wanted {str(wanted)[:300]}, program {str(came)[:300]}")

    def run(self, name, words, files, line, status, said, changed=None, **how):
        """A run over files: how it ends, what is said, and what they hold then."""
        folder = self.folder(files)
        came = ended(self.binary, words, folder, **how)
        self.expect(name, came[:2], (line, status))
        for piece in said:
            self.expect(f"{name}, standard error {came[2]!r}", f"snova: {piece}" in came[2], True)
        self.expect(f"{name}, the files", held(folder), {**files, **(changed or {})})

    def refused(self):
        for name, words, files, line, status, said in REFUSED:
            self.run(name, words, {**HELD, **files}, line, status, said)

    def written(self):
        """What was there before is gone where a run was done, also where no byte came."""
        done = ("done 375 blocks", 0, [])
        self.run("a rendering", "render in sound replies", {**HELD, "in": STREAM}, *done, rendered(STREAM))
        self.run("no replies", "render in sound replies", {**HELD, "in": SILENT}, *done, rendered(SILENT))
        self.run("no packets are scored", "score in out", {**HELD, "in": b""}, "done 0 packets", 0, [], {"out": b""})
        self.run("no packets are dumped", "dump in out", {**HELD, "in": b""}, "done 0 packets", 0, [], {"out": b""})
        *_, sound, replies = shelf.model([], READING, {"take": WAVE})
        self.run("a piece that reads what it writes", "render in take replies", {"in": READING, "take": WAVE, "replies": OLD}, *done, {"take": sound, "replies": replies})
        self.run("the same that is bad", "render in take replies", {"in": READING + b"\0", "take": WAVE, "replies": OLD},
                 f"bad stream: packet 3, byte {len(READING)}, fault P14", 3, [])

    def full(self):
        """A disk on which nothing fits, and a file that may not grow."""
        full = "/dev/full: No space left on device"
        sound = rendered(STREAM)["sound"]
        self.run("a full disk for the sound", "render in /dev/full replies", {**HELD, "in": STREAM}, "sound fault", 7, [full])
        self.run("a full disk for the replies", "render in sound /dev/full", {**HELD, "in": STREAM}, "reply fault", 8, [full], {"sound": sound})
        self.run("a full disk for a report", "plan in /dev/full", {**HELD, "in": STREAM}, "sound fault", 7, [full])
        self.run("a full disk for a text", "dump in /dev/full", {**HELD, "in": STREAM}, "out fault", 7, [full])
        self.run("a file that may not grow", "render in sound replies", {**HELD, "in": STREAM}, "sound fault", 7, ["sound: File too large"],
                 {"sound": sound[:1000]}, preexec_fn=with_short_files)

    def piped(self, name, reader, line, status):
        """The sound goes into a pipe, which a command reads."""
        folder = self.folder({**HELD, "in": STREAM})
        os.mkfifo(folder / "pipe")
        with open(folder / "read", "wb") as read:
            other = subprocess.Popen([*reader, folder / "pipe"], stdout=read)
            came = ended(self.binary, "render in pipe replies", folder)
            other.wait(60)
        self.expect(name, came[:2], (line, status))
        return came[2], (folder / "read").read_bytes()

    def pipes(self):
        said, read = self.piped("a pipe", ["cat"], "done 375 blocks", 0)
        self.expect("a pipe, what was read", read, rendered(STREAM)["sound"])
        said, _ = self.piped("a reader that leaves", ["head", "-c", "1"], "sound fault", 7)
        self.expect("a reader that leaves, what is said", "snova: pipe: Broken pipe" in said, True)

    def growing(self):
        """Commands to which packets are added while they are read: they are played as far as they were there."""
        folder = self.folder({"in": STREAM})
        is_over = threading.Event()

        def grow():
            with open(folder / "in", "ab", buffering=0) as file:
                for _ in range(20000):
                    if is_over.is_set():
                        return
                    file.write(osc.frame(osc.message("/sync", 2)))

        writer = threading.Thread(target=grow)
        writer.start()
        came = [ended(self.binary, "render in sound replies", folder)[:2] for _ in range(5)]
        is_over.set()
        writer.join()
        self.expect("commands that grow", set(came), {("done 375 blocks", 0)})

    def rights(self):
        """Files that another user may not read, write or look for. Only a superuser can try it."""
        if os.geteuid() != 0:
            return
        program = self.root / "program"
        shutil.copy(self.binary[-1], program)
        program.chmod(0o755)
        denied = "Permission denied"
        for name, words, closed, line, status, said in [
            ("commands without rights", "render in sound replies", "in", "cannot open", 9, "in: " + denied),
            ("a sound without rights", "render in sound replies", "sound", "cannot open", 9, "sound: " + denied),
            ("replies without rights", "render in sound replies", "replies", "cannot open", 9, "replies: " + denied),
            ("a folder without rights", "render in sound replies", "closed", "shelf fault", 14, "closed/a.wav: " + denied),
        ]:
            stream = osc.frame(osc.message("/b_allocRead", 0, "closed/a.wav")) + STREAM
            folder = self.folder({"in": stream, "sound": OLD, "replies": OLD})
            (folder / "closed").mkdir()
            for path in [folder, *folder.iterdir()]:
                os.chown(path, OUTSIDER, OUTSIDER)
            (folder / closed).chmod(0)
            came = ended([str(program)], words, folder, user=OUTSIDER, group=OUTSIDER)
            self.expect(name, came[:2], (line, status))
            self.expect(f"{name}, standard error {came[2]!r}", f"snova: {said}" in came[2], True)
            self.expect(f"{name}, the files", held(folder), {"in": stream, "sound": OLD, "replies": OLD})


def differences(binary, folder):
    """Lines for each run that does not end as it should, and how many runs there were."""
    os.chmod(folder, 0o755)
    tries = Tries(binary, folder)
    for part in (tries.refused, tries.written, tries.full, tries.pipes, tries.growing, tries.rights):
        part()
    return tries.found, tries.count
