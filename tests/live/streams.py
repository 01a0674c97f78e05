"""Scripts played over real streams, as tests/live/streams.sh says: what is written and the status, at each end that a
source or a sink can come to. What must come is the transcript of a golden script, or a front of it."""
import os, pathlib, resource, select, subprocess, sys, tempfile, time

program, top = sys.argv[1], pathlib.Path(sys.argv[2])
scripts = top / "tests" / "scripts"
failed = 0


def fail(what):
    global failed
    failed += 1
    print("live streams: FAILED:", what)


def same(what, got, wanted):
    if got != wanted:
        fail(f"{what}: wanted {wanted!r}"[:300] + f", got {got!r}"[:300])


def golden(name):
    """The words, the script, the transcript and the status of a golden script."""
    words = scripts / f"{name}.words"
    status = scripts / f"{name}.status"
    return (
        words.read_text().split() if words.exists() else ["replay", "patch"],
        (scripts / f"{name}.script").read_bytes(),
        (scripts / f"{name}.transcript").read_bytes(),
        int(status.read_text()) if status.exists() else 0,
    )


def start(words, source=subprocess.PIPE, sink=subprocess.PIPE, limit=None):
    def limited():
        if limit:
            resource.setrlimit(resource.RLIMIT_AS, (limit, limit))

    return subprocess.Popen(
        [program, *words], stdin=source, stdout=sink, stderr=subprocess.DEVNULL, preexec_fn=limited
    )


def play(words, script, **more):
    """What is written of a script that is given at once, and the status."""
    child = start(words, **more)
    try:
        written, _ = child.communicate(script, timeout=60)
    except subprocess.TimeoutExpired:
        child.kill()
        written, _ = child.communicate()
        fail("a script of %d bytes doesn't end" % len(script))
    return written, child.returncode


def read_record(stream, seconds=10):
    """The next record of a transcript: its link and its frame; None where none comes in time."""
    line = b""
    end = time.monotonic() + seconds
    while not line.endswith(b"\n"):
        if not select.select([stream], [], [], max(0, end - time.monotonic()))[0]:
            return None
        byte = os.read(stream.fileno(), 1)
        if not byte:
            return None
        line += byte
    link, length = map(int, line.split())
    frame = b""
    while len(frame) < length + 1:
        if not select.select([stream], [], [], max(0, end - time.monotonic()))[0]:
            return None
        frame += os.read(stream.fileno(), length + 1 - len(frame))
    return link, frame[:-1]


def byte_by_byte():
    for name in ("views-1", "sheet-1", "lines-odd-1"):
        words, script, transcript, status = golden(name)
        child = start(words, sink=(out := tempfile.TemporaryFile()))
        try:
            for at in range(len(script)):
                child.stdin.write(script[at : at + 1])
                child.stdin.flush()
            child.stdin.close()
        except BrokenPipeError:  # the program ended before the last byte
            pass
        same(f"{name} byte by byte, status", child.wait(60), status)
        out.seek(0)
        same(f"{name} byte by byte", out.read() == transcript, True)


def line_by_line():
    """What a line makes has left before the next line is read, however long the source then waits."""
    words, _, _, _ = golden("views-1")
    child = start(words)
    child.stdin.write(b"open 1 d rw\nsettle\n")
    child.stdin.flush()
    if read_record(child.stdout) is None:
        fail("the first record doesn't come before the next line")
    if read_record(child.stdout) is None:
        fail("the second record doesn't come before the next line")
    child.stdin.write(b"say 1 nonsense\nsettle\n")
    child.stdin.flush()
    record = read_record(child.stdout)
    same("an answer before the next line", record and record[1].split(b" ")[0], b"error:")
    child.stdin.close()
    same("a source that ends without a line end", child.wait(60), 7)


def refused_streams():
    words, script, _, _ = golden("views-1")
    folder = os.open("/", os.O_RDONLY)
    child = start(words, source=folder)
    written, _ = child.communicate(timeout=60)
    same("a folder as the source", (written, child.returncode), (b"", 4))
    os.close(folder)
    if os.path.exists("/dev/full"):
        with open("/dev/full", "wb") as full:
            same("a full sink", play(words, script, sink=full)[1], 5)
            same("a full sink at a fault line", play(words, b"nonsense\n", sink=full)[1], 5)
            same("a full sink and nothing to write", play(words, b"end\n", sink=full)[1], 0)
    ready, hung = os.pipe()
    os.close(ready)
    same("a sink whose reader hung up", play(words, script, sink=hung)[1], 5)
    os.close(hung)
    same("no words", play([], b"")[1], 2)
    same("an empty source", play(words, b""), (b"", 7))


def a_reader_that_hangs_up():
    """It reads a part of a long transcript, and hangs up: status 5, and no byte but the transcript's was written."""
    words, _, _, _ = golden("views-1")
    click = b"say 1 mouse type=buttondown x=10 y=10\nsettle\n"
    child = start(words)
    child.stdin.write(b"open 1 d rw\n")
    child.stdin.write(b"say 1 clientzoom tilepixelwidth=256 tilepixelheight=256 tiletwipwidth=3840 tiletwipheight=3840\n")
    child.stdin.write(b"say 1 clientvisiblearea x=0 y=0 width=3840 height=3840\nsettle\n")
    child.stdin.flush()
    same("a part of what is written is read", len(child.stdout.read(1000)), 1000)
    child.stdout.close()
    try:
        for _ in range(100):
            child.stdin.write(click)
            child.stdin.flush()
        child.stdin.close()
    except BrokenPipeError:
        pass
    same("a reader that hangs up", child.wait(60), 5)


def little_memory():
    """With less and less memory a script whose tiles take 16 MiB ends with 0 or 6, and what is written then is a front
    of its transcript. Below 4 MiB the program itself isn't loaded."""
    script = (
        b"open 1 d rw\n"
        b"say 1 clientzoom tilepixelwidth=256 tilepixelheight=256 tiletwipwidth=240 tiletwipheight=240\n"
        b"say 1 clientvisiblearea x=0 y=0 width=1920 height=1920\nsettle\nend\n"
    )
    words = ["replay", "patch"]
    transcript, status = play(words, script)
    same("a script of large tiles", status, 0)
    same("its tiles are in the transcript", len(transcript) > 64 * 4 * 256 * 256, True)
    seen = []
    for limit in range(4, 129, 4):
        written, status = play(words, script, limit=limit << 20)
        seen.append(status)
        same(f"the status at {limit} MiB", status in (0, 6), True)
        same(f"at {limit} MiB a front is written", transcript.startswith(written), True)
        same(f"at {limit} MiB all of it exactly with status 0", len(written) == len(transcript), status == 0)
    same("too little memory at first, enough at last", (seen[0], seen[-1]), (6, 0))


for step in (byte_by_byte, line_by_line, refused_streams, a_reader_that_hangs_up, little_memory):
    try:
        step()
    except Exception as error:
        fail(f"{step.__name__}: {error!r}")
print("live streams:", "FAILED" if failed else "passed")
sys.exit(1 if failed else 0)
