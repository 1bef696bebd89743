"""Faults of what the program writes to and reads from: a full device, pipes that are closed, files that are none."""
import os
import threading

READ, WRITE = 5, 6
# how many bytes a reader takes before it closes the pipe
TAKEN = (1, 100, 4096, 65536, 100_000)
# a run whose output does not fit into a pipe
LONG = b"step 200\npend KEY 40000\nstep 20\n"


def write_faults(commands, starter, told):
    """Each command's answer to a full device, to a closed output, and to a pipe that nobody reads."""
    words = [(ready.words, ready.command.word) for ready in commands]
    for each, name in words:
        reader, writer = os.pipe()
        os.close(reader)
        ends = [starter.ended(each, output="/dev/full"), starter.ended(each, output="closed"),
                starter.ended(each, output=writer)]
        os.close(writer)
        for ended, kind in zip(ends, ("a full device", "a closed output", "a closed pipe")):
            if ended.status != WRITE or ended.error:
                told.differs(f"{name} to {kind}: status {ended.status}, {ended.error[:80]!r}")
    told.says(f"output: {len(words)} commands to a full device, a closed output and a closed pipe: status {WRITE}")


def reads(reader, count, kept):
    """Reads so many bytes, and closes the pipe."""
    left = count
    while left and (piece := os.read(reader, left)):
        kept.append(piece)
        left -= len(piece)
    os.close(reader)


def closed_later(commands, starter, told):
    """A pipe that is closed after so many bytes of a long run: what was taken is a beginning of the output."""
    run = next((ready for ready in commands if ready.command.word == "run"), None)
    if not run:
        return
    words = ["run", run.words[1], starter.write("long", LONG)]
    whole = starter.ended(words)
    for count in TAKEN:
        (reader, writer), kept = os.pipe(), []
        thread = threading.Thread(target=reads, args=(reader, count, kept))
        thread.start()
        ended = starter.ended(words, output=writer)
        os.close(writer)
        thread.join()
        if ended.status != WRITE or not whole.output.startswith(b"".join(kept)):
            told.differs(f"a pipe that is closed after {count} bytes: status {ended.status}")
    told.says(f"output: a pipe closed after {', '.join(map(str, TAKEN))} of {len(whole.output)} bytes: "
              f"status {WRITE}, and a beginning was taken")


def read_faults(commands, starter, told):
    """Each text that is missing, or a folder, or a file whose reads fail: status 5, and nothing written."""
    tried = 0
    for ready in commands:
        for place in range(1, 1 + len(ready.command.files)):
            for wrong in (starter.path("none"), starter.folder.name, "/proc/self/mem"):
                if wrong == "/proc/self/mem" and not os.path.exists(wrong):
                    continue
                words = ready.words[:place] + [wrong] + ready.words[place + 1:]
                ended = starter.ended(words)
                tried += 1
                if ended.status != READ or ended.output or ended.error:
                    told.differs(f"{ready.command.word} with text {place} from {wrong!r}: status {ended.status}")
    told.says(f"input: {tried} texts that cannot be read: status {READ}, and nothing written")


def all_faults(commands, starter, told):
    """All faults of outputs and inputs."""
    write_faults(commands, starter, told)
    closed_later(commands, starter, told)
    read_faults(commands, starter, told)
