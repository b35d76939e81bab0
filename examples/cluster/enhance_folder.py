#!/usr/bin/python3
"""Enhances the frames of a folder on a Dask cluster, with the house setting.

    enhance_folder.py SCHEDULER IN OUT [--plane]

SCHEDULER is the address of a Dask scheduler, such as tcp://10.0.0.1:8786. Every file of the folder IN and the folders
in it that is named .ppm or .pnm and is not hidden is a task of its own; the workers read IN and write OUT, so both are
on a file system that all machines share, under the same path, and all of them have the module mlhe. A file keeps its
name and its folder: IN/left/f1.ppm becomes OUT/left/f1.ppm. With --plane the plane, which the guarantee is of and on
which spots are to be matched, is written beside it, as the PGM file OUT/left/f1.pgm.

Before any work all targets are known: no two are the same, none is an input, and their folders are there or made. Each
file is written to a folder .mlhe-* in OUT and renamed into place, so that a target is whole or as it was before. A task
whose worker dies is run again on another, and one that fails is tried three times. One line for each file says what
became of it, and the last one `N enhanced, M refused, K failed`. The exit status is 0 if all were enhanced, 1 if any
was refused or failed or the run was interrupted, 2 if nothing was begun.
"""

import argparse
import asyncio
import collections
import concurrent.futures
import contextlib
import os
import shutil
import sys
import uuid

SUFFIXES = ".ppm", ".pnm"
ATTEMPTS = 3
# More bytes than any frame that fits has, with a header of up to a megabyte: what a worker reads of a file is bounded.
LONGEST = 4 * 1_048_576


def put(data, target, staging):
    """Writes a file beside and renames it into place."""
    part = os.path.join(staging, uuid.uuid4().hex.encode())
    try:
        with open(part, "xb") as file:
            file.write(data)
            file.flush()
            os.fsync(file.fileno())
        os.replace(part, target)
    except BaseException:
        with contextlib.suppress(OSError):
            os.unlink(part)
        raise


def refusal_of(data):
    """The number of the refusal of a frame's bytes, or 0."""
    import mlhe

    try:
        mlhe.read(data)
    except mlhe.Refused as refusal:
        return refusal.number
    return 0


def read_frame(source):
    """The frame in a file. Of a longer one than is read the first bytes are refused as the whole would be, unless its
    raster goes on after them, or its header, which numbers at its end make whole."""
    import mlhe

    with open(source, "rb") as file:
        data = file.read(LONGEST + 1)
    if len(data) <= LONGEST:
        return mlhe.read(data)
    number = refusal_of(data)
    if number in (0, 12) or number == 10 and refusal_of(data + b"\n1 1 1 ") != 10:
        raise OSError("its header is too long: 4 MiB of a file are read")
    raise mlhe.Refused(number)


def enhance_file(source, targets, staging):
    """Enhances one file, on a worker: answers what became of it, in a word and in words. targets are that of the frame
    and, where it is asked for, that of the plane. All names are bytes."""
    import mlhe

    try:
        enhanced = mlhe.enhance(read_frame(source))
    except mlhe.Refused as refusal:
        return "refused", str(refusal)
    h, w = enhanced.plane.shape
    files = mlhe.write(enhanced.frame), b"P5\n%d %d\n255\n" % (w, h) + enhanced.plane.tobytes()
    # The frame is put last: where it is there, the plane is there too.
    for data, target in reversed(list(zip(files, targets))):
        put(data, target, staging)
    retoned, kept = enhanced.counts
    return "enhanced", f"enhanced, {w} x {h}, {retoned} components retoned, {kept} kept"


def frames(folder):
    """The frames in a folder and the folders in it, by their paths from there. Links to folders are not followed."""

    def stop(error):
        raise error

    for path, folders, names in os.walk(folder, onerror=stop):
        folders[:] = sorted(name for name in folders if not name.startswith("."))
        for name in sorted(names):
            if name.lower().endswith(SUFFIXES) and not name.startswith("."):
                yield os.path.relpath(os.path.join(path, name), folder)


def targets_of(name, out, plane):
    """The targets of a frame: its own, and that of the plane if it is asked for."""
    target = os.path.join(out, name)
    return [target, os.path.splitext(target)[0] + ".pgm"] if plane else [target]


def identity(path):
    """What tells a file from all others, or None where there is none."""
    with contextlib.suppress(OSError):
        found = os.stat(path)
        return found.st_dev, found.st_ino


def checked(source, out, plane):
    """The names of the frames, and both folders. What speaks against it raises ValueError or OSError, and nothing has
    been begun."""
    source, out = os.path.realpath(source), os.path.realpath(out)
    if os.path.commonpath([source, out]) == source:
        raise ValueError(f"{out}: it is in {source}, and would be an input next time")
    names = list(frames(source))
    if not names:
        raise ValueError(f"{source}: there is no file named {' or '.join(SUFFIXES)}")
    inputs = {identity(os.path.join(source, name)) for name in names} - {None}
    places = {}
    for name in names:
        for target in targets_of(name, out, plane):
            folder, file = os.path.split(target)
            place = os.path.join(os.path.realpath(folder), file)
            if places.setdefault(place, name) != name:
                raise ValueError(f"{places[place]} and {name}: both would be written to {place}")
            if identity(place) in inputs:
                raise ValueError(f"{place}: this target is an input")
            if os.path.lexists(place) and not os.path.isfile(place):
                raise ValueError(f"{place}: it is there and no file")
    for folder in {os.path.dirname(place) for place in places}:
        os.makedirs(folder, exist_ok=True)
    return names, source, out


def arguments():
    parser = argparse.ArgumentParser(description="Enhances the frames of a folder on a Dask cluster.")
    parser.add_argument("scheduler", metavar="SCHEDULER", help="address of the scheduler, such as tcp://10.0.0.1:8786")
    parser.add_argument("source", metavar="IN", help="folder of P6 files, named .ppm or .pnm, also in folders in it")
    parser.add_argument("out", metavar="OUT", help="folder for the enhanced files, which keep their names")
    parser.add_argument("--plane", action="store_true", help="write the plane too, as NAME.pgm")
    return parser, parser.parse_args()


class Report:
    """Prints what became of each file, and counts."""

    def __init__(self):
        self.counts = collections.Counter()

    def add(self, name, outcome, words):
        self.counts[outcome] += 1
        print(f"{name}: {words}", file=sys.stdout if outcome == "enhanced" else sys.stderr, flush=True)

    def end(self):
        """Prints the last line and answers the exit status."""
        counts = [f"{self.counts[outcome]} {outcome}" for outcome in ("enhanced", "refused", "failed")]
        print(", ".join(counts), flush=True)
        return 0 if self.counts["enhanced"] == self.counts.total() else 1


def outcome_of(future):
    """What became of a task, in a word and in words."""
    try:
        return future.result()
    except (Exception, asyncio.CancelledError, concurrent.futures.CancelledError) as error:
        return "failed", f"failed: {type(error).__name__}: {error}"


@contextlib.contextmanager
def staging_folder(out):
    """A folder for files that are not whole yet. Afterwards no worker can put a file there or rename one from it, and
    what a dead worker left is gone."""
    staging = os.path.join(out, f".mlhe-{uuid.uuid4().hex}")
    os.mkdir(staging)
    try:
        yield staging
    finally:
        os.rename(staging, staging + "-ended")
        shutil.rmtree(staging + "-ended", ignore_errors=True)


def submit(client, name, source, targets, staging):
    return client.submit(enhance_file, os.fsencode(os.path.join(source, name)), list(map(os.fsencode, targets)),
                         os.fsencode(staging), pure=False, retries=ATTEMPTS - 1)


def run(client, names, source, out, plane, staging):
    """Enhances the files and answers the exit status."""
    from distributed import as_completed

    report, tasks = Report(), {}
    if not client.scheduler_info()["workers"]:
        print("enhance_folder: no worker is there yet, waiting for one", file=sys.stderr)
    for name in names:
        if os.path.isfile(os.path.join(source, name)):
            tasks[submit(client, name, source, targets_of(name, out, plane), staging)] = name
        else:
            report.add(name, "failed", "failed: it is no file, or a link to nothing")
    for task in as_completed(list(tasks)):
        report.add(tasks.pop(task), *outcome_of(task))
    return report.end()


def main():
    for stream in sys.stdout, sys.stderr:
        stream.reconfigure(errors="backslashreplace")
    parser, given = arguments()
    from distributed import Client

    try:
        with contextlib.ExitStack() as held:
            try:
                names, source, out = checked(given.source, given.out, given.plane)
                client = held.enter_context(Client(given.scheduler))
                staging = held.enter_context(staging_folder(out))
            except (ValueError, OSError) as error:
                parser.error(str(error))
            return run(client, names, source, out, given.plane, staging)
    except KeyboardInterrupt:
        print("enhance_folder: interrupted", file=sys.stderr)
    except BrokenPipeError:
        os.dup2(os.open(os.devnull, os.O_WRONLY), sys.stdout.fileno())  # nobody reads on
    return 1


if __name__ == "__main__":
    sys.exit(main())
