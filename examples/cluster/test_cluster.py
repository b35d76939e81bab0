"""Tests of enhance_folder.py on a cluster of one scheduler and two workers, on the loopback address alone.

    PYTHONPATH=../python /usr/bin/python3 test_cluster.py

ZOPYKUE=path/to/zopykue compares with the files of that tool too.
"""

import json
import os
import shutil
import signal
import subprocess
import sys
import tempfile
import time
import unittest
from pathlib import Path

import numpy
from distributed import Client

import mlhe

HERE = Path(__file__).resolve().parent
REPOSITORY = HERE.parents[1]
LOOPBACK = ["--host", "127.0.0.1", "--dashboard-address", "127.0.0.1:0", "--no-dashboard"]
SECONDS = 60


def until(condition, what, seconds=SECONDS):
    """Waits for a condition and answers what it answers."""
    end = time.monotonic() + seconds
    while time.monotonic() < end:
        answer = condition()
        if answer:
            return answer
        time.sleep(0.005)
    raise AssertionError(f"not within {seconds} seconds: {what}")


class Cluster:
    """A scheduler and workers with one thread each, all of them processes of this test, which end with it. Left alone,
    they end by themselves: the scheduler when nothing is done, the workers without a scheduler."""

    def __init__(self, folder, workers):
        self.folder = folder
        self.processes = []
        file = folder / "scheduler.json"
        self.start("scheduler", "--port", "0", "--scheduler-file", str(file), "--idle-timeout", "120 seconds")
        self.address = json.loads(until(lambda: file.exists() and file.read_text(), "the scheduler"))["address"]
        self.workers = {}
        for number in range(workers):
            name = f"worker-{number}"
            self.workers[name] = self.start(
                "worker", self.address, "--name", name, "--nthreads", "1", "--no-nanny", "--memory-limit", "0",
                "--local-directory", str(folder / name), "--death-timeout", "30")

    def start(self, part, *arguments):
        log = open(self.folder / f"{len(self.processes)}-{part}.log", "wb")
        with log:
            process = subprocess.Popen([sys.executable, "-m", "dask", part, *arguments, *LOOPBACK],
                                       stdin=subprocess.DEVNULL, stdout=log, stderr=subprocess.STDOUT)
        self.processes.append(process)
        return process

    def logs(self):
        return "".join(f"== {log.name}\n{log.read_text()[-3000:]}\n" for log in sorted(self.folder.glob("*.log")))

    def end(self):
        """Ends all processes, the scheduler last."""
        for process in self.processes[1:]:
            process.terminate()
        for process in reversed(self.processes):
            process.terminate()
            try:
                process.wait(5)
            except subprocess.TimeoutExpired:
                process.kill()
                process.wait()


def enhance_folder(*arguments):
    """Starts the script, with the client's attempts to connect cut short."""
    environment = os.environ | {"DASK_DISTRIBUTED__COMM__TIMEOUTS__CONNECT": "5s"}
    return subprocess.Popen([sys.executable, HERE / "enhance_folder.py", *map(os.fspath, arguments)], text=True,
                            errors="surrogateescape", stdin=subprocess.DEVNULL, stdout=subprocess.PIPE,
                            stderr=subprocess.PIPE, env=environment)


def ended(process):
    """The status, the lines of output and the lines of errors of a script that has ended."""
    try:
        output, errors = process.communicate(timeout=SECONDS)
    finally:
        process.kill()
    return process.returncode, output.splitlines(), errors.splitlines()


def picture(w, h, seed):
    """A frame with slopes, spots and noise."""
    chance = numpy.random.default_rng(seed)
    y, x = numpy.mgrid[:h, :w]
    waves = 90 + 60 * numpy.sin(x / (17 + seed)) * numpy.cos(y / (29 + seed)) + 60 * x / w
    channels = [waves * weight + chance.integers(0, 12, (h, w)) for weight in (1, 0.8, 0.6)]
    return numpy.clip(numpy.stack(channels, axis=2), 0, 255).astype(numpy.uint8)


def files(folder):
    """The contents of all files in a folder and the folders in it."""
    return {str(path.relative_to(folder)): path.read_bytes() for path in folder.rglob("*") if path.is_file()}


def expected(folder):
    """What becomes of each frame in one process: its bytes, or the refusal."""
    results = {}
    for name, data in files(folder).items():
        if name.lower().endswith((".ppm", ".pnm")):
            try:
                results[name] = mlhe.write(mlhe.enhance(mlhe.read(data)).frame)
            except mlhe.Refused as refusal:
                results[name] = refusal
    return results


class Folder(unittest.TestCase):
    def setUp(self):
        held = tempfile.TemporaryDirectory()
        self.addCleanup(held.cleanup)
        self.folder = Path(held.name).resolve()
        self.source, self.out = self.folder / "in", self.folder / "out"
        self.source.mkdir()

    def frame(self, name, w, h, seed):
        path = self.source / name
        path.parent.mkdir(parents=True, exist_ok=True)
        path.write_bytes(mlhe.write(picture(w, h, seed)))


class OnACluster(Folder):
    def setUp(self):
        super().setUp()
        (self.folder / "cluster").mkdir()
        self.cluster = Cluster(self.folder / "cluster", 2)
        self.addCleanup(self.cluster.end)
        self.client = Client(self.cluster.address, timeout="30s")
        self.addCleanup(self.client.close)
        self.client.wait_for_workers(2, timeout=SECONDS)
        for address in self.cluster.address, *self.client.scheduler_info()["workers"]:
            self.assertRegex(address, r"^tcp://127\.0\.0\.1:")

    def said(self, script):
        """What a script says that has ended, with what the cluster says should anything fail."""
        status, output, errors = ended(script)
        return status, output, errors, "\n".join([*output, *errors, self.cluster.logs()])

    def kill_one_in_the_middle(self, script, done):
        """Kills a worker that is at work, once a file is there."""
        until(lambda: done.exists() or script.poll() is not None, f"{done} is written")
        at_work = {address: tasks for address, tasks in self.client.processing().items() if tasks}
        workers = self.client.scheduler_info()["workers"]
        victim = self.cluster.workers[workers[min(at_work)]["name"]]
        victim.kill()
        self.assertEqual(victim.wait(10), -signal.SIGKILL)
        self.assertIsNone(script.poll(), "the script ended before the worker did")

    def test_a_worker_dies(self):
        shutil.copytree(REPOSITORY / "tests/corpus", self.source / "corpus")
        large = [(1_024, 1_024)] * 12 + [(4_096, 256), (640, 480), (333, 777), (64, 48)]
        for seed, (w, h) in enumerate(large):
            self.frame(f"{('left', 'right')[seed % 2]}/f {seed // 2}.ppm", w, h, seed)
        for side in "left", "right":
            self.frame(f"{side}/same.ppm", 50, 40, len(side))
        (self.source / "wide.ppm").write_bytes(b"P6\n1920 1080\n255\n" + bytes(1_920 * 1_080 * 3))
        results = expected(self.source)
        whole = {name: result for name, result in results.items() if isinstance(result, bytes)}
        refused = {name: result for name, result in results.items() if name not in whole}
        # A file of an earlier run, whose frame is refused now, stays.
        (self.out / "corpus").mkdir(parents=True)
        (self.out / "corpus/empty.ppm").write_bytes(b"earlier")
        (self.out / "corpus/pil.ppm").write_bytes(b"earlier")

        script = enhance_folder(self.cluster.address, self.source, self.out)
        self.kill_one_in_the_middle(script, self.out / "left/f 0.ppm")
        status, output, errors, all_said = self.said(script)
        self.assertEqual(files(self.out), whole | {"corpus/empty.ppm": b"earlier"}, all_said)
        self.assertEqual(output[-1], f"{len(whole)} enhanced, {len(refused)} refused, 0 failed", all_said)
        self.assertEqual(status, 1)
        for name, refusal in refused.items():
            self.assertIn(f"{name}: {refusal}", errors)
        for name in whole:
            self.assertTrue(any(line.startswith(f"{name}: enhanced, ") for line in output), name)
        self.compare_with_the_tool(whole, output[-1])

    def compare_with_the_tool(self, whole, last_line):
        """The tool writes the same files, where there is one."""
        tool = os.environ.get("ZOPYKUE")
        if tool:
            out = self.folder / "tool"
            said = subprocess.run([tool, "enhance", "--to", out, self.source], text=True, stdin=subprocess.DEVNULL,
                                  capture_output=True, timeout=SECONDS)
            self.assertEqual(files(out / self.source.name), whole, said.stderr)
            self.assertEqual(said.stdout.splitlines()[-1], last_line)

    def strange_folder(self):
        """Files that are taken, by their names without ending, and others beside them."""
        names = {"left/f1": ".ppm", "right/f1": ".ppm", "a name": ".PNM", "linked": ".ppm", "\udcff": ".ppm"}
        for seed, (name, suffix) in enumerate(names.items()):
            self.frame(name + suffix, 40 + seed, 30, seed)
        (self.source / "linked.ppm").unlink()
        (self.source / "linked.ppm").symlink_to("left/f1.ppm")
        (self.source / "link.ppm").symlink_to("nothing.ppm")
        (self.source / "folder").symlink_to("left")
        os.mkfifo(self.source / "pipe.ppm")
        (self.source / "long.ppm").write_bytes(b"P6 1024" + b" " * 2**21 + b"1024 255\n" + bytes(3 * 2**20))
        (self.source / "comment.ppm").write_bytes(b"P6 #" + bytes(2**22) + b"\n1 1 255 RGB")
        (self.source / "malformed.ppm").write_bytes(b"P6 1 1 255#" + bytes(2**22) + b"\nRGB")
        (self.source / "notes.txt").write_text("no frame")
        self.frame(".hidden.ppm", 4, 4, 1)
        self.frame(".hidden/f1.ppm", 4, 4, 1)
        return names

    def test_planes_and_what_fails(self):
        names = self.strange_folder()
        status, output, errors, all_said = self.said(
            enhance_folder(self.cluster.address, self.source, self.out, "--plane"))
        self.assertEqual((status, output[-1]), (1, "5 enhanced, 1 refused, 4 failed"), all_said)
        for name in "link.ppm", "pipe.ppm", "long.ppm", "comment.ppm":
            self.assertTrue(any(line.startswith(f"{name}: failed: ") for line in errors), all_said)
        self.assertIn(f"malformed.ppm: {mlhe.Refused(10)}", errors, all_said)
        written = {}
        for name, suffix in names.items():
            enhanced = mlhe.enhance(mlhe.read((self.source / (name + suffix)).read_bytes()))
            h, w = enhanced.plane.shape
            written[name + suffix] = mlhe.write(enhanced.frame)
            written[name + ".pgm"] = b"P5\n%d %d\n255\n" % (w, h) + enhanced.plane.tobytes()
        self.assertEqual(files(self.out), written)

        # All enhanced, and a target of the earlier run is written again.
        status, output, _, all_said = self.said(
            enhance_folder(self.cluster.address, self.source / "left", self.out / "left"))
        self.assertEqual((status, output[-1]), (0, "1 enhanced, 0 refused, 0 failed"), all_said)
        retoned, kept = mlhe.enhance(mlhe.read((self.source / "left/f1.ppm").read_bytes())).counts
        self.assertEqual(output[0], f"f1.ppm: enhanced, 40 x 30, {retoned} components retoned, {kept} kept")
        self.assertEqual(files(self.out), written)


    def test_an_interrupt(self):
        for seed in range(12):
            self.frame(f"f{seed}.ppm", 1_024, 1_024, seed)
        results = expected(self.source)
        script = enhance_folder(self.cluster.address, self.source, self.out)
        until(lambda: (self.out / "f0.ppm").exists() or script.poll() is not None, "the first file")
        script.send_signal(signal.SIGINT)
        status, _, errors, all_said = self.said(script)
        self.assertEqual(status, 1, all_said)
        self.assertIn("enhance_folder: interrupted", errors, all_said)
        written = files(self.out)
        self.assertTrue(0 < len(written) < len(results), all_said)
        self.assertEqual(written, {name: results[name] for name in written})
        self.assertEqual(list(self.out.glob(".*")), [])
        # The next run does all of it.
        status, output, _, all_said = self.said(enhance_folder(self.cluster.address, self.source, self.out))
        self.assertEqual((status, output[-1]), (0, "12 enhanced, 0 refused, 0 failed"), all_said)
        self.assertEqual(files(self.out), results)


class Usage(Folder):
    """What is wrong before any work: status 2, and nothing is written."""

    def wrong(self, words, *arguments):
        before = files(self.folder)
        status, output, errors = ended(enhance_folder(*arguments))
        self.assertEqual((status, output), (2, []), errors)
        self.assertIn(words, errors[-1])
        self.assertEqual(files(self.folder), before)

    def test_arguments(self):
        self.wrong("the following arguments are required", "tcp://127.0.0.1:9")
        self.wrong("No such file", "tcp://127.0.0.1:9", self.folder / "nowhere", self.out)
        self.wrong("there is no file named .ppm or .pnm", "tcp://127.0.0.1:9", self.source, self.out)

    def test_targets(self):
        self.frame("a/f.ppm", 4, 4, 1)
        self.frame("b/f.ppm", 4, 4, 2)
        nobody = "tcp://127.0.0.1:9"
        self.wrong("it is in", nobody, self.source, self.source)
        self.wrong("it is in", nobody, self.source, self.source / "out")
        self.out.mkdir()
        (self.out / "a").symlink_to(self.source / "b")
        self.wrong("this target is an input", nobody, self.source, self.out)
        (self.out / "a").unlink()
        (self.out / "b").mkdir()
        (self.out / "a").symlink_to("b")
        self.wrong("both would be written to", nobody, self.source, self.out)
        (self.folder / "folder/a/f.ppm").mkdir(parents=True)
        self.wrong("it is there and no file", nobody, self.source, self.folder / "folder")
        (self.source / "a/f.pnm").write_bytes(b"")
        self.wrong("both would be written to", nobody, self.source, self.folder / "planes", "--plane")
        (self.folder / "file").write_bytes(b"")
        self.wrong("Not a directory", nobody, self.source, self.folder / "file")

    def test_no_scheduler(self):
        self.frame("f.ppm", 4, 4, 1)
        self.wrong("Timed out", "tcp://127.0.0.1:9", self.source, self.out)


if __name__ == "__main__":
    unittest.main()
