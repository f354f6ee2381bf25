"""Questions over partitions on each engine: threads, processes, Dask, MPI, and the examples."""
import contextlib
import json
import os
import random
import shutil
import socket
import subprocess
import sys
import tempfile
import unittest
from pathlib import Path

import prefq
from prefq.parts import Job, best
from support import OnPools, needs, package_path, printed
from test_parts import QUESTIONS, answered, plain, random_rows, write

EXAMPLES = Path(__file__).resolve().parents[2] / "examples/parts"


class Engines(OnPools, unittest.TestCase):
    def setUp(self):
        folder = tempfile.TemporaryDirectory()
        self.addCleanup(folder.cleanup)
        self.folder = folder.name
        rows = random_rows(random.Random(9), 900, 200)
        self.files = write(self.folder, rows, 80)
        self.wanted = {question: plain(rows, *asked) for question, asked in QUESTIONS.items()}

    def check(self, map):
        """The answers, a refusal with its place, and that the engine goes on after it."""
        for question, wanted in self.wanted.items():
            self.assertEqual(answered(best(self.files, question, map=map)), wanted, question)
        with self.assertRaises(prefq.Refused) as caught:
            best(self.files, "best low(prize)", map=map)
        self.assertEqual((caught.exception.kind, caught.exception.number, caught.exception.place), ("term", 2, 9))
        question = "best low(price) * low(dist)"
        self.assertEqual(answered(best(self.files, question, map=map)), self.wanted[question])

    def test_dask(self):
        """In a process of its own, since Dask leaves an event loop behind."""
        needs(self, "distributed")
        code = "import sys, test_parts_engines; test_parts_engines.on_dask(*sys.argv[1:])"
        done = subprocess.run([sys.executable, "-c", code, *map(str, self.files)], env=package_path(), cwd=Path(__file__).parent, stdout=subprocess.PIPE,
                              stderr=subprocess.PIPE, universal_newlines=True, timeout=120)
        self.assertEqual(done.returncode, 0, done.stderr)
        printed = json.loads(done.stdout)
        self.assertEqual({question: [tuple(pair) for pair in found] for question, found in printed["answers"].items()}, self.wanted)
        self.assertEqual(printed["refused"], ["Refused", "term", 2, 9])
        self.assertEqual(printed["frames"], printed["answers"][next(iter(QUESTIONS))])
        self.assertEqual(printed["changed"], [[9], [1], "refused", [3]])

    def test_dask_workers_that_have_nothing(self):
        """Separate worker processes without the package and the library, by the example."""
        needs(self, "distributed")
        place = f"127.0.0.1:{free_port()}"
        bare = {name: value for name, value in os.environ.items() if name not in ("PYTHONPATH", "PREFQ_LIBRARY")}
        words = [sys.executable, "-m", "distributed.cli.dask_worker", f"tcp://{place}", "--nthreads", "1", "--no-dashboard", "--no-nanny"]
        with contextlib.ExitStack() as stack:
            for command in ([sys.executable, "-m", "distributed.cli.dask_scheduler", "--host", f"tcp://{place}", "--no-dashboard"],
                            [*words, "--local-directory", f"{self.folder}/first"], [*words, "--local-directory", f"{self.folder}/second"]):
                process = subprocess.Popen(command, env=bare, cwd=self.folder, stdout=subprocess.DEVNULL, stderr=subprocess.DEVNULL)
                stack.callback(end, process)
            question = "at_least 9 low(price) * low(dist)"
            done = self.example("dask_workers.py", f"tcp://{place}", self.folder, question)
            refused = self.example("dask_workers.py", f"tcp://{place}", self.folder, "best low(prize)")
        self.assertEqual(printed(done), self.wanted[question], done.stderr)
        self.assertEqual(refused.returncode, 1)
        self.assertIn("no column 'prize'", refused.stderr)

    def test_mpi(self):
        needs(self, "mpi4py")
        if not shutil.which("mpiexec"):
            self.skipTest("mpiexec is not installed")
        question = "top_level 3 low(price) * low(dist) by city"
        environment = {**package_path(), "OMPI_ALLOW_RUN_AS_ROOT": "1", "OMPI_ALLOW_RUN_AS_ROOT_CONFIRM": "1"}
        done = subprocess.run(["mpiexec", "--oversubscribe", "-n", "3", sys.executable, "-m", "mpi4py.futures", str(EXAMPLES / "mpi.py"), self.folder, question],
                              env=environment, stdout=subprocess.PIPE, stderr=subprocess.PIPE, universal_newlines=True, timeout=120)
        self.assertEqual(printed(done), self.wanted[question], done.stderr)

    def test_the_example_of_a_dataframe_of_dask(self):
        """In a process of its own, as the example is."""
        needs(self, "distributed")
        import pandas
        example, question = EXAMPLES.parent / "cluster/cluster.py", 'low("Price (EUR)") * high(Stars)'
        subprocess.run([sys.executable, str(example), "--make", f"{self.folder}/hotels", "4"], check=True, timeout=60)
        files = sorted(Path(self.folder, "hotels").glob("*.csv"))
        done = subprocess.run([sys.executable, str(example), f"{self.folder}/hotels/*.csv", question], env=package_path(), cwd=self.folder, capture_output=True, text=True,
                              timeout=300)
        wanted = prefq.psel(pandas.concat(map(pandas.read_csv, files)), question)
        self.assertEqual(done.stdout, wanted.to_csv(index=False), done.stderr)
        self.assertEqual(len(files), 4)

    def test_the_examples_of_a_pool_and_a_cut_file(self):
        question = "best low(price) * low(dist)"
        done = self.example("pool.py", self.folder, question, "2")
        self.assertEqual(printed(done), self.wanted[question], done.stderr)
        done = self.example("parts.py", str(self.files[0]), question)
        self.assertEqual(done.returncode, 0, done.stderr)
        self.assertEqual(printed(done), answered(best(self.files[:1], question)))

    def example(self, name, *words):
        return subprocess.run([sys.executable, str(EXAMPLES / name), *words], env=package_path(), stdout=subprocess.PIPE, stderr=subprocess.PIPE,
                              universal_newlines=True, timeout=120)


def on_dask(*files):
    """Asks the questions, and one that is refused in between, on a cluster of two workers, and prints the answers."""
    from dask import dataframe
    from distributed import Client, LocalCluster
    options = {"dashboard_address": None, "memory_limit": None, "silence_logs": "ERROR", "local_directory": str(Path(files[0]).parent)}
    with LocalCluster(n_workers=2, threads_per_worker=1, **options) as cluster, Client(cluster) as client:
        frame = dataframe.read_csv(list(files), blocksize=None)
        try:
            refused = best(files, "best low(prize)", map=client.map)
        except prefq.Refused as why:
            refused = [type(why).__name__, why.kind, why.number, why.place]
        print(json.dumps({"refused": refused, "answers": {question: answered(best(files, question, map=client.map)) for question in QUESTIONS},
                          "changed": list(after_changes(client, Path(files[0]).with_name("changed.csv"))),
                          "frames": answered(best(frame, next(iter(QUESTIONS))))}))


def after_changes(client, path):
    """What is answered of a file that changes, while somebody has the part and the exception of each question before."""
    kept = []
    for text in ("price\n9\n", "price\n1\n", "price\nx\n", "price\n3\n"):
        path.write_text(text)
        kept.append(client.map(Job("best low(price)").part, [path]))
        try:
            yield [best([path], "best low(price)", map=client.map)[0].price]
        except prefq.Refused as why:
            kept.append(why)
            yield "refused"


def free_port():
    with socket.socket() as some:
        some.bind(("127.0.0.1", 0))
        return some.getsockname()[1]


def end(process):
    process.terminate()
    try:
        process.wait(10)
    except subprocess.TimeoutExpired:
        process.kill()
        process.wait()


if __name__ == "__main__":
    unittest.main()
