"""examples/cluster.py on a small cluster of this machine: a worker that is killed loses nothing, and a second run does what lacks."""

import argparse
import json
import os
import signal
import sys
import tempfile
import threading
import time
import unittest
from pathlib import Path
from unittest import mock

EXAMPLES = Path(__file__).resolve().parents[3] / "examples"
sys.path.insert(0, str(EXAMPLES))
# The workers import the example and the package, too.
os.environ["PYTHONPATH"] = os.pathsep.join(it for it in (str(EXAMPLES), str(EXAMPLES.parent / "bindings/python"), os.environ.get("PYTHONPATH", "")) if it)

try:
    import cluster
    import dask
    import pandas as pd
    from distributed import Client, LocalCluster
except ImportError:
    cluster = None

COUNT, PARTITIONS = 40_000, 20


def asked(out: Path, files: tuple = ()) -> argparse.Namespace:
    return argparse.Namespace(out=str(out), files=[str(it) for it in files], make=COUNT, partitions=PARTITIONS, kind="csv")


@unittest.skipIf(cluster is None, "Dask or pandas is missing")
class OnACluster(unittest.TestCase):
    def setUp(self):
        dask.config.set({"distributed.scheduler.worker-ttl": "20 seconds"})
        self.shown = []
        quiet = mock.patch.object(cluster, "progress", lambda *counts: self.shown.append(counts))
        quiet.start()
        self.addCleanup(quiet.stop)
        room = tempfile.TemporaryDirectory()
        self.addCleanup(room.cleanup)
        self.room = Path(room.name)
        self.servers = LocalCluster(n_workers=2, threads_per_worker=1, host="127.0.0.1", dashboard_address=None, silence_logs=50)
        self.addCleanup(self.servers.close)
        self.client = Client(self.servers)
        self.addCleanup(self.client.close)

    def kill_a_worker(self, out: Path) -> None:
        """Kills a worker once some partitions are there. Its process is one that this test started."""
        while len(list(out.glob("*.json"))) < 3:
            time.sleep(0.01)
        pid = next(iter(self.client.run(os.getpid).values()))
        os.kill(pid, signal.SIGKILL)
        self.killed_at = len(list(out.glob("*.json")))

    def test_a_killed_worker_loses_nothing(self):
        out = self.room / "out"
        out.mkdir()
        killer = threading.Thread(target=self.kill_a_worker, args=[out])
        killer.start()
        counts = cluster.run(self.client, asked(out))
        killer.join()
        self.assertLess(self.killed_at, PARTITIONS)
        self.assertEqual(self.shown, [(done, PARTITIONS) for done in range(PARTITIONS + 1)])
        self.assertEqual(counts["done"] + counts["InvalidDayNumber"], COUNT)
        self.assertEqual(counts["InvalidDayNumber"], PARTITIONS * 2)
        for it in cluster.partitions(asked(out)):
            wanted, said = cluster.converted(cluster.made(it))
            part, counted = cluster.names(out, it.number, "csv")
            self.assertEqual(json.loads(counted.read_text()), said)
            found = pd.read_csv(part, dtype=str, keep_default_na=False)
            self.assertEqual(found.to_csv(index=False), wanted.to_csv(index=False))

    def test_a_second_run_does_what_lacks(self):
        out = self.room / "out"
        first = cluster.run(self.client, asked(out))
        parts = sorted(out.glob("part-*.csv.gz"))
        before = {it.name: (it.stat().st_mtime_ns, it.read_bytes()) for it in parts}
        cluster.names(out, 3, "csv")[1].unlink()
        (out / ".part-00007.csv.gz.1").write_bytes(b"what a killed worker leaves")
        self.assertEqual(cluster.run(self.client, asked(out)), first)
        after = {it.name: (it.stat().st_mtime_ns, it.read_bytes()) for it in parts}
        self.assertEqual({name for name in before if before[name][0] != after[name][0]}, {"part-00003.csv.gz"})
        self.assertEqual([it[1] for it in before.values()], [it[1] for it in after.values()])

    def test_files_are_partitions(self):
        texts = ["date,other\n2024-02-10,2025-02-10\nspam,2024-01-01\n2024-02-30,2024-01-01\n", "date,other\n738926,739280\n99999999999,1\n,1\n"]
        files = [self.room / f"{place}.csv" for place in range(2)]
        for file, text in zip(files, texts):
            file.write_text(text)
        out = self.room / "out"
        counts = cluster.run(self.client, asked(out, tuple(files)))
        self.assertEqual(counts, {"done": 2, "Missing": 3, "InvalidDayNumber": 1, "second date refused or missing": 0})
        first = pd.read_csv(cluster.names(out, 0, "csv")[0], keep_default_na=False).iloc[0].tolist()
        self.assertEqual(first, ["2024-02-10", "2025-02-10", "", "5784", "M05L", "1", "2024", "M01", "1", "0", "12", "11"])


if __name__ == "__main__":
    unittest.main()
