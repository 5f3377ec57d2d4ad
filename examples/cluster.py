#!/usr/bin/env python3
"""Converts many dates on a Dask cluster, partition by partition.

Each date is shown in the Hebrew and the Chinese calendar (published years), beside the difference in years to a second date, counted in the
Hebrew calendar. Refused dates are counted by cause. The input is made (`--make N`), or read: CSV or Parquet files with the columns `date` and
`other`, ISO dates or day numbers, a file a partition.

Each partition is written to `OUT/part-00000.csv.gz` (or `.parquet`) with its counts beside it in `.json`. Files are written under another name
first and then renamed, so a partition is there whole or not at all. A second run does the partitions that lack, and no other. If a worker is
killed, Dask gives its partitions to others; a partition that is done twice has the same bytes.

    python3 examples/cluster.py --make 10000000 --partitions 64 out           # a cluster of its own on this machine
    python3 examples/cluster.py --scheduler tcp://10.0.0.1:8786 out in/*.csv   # a cluster that runs, with icu_calendar on its workers

Needs `pip install './bindings/python[dask]'` or, on Debian, python3-dask, python3-distributed and python3-pandas.
"""

import argparse
import gzip
import json
import os
import sys
from collections import Counter
from dataclasses import dataclass
from pathlib import Path
from typing import Any

import dask
import numpy as np
import pandas as pd
from distributed import Client, LocalCluster, as_completed

from icu_calendar import arrays
from icu_calendar.pandas import Dates

# The made days: from 1700 to 2200, and one in a thousand is no valid day.
FIRST, LAST, INVALID, EVERY = 620547, 803533, 2**40, 1000
# How often a partition is tried when the workers that had it died.
RETRIES = 10
# How long a worker may be silent before its partitions are given to others, where its end isn't noticed at once.
SILENCE = "60 seconds"


@dataclass(frozen=True)
class Partition:
    """A partition: its number, and a file to read or a count of dates to make."""

    number: int
    source: str
    count: int


def made(partition: Partition) -> pd.DataFrame:
    """Returns dates that depend on the number of the partition alone."""
    random = np.random.default_rng(partition.number)
    dates, others = random.integers(FIRST, LAST, size=(2, partition.count))
    dates[::EVERY] = INVALID
    return pd.DataFrame({"date": dates, "other": others})


def read(partition: Partition) -> pd.DataFrame:
    """Returns the columns of a file."""
    if partition.source.endswith((".parquet", ".pq")):
        return pd.read_parquet(partition.source, columns=["date", "other"])
    return pd.read_csv(partition.source, usecols=["date", "other"])


def days(column: pd.Series) -> Any:
    """Returns a column as days. Numbers stay as they are, and texts are read as ISO dates. An invalid text is a missing day."""
    if pd.api.types.is_numeric_dtype(column.dtype):
        return np.ma.MaskedArray(column.fillna(0).to_numpy(np.int64), mask=column.isna().to_numpy())
    return pd.to_datetime(column, errors="coerce", format="%Y-%m-%d").to_numpy()


def converted(frame: pd.DataFrame) -> "tuple[pd.DataFrame, dict[str, int]]":
    """Returns the answers, and how many places have each cause."""
    column = arrays.dates(days(frame["date"]), "hebrew")
    apart = column.until(days(frame["other"]), "years")
    hebrew = Dates(column, frame.index)
    answers = {"date": frame["date"], "other": frame["other"], "cause": hebrew.cause}
    for name, shown in (("hebrew", hebrew), ("chinese", hebrew.to("chinese"))):
        answers |= {f"{name}_year": shown.year, f"{name}_month_code": shown.month_code, f"{name}_day": shown.day}
    answers |= {unit: hebrew.series_of(getattr(apart, unit), unit) for unit in ("years", "months", "days")}
    counts = Counter(column.causes())
    counts["done"] = int(column.done.sum())
    counts["second date refused or missing"] = int((~apart.done & column.done).sum())
    return pd.DataFrame(answers), dict(counts)


def store(path: Path, write: Any) -> None:
    """Writes a file under a name of its own, and then gives it its name."""
    room = path.with_name(f".{path.name}.{os.getpid()}")
    write(room)
    os.replace(room, path)


def convert(partition: Partition, out: str, kind: str) -> "tuple[int, dict[str, int]]":
    """Converts a partition and writes it, the counts last: they say that the partition is there."""
    answers, counts = converted(read(partition) if partition.source else made(partition))
    part, said = names(Path(out), partition.number, kind)
    if kind == "parquet":
        store(part, lambda room: answers.to_parquet(room, index=False))
    else:
        # Without a name and a time in the archive, a partition has the same bytes whenever it is written.
        archive = gzip.compress(answers.to_csv(index=False).encode(), compresslevel=1, mtime=0)
        store(part, lambda room: room.write_bytes(archive))
    store(said, lambda room: room.write_text(json.dumps(counts)))
    return partition.number, counts


def names(out: Path, number: int, kind: str) -> "tuple[Path, Path]":
    ending = "parquet" if kind == "parquet" else "csv.gz"
    return out / f"part-{number:05}.{ending}", out / f"part-{number:05}.json"


def partitions(given: argparse.Namespace) -> "list[Partition]":
    if given.files:
        return [Partition(number, str(Path(it).resolve()), 0) for number, it in enumerate(given.files)]
    bounds = np.linspace(0, given.make, given.partitions + 1).astype(int)
    return [Partition(number, "", int(end - start)) for number, (start, end) in enumerate(zip(bounds[:-1], bounds[1:]))]


def progress(done: int, count: int) -> None:
    print(f"\r{done} of {count} partitions", end="" if done < count else "\n", file=sys.stderr, flush=True)


def run(client: Client, given: argparse.Namespace) -> "dict[str, int]":
    """Converts the partitions that lack, and returns the counts of all."""
    out = Path(given.out).resolve()
    out.mkdir(parents=True, exist_ok=True)
    every = partitions(given)
    lacking = [it for it in every if not names(out, it.number, given.kind)[1].exists()]
    progress(len(every) - len(lacking), len(every))
    futures = [client.submit(convert, it, str(out), given.kind, pure=False, retries=RETRIES) for it in lacking]
    for done, future in enumerate(as_completed(futures), len(every) - len(lacking) + 1):
        future.result()
        progress(done, len(every))
    counts: Counter = Counter()
    for it in every:
        counts.update(json.loads(names(out, it.number, given.kind)[1].read_text()))
    return dict(counts)


def words() -> argparse.Namespace:
    parser = argparse.ArgumentParser(description=__doc__, formatter_class=argparse.RawDescriptionHelpFormatter)
    parser.add_argument("out", help="the folder for the answers; partitions that are there stay")
    parser.add_argument("files", nargs="*", help="CSV or Parquet files with the columns `date` and `other`, a file a partition")
    parser.add_argument("--make", type=int, default=1_000_000, metavar="N", help="without files, how many dates to make (default: %(default)s)")
    parser.add_argument("--partitions", type=int, default=16, help="of the made dates (default: %(default)s)")
    parser.add_argument("--kind", choices=["csv", "parquet"], default="csv", help="of the files that are written (default: %(default)s)")
    parser.add_argument("--scheduler", metavar="ADDRESS", help="of a cluster that runs; otherwise one is started on this machine")
    parser.add_argument("--workers", type=int, help="of the cluster that is started (default: one a processor)")
    return parser.parse_args()


def main() -> int:
    given = words()
    if given.scheduler:
        with Client(given.scheduler) as client:
            counts = run(client, given)
    else:
        dask.config.set({"distributed.scheduler.worker-ttl": SILENCE})
        with LocalCluster(n_workers=given.workers, threads_per_worker=1, host="127.0.0.1", dashboard_address=None) as cluster, Client(cluster) as client:
            counts = run(client, given)
    for cause, count in sorted(counts.items()):
        print(f"{cause}: {count}")
    return 0


if __name__ == "__main__":
    sys.exit(main())
