#!/usr/bin/env python3
"""Measures a Dask cluster of four workers on this machine, and the search for duplicates among many digests.

    /usr/bin/python3 archive/bench/many.py [FILES [DIGESTS]]

The files are messages of 1.6 kB, which bench/archives.py measures by the processes of one command. Of the digests a hundredth is there twice.
"""

import json
import os
import sys
import tempfile
import time
from pathlib import Path

TOP = Path(__file__).resolve().parents[2]
sys.path[:0] = [str(TOP / it) for it in ("archive/tests/support", "bench")]

import archive_files  # noqa: E402
import dask_cluster  # noqa: E402
import postgresql_server  # noqa: E402
from archive_processes import ran  # noqa: E402
from places import copy_packages  # noqa: E402

FILES, DIGESTS = 100_000, 4_000_000


def measure_cluster(home, count):
    folder = archive_files.messages(home / "messages", count)
    with postgresql_server.server() as server, dask_cluster.cluster(home, dict(os.environ), workers=4) as made:
        url = server.make_database("bench")
        used = ran([sys.executable, "-m", "cms_canon_archive.command", "index", folder, "--store", url, "--scheduler", made.address], server)
    print(f"a cluster of 4 workers on this machine: time {used.time / count * 1e6:.1f} microseconds a file, load {os.getloadavg()[0]:.1f}", flush=True)


def make_digests(folder, count):
    """Writes digests at random as `digests --to` does, of which each hundredth is there twice."""
    import numpy
    from cms_canon_archive import digests

    random = numpy.random.default_rng(1)
    octets = random.integers(0, 256, (count, 32), dtype=numpy.uint8)
    octets[::100] = octets[1::100][: len(octets[::100])]
    folder.mkdir()
    numbers = numpy.arange(count, dtype=numpy.uint64)
    (folder / "rows").write_bytes(numpy.hstack((octets, digests._octets(numpy, numbers * 2))).tobytes())
    (folder / "names").write_bytes(b"-\n" * count)
    buckets = [open(folder / f"{it:02x}", "xb") for it in range(256)]
    digests._put_in_buckets(numpy, buckets, octets, numbers)
    for it in buckets:
        it.close()
    (folder / "about.json").write_text(json.dumps({"form": digests.FORM, "rows": count, "names": 2 * count, "store": ""}))


def measure_duplicates(home, count):
    from cms_canon_archive import digests

    make_digests(home / "digests", count)
    began = time.process_time()
    found = sum(1 for _ in digests.duplicates([home / "digests"]))
    seconds = time.process_time() - began
    print(f"duplicates among {count:,} digests: {seconds / count * 1e6:.2f} microseconds of processor time each, {found:,} found")


def main(words):
    count, digests = (int(words[it]) if len(words) > it else other for it, other in enumerate((FILES, DIGESTS)))
    with tempfile.TemporaryDirectory(prefix="archive-") as folder:
        home = Path(folder)
        copy_packages(home)
        sys.path.insert(0, str(home))
        os.environ["PYTHONPATH"] = str(home)
        measure_cluster(home, count)
        measure_duplicates(home, digests)
    return 0


if __name__ == "__main__":
    sys.exit(main(sys.argv[1:]))
