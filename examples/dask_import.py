#!/usr/bin/python3
"""dask_import.py SCHEDULER FILE N: imports a raw PBF file in N parts, by the workers of a Dask scheduler such as tcp://host:8786.

Each part becomes part-FROM.db in the folder that this runs in, which the workers have to see under the same name.
"""
import os, subprocess, sys, time
from distributed import Client


def import_part(span, file, folder, pbfrow):
    """Feeds one range to pbfrow. If this worker dies its pipe is closed, so that pbfrow ends (with 1, before the range's end), and another worker goes on."""
    start, end = span
    command = [pbfrow, "import", "/dev/stdin", f"part-{start}.db", "--at", str(start), "--to", str(end)]
    time.sleep(0.5)  # a pbfrow whose worker has died may still have the database
    with open(file, "rb") as source, subprocess.Popen(command, cwd=folder, stdin=subprocess.PIPE, stdout=subprocess.DEVNULL) as importer:
        for at in range(start, end, 1 << 20):
            importer.stdin.write(os.pread(source.fileno(), min(1 << 20, end - at), at))
    if importer.returncode != 0:
        raise RuntimeError(f"the part at {start} ended with {importer.returncode}")


if __name__ == "__main__":
    scheduler, file, count, pbfrow = sys.argv[1], os.path.abspath(sys.argv[2]), sys.argv[3], os.environ.get("PBFROW", "pbfrow")
    plan = subprocess.run([pbfrow, "ranges", file, count], check=True, capture_output=True, text=True).stdout
    spans = [tuple(map(int, line.split())) for line in plan.splitlines()]
    with Client(scheduler) as client:
        client.gather(client.map(import_part, spans, file=file, folder=os.getcwd(), pbfrow=pbfrow, retries=20))
    print(len(spans), "parts are imported")
