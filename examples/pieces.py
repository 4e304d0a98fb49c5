"""Counts the events of a log, by tasks that read a piece of it each."""
import collections
import json
import subprocess
import sys

from dask.distributed import Client, LocalCluster


def written(*words, data=None):
    """The lines that cborcat writes."""
    return subprocess.run(["cborcat", *words], input=data, capture_output=True, check=True).stdout.splitlines()


def events(log, begin, length):
    """How often each event is in a piece of the log."""
    with open(log, "rb") as file:
        file.seek(begin)
        lines = written("-f", "bytes", "-t", "json", data=file.read(length))
    return collections.Counter(json.loads(line)["event"] for line in lines)


if __name__ == "__main__":
    log, size = sys.argv[1:]
    pieces = [tuple(map(int, line.split())) for line in written("-t", f"index={size}", log)]
    with LocalCluster(n_workers=2, host="127.0.0.1", dashboard_address=None) as cluster, Client(cluster) as client:
        tasks = [client.submit(events, log, begin, length) for begin, length, _ in pieces]
        for event, count in sorted(sum(client.gather(tasks), collections.Counter()).items()):
            print(count, event)
