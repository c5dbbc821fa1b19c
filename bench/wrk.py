"""Sends requests to a server by `wrk`, and reads its output."""
import re
import subprocess
from typing import NamedTuple

CONNECTIONS = 16
SCRIPT = """\
wrk.method = "POST"
wrk.path = "/service/update2/json"
wrk.body = '%s'
wrk.headers["Content-Type"] = "application/json"
wrk.headers["Connection"] = "close"
"""
# An example of its output; the line of Req/Sec also ends in "50%", and the next one begins with a
# word.
TOLD = """\
Running 3s test @ http://127.0.0.1:18080/service/update2/json
  2 threads and 16 connections
  Thread Stats   Avg      Stdev     Max   +/- Stdev
    Latency   308.81us  499.60us   9.43ms   93.99%
    Req/Sec    27.60k     2.33k   32.35k    62.50%
  Latency Distribution
     50%  265.00us
     75%  334.00us
     90%  398.00us
     99%    2.72ms
  164751 requests in 3.10s, 114.71MB read
  Socket errors: connect 0, read 3, write 0, timeout 0
Requests/sec:  53145.98
Transfer/sec:     37.00MB
"""
UNITS = {"us": 1e-3, "ms": 1, "s": 1e3, "m": 6e4}


class Drive(NamedTuple):
    """The number of requests, requests a second, the median and the 99th percentile in ms, and what
    was wrong."""

    requests: int
    rate: float
    p50: float
    p99: float
    wrong: str


def milliseconds(text):
    number, unit = re.fullmatch(r"([\d.]+)([a-z]+)", text).groups()
    return float(number) * UNITS[unit]


def share(output, percent):
    """The percentile of the times, which has its own line in the output."""
    return milliseconds(re.search(rf"^ +{percent}%\s+(\S+)$", output, re.M)[1])


def read(output):
    wrong = re.search(r"(Non-2xx or 3xx responses: \d+|Socket errors: .*)", output)
    return Drive(
        int(re.search(r"^ +(\d+) requests in ", output, re.M)[1]),
        float(re.search(r"^Requests/sec:\s+([\d.]+)", output, re.M)[1]),
        share(output, 50),
        share(output, 99),
        wrong[1] if wrong else "",
    )


def check():
    """Exits if an output isn't read correctly."""
    wrong = "Socket errors: connect 0, read 3, write 0, timeout 0"
    if read(TOLD) != Drive(164751, 53145.98, 0.265, 2.72, wrong):
        raise SystemExit(f"wrk is misread: {read(TOLD)}")


def drive(port, script, seconds):
    """Sends requests to the server at the port over CONNECTIONS connections, one request for each
    connection."""
    words = ["wrk", "-t2", f"-c{CONNECTIONS}", f"-d{seconds}s", "--latency", "-s", str(script)]
    words.append(f"http://127.0.0.1:{port}/service/update2/json")
    return read(subprocess.run(words, capture_output=True, text=True, check=True).stdout)
