"""What bench/soak loads and sends, and the replies that it expects."""
import re

from asking import HASH, HEAD, app, array, manifest, post, request

# ---- manifests

QUOTA = 500
ARRAYS = array("q", 64, 1, QUOTA) + array("n", 64, 2)
RULES = {
    "take.rule": "count n[0]; when take(q, 0) offer 1; otherwise none;\n",
    "all.rule": "count n[1]; when bucket < 10000 offer 1; otherwise none;\n",
    "none.rule": "otherwise none;\n",
    "bad.rule": "when offer 1;\n",
}


def generation_text(number):
    version = f"{number}.0"
    apps = [app("x", "take.rule", version), app("y", "all.rule", version)]
    return manifest(f"g{number}", ARRAYS, *apps, app("z", "none.rule", version))


# Manifests that are refused: the text, and the error.
BAD = {
    "toml.toml": ("server = \n", "M1 Toml"),
    "field.toml": ("server = 1\n", "M2 Field"),
    "twice.toml": (manifest("b", ARRAYS, ARRAYS, app("x", "none.rule", "1")), "M3 Duplicate"),
    "file.toml": (manifest("b", app("x", "no.rule", "1")), "M4 File in app 1"),
    "rule.toml": (
        manifest("b", app("x", "bad.rule", "1")),
        "M6 Rule L2 Shape at line 1 in app 1",
    ),
    "array.toml": (
        manifest("b", array("q", 64, 2), app("x", "none.rule", "1")),
        "M7 Cells N2 Redefined in array 1",
    ),
}

# ---- expected replies

PACKAGE = f'{{"hash_sha256":"{HASH}","name":"x.bin","required":true,"size":3}}'
NONE = '{"status":"noupdate"}'


def offer(generation):
    return (
        f'{{"manifest":{{"packages":{{"package":[{PACKAGE}]}},"version":"{generation}.0"}},'
        '"status":"ok","urls":{"url":[{"codebase":"http://dl.example/"}]}}'
    )


def answer(appid, check):
    return f'{{"appid":"{appid}","cohort":"b:6037","status":"ok","updatecheck":{check}}}'


def reply_text(generation, answers):
    """The reply of a generation, without its moment."""
    apps = ",".join(answer(*it) for it in answers)
    moment = '"daystart":{"elapsed_days":D,"elapsed_seconds":S}'
    return (
        f")]}}'\n{{\"response\":{{\"app\":[{apps}],{moment},"
        f'"protocol":"3.1","server":"g{generation}"}}}}'
    )


SERVER = re.compile(r'"server":"g(\d+)"}}$')
COUNTED = post(request("x", "y", "z"))
UNCOUNTED = post(request("z"))


def wanted(generation):
    """The replies to COUNTED and to UNCOUNTED, each with the number of its offers from the
    quota."""
    last = [("y", offer(generation)), ("z", NONE)]
    return {
        reply_text(generation, [("x", offer(generation)), *last]): 1,
        reply_text(generation, [("x", NONE), *last]): 0,
        reply_text(generation, last[1:]): 0,
    }


# ---- malformed requests


def bytes_of(rng, count):
    return bytes(rng.randrange(256) for _ in range(count))


# Malformed requests, each with a different error, or without a reply if it ends too early.
GARBAGE = [
    lambda rng: b"\0" + bytes_of(rng, rng.randrange(200)),
    lambda rng: b"\x16\x03\x01" + bytes_of(rng, 300),
    lambda _: HEAD.replace("update2", "update3").encode() + b"\r\n",
    lambda _: b"GET /service/update2/json HTTP/1.1\r\n\r\n",
    lambda _: HEAD.encode() + b"Transfer-Encoding: chunked\r\n\r\n",
    lambda _: HEAD.encode() + b"Content-Length: 1048577\r\n\r\n",
    lambda _: b"a" * 20000,
    lambda _: HEAD.encode() + b"a: b\r\n" * 100 + b"\r\n",
    lambda _: post("[" * 200 + "]" * 200),
    lambda _: post(request(*["z"] * 257)),
    lambda rng: UNCOUNTED[: rng.randrange(1, len(UNCOUNTED))],
]
