"""Checks the nginx site of examples/deploy, with only paths and ports changed: curl through it, its
limits, and its behaviour with a balancer in front.

Each check returns nothing, or what was wrong. If a command isn't installed, the check is skipped
with that name.
"""
import contextlib
import json
import subprocess

from hosts import ASK, OFFERED, Host, awaited, called, needs

TLS = 18096
CONFIGURATION = """
daemon off;
pid {top}/run/nginx.pid;
error_log {top}/nginx.errors;
events {{ worker_connections 256; }}
http {{
    access_log off;
    client_body_temp_path {top}/body;
    proxy_temp_path {top}/proxy;
    fastcgi_temp_path {top}/fastcgi;
    uwsgi_temp_path {top}/uwsgi;
    scgi_temp_path {top}/scgi;
    include {top}/etc/nginx/conf.d/rollout.conf;
}}
"""
CERTIFICATE = "req -x509 -newkey rsa:2048 -nodes -days 2 -subj /CN=localhost -addext"
POST = "/service/update2/json"


def nginx_words(host, changes=()):
    """The command for nginx with the site, in which these texts are changed, on its own port and
    with its own certificate."""
    text = host.file("rollout.nginx").read_text().replace("listen [::]:443 ssl;", "")
    text = text.replace("listen 443 ssl;", f"listen 127.0.0.1:{TLS} ssl;")
    for old, new in changes:
        if old not in text:
            raise ValueError(f"no {old} in the site")
        text = text.replace(old, new)
    (host.top / "etc" / "nginx" / "conf.d" / "rollout.conf").write_text(text)
    files = ["-keyout", str(host.top / "etc/ssl/private/rollout.key")]
    files += ["-out", str(host.top / "etc/ssl/rollout.pem")]
    called("openssl", *CERTIFICATE.split(), "subjectAltName=IP:127.0.0.1", *files)
    (host.top / "nginx.conf").write_text(CONFIGURATION.format(top=host.top))
    return ["nginx", "-e", str(host.top / "nginx.errors"), "-c", str(host.top / "nginx.conf")]


@contextlib.contextmanager
def proxied_by(host, words):
    """nginx, which listens until the end of a `with`."""
    status, text = called(*words, "-t")
    if status != 0:
        raise OSError(text)
    nginx = subprocess.Popen(words, stdin=subprocess.DEVNULL, stderr=subprocess.DEVNULL)
    try:
        if not awaited(lambda: proxied(host, "/", [], "")[0] == "404", 10):
            raise OSError("nginx doesn't listen")
        yield
    finally:
        nginx.terminate()
        nginx.wait()


CHUNKED = ["-H", "Transfer-Encoding: chunked"]
MANY_HEADERS = [word for n in range(80) for word in ("-H", f"X-{n}: {'a' * 150}")]
# With a running server: the path, more words for curl, its standard input, the expected status, and
# a part of the text.
ANSWERS = [
    (POST, ["--data-binary", "@-"], ASK, "200", OFFERED),
    (f"{POST}?x=1", ["--data-binary", "@-"], ASK, "200", OFFERED),
    (POST, [*CHUNKED, "--data-binary", "@-"], ASK, "200", OFFERED),
    (POST, [*MANY_HEADERS, "--data-binary", "@-"], ASK, "200", OFFERED),
    (POST, ["--data-binary", "@-"], "{}", "400", "O2 Shape"),
    (POST, ["--data-binary", "@-"], " " * 65537, "413", ""),
    (POST, [], "", "403", ""),
    ("/healthz", [], "", "200", '"app":[]'),
    ("/", [], "", "404", ""),
]


def proxied(host, path, words, given):
    """Status and text of curl through nginx."""
    trusted = str(host.top / "etc" / "ssl" / "rollout.pem")
    command = ["curl", "-s", "--cacert", trusted, "-w", "\n%{http_code}", *words]
    _, text = called(*command, f"https://127.0.0.1:{TLS}{path}", input=given)
    return text.rsplit("\n", 1)[::-1]


def polled(host, clients):
    """The statuses of a poll for each of these clients, as a balancer names them."""
    words = ["--data-binary", "@-", "-H"]
    found = [proxied(host, POST, [*words, f"X-Forwarded-For: {it}"], ASK) for it in clients]
    return [status for status, _ in found]


def wrong_answers(host):
    for path, words, given, *wanted in ANSWERS:
        status, text = proxied(host, path, words, given)
        if status != wanted[0] or wanted[1] not in text:
            return f"{path} {words[:2]}: {status} {text[:200]}"
    # Whatever address they claim.
    found = polled(host, [f"198.51.100.{n}" for n in range(30)])
    if found[-1] != "429" or {*found} != {"200", "429"}:
        return f"thirty polls at once: {found}"


def site_of_nginx(folder):
    """nginx -t of the site, curl through it, its limits, and its replies without a server."""
    needs("nginx", "openssl", "curl")
    host = Host(folder / "site")
    with proxied_by(host, nginx_words(host)):
        with host.started(host.file("rollout.service")):
            if wrong := wrong_answers(host):
                return wrong
        last, others = proxied(host, "/healthz?[1-30]", ["-o", "/dev/null"], "")
        if others.split()[:1] != ["502"] or last != "429":
            return f"thirty health checks at once, without a server: {others.split()} {last}"


BALANCER = [("10.0.0.0/8", "127.0.0.0/8"), ("#set_real_ip_from", "set_real_ip_from")]
BALANCER += [("#real_ip_", "real_ip_")]
# Thirty clients each, and whether they share a rate limit.
CLIENTS = [
    ([f"198.51.100.{n}" for n in range(30)], False),
    (["203.0.113.1"] * 30, True),
    ([f"2001:db8::{n:x}" for n in range(1, 31)], True),
    ([f"2001:db8:0:1:{n:x}::1" for n in range(30)], True),
    ([f"2001:db8:1:{n:x}::1" for n in range(30)], False),
    ([f"::ffff:192.0.2.{n}" for n in range(30)], False),
    ([f"203.0.113.2, 192.0.2.{n}" for n in range(100, 130)], False),
]


def behind_balancer(folder):
    """The site with its three lines for a balancer: a rate for each client or IPv6 network, and the
    log."""
    needs("nginx", "openssl", "curl")
    host = Host(folder / "balancer")
    with proxied_by(host, nginx_words(host, BALANCER)):
        with host.started(host.file("rollout.service")):
            for clients, are_one in CLIENTS:
                found = polled(host, clients)
                if ("429" in found) != are_one or found[0] != "200" or {*found} - {"200", "429"}:
                    return f"{clients[0]} to {clients[-1]}: {found}"
            if not awaited(lambda: "192.0.2.129" in host.log().read_text(), 5):
                return "the log names no client"
            lines = [json.loads(it) for it in host.log().read_text().splitlines() if it[0] == "{"]
            forwarded = {it["forwarded"] for it in lines if "forwarded" in it}
    named = {"198.51.100.0", "2001:db8::1", "192.0.2.129"}
    if not named <= forwarded or "203.0.113.2" in forwarded:
        return f"the log names {sorted(forwarded)}"


PROXIED = {
    "examples/deploy: the site of nginx": site_of_nginx,
    "examples/deploy: the site behind a balancer": behind_balancer,
}
