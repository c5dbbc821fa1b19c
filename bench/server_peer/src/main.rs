//! A peer of `rollout serve` in plain Rust: the same replies to good requests, by threads, a lock
//! round a ruleset, `httparse` and `serde_json`. What it decides is fixed: of the apps that it
//! knows the last release is offered to the buckets below a bound. It checks less than the server
//! does.
//!
//!     server_peer serve PORT WORKERS     serves until it is killed
//!     server_peer answer TIMES RULESET   answers the request on standard input so often, over memory
//!
//! A RULESET is `worked`, which knows the app `x` with one release, or `many`, which knows 256 apps,
//! each with 64 releases of 16 packages.

use serde_json::{json, Map, Value};
use std::io::{self, Read, Write};
use std::net::{TcpListener, TcpStream};
use std::sync::atomic::{AtomicU64, Ordering};
use std::sync::mpsc::sync_channel;
use std::sync::{Arc, Mutex, RwLock};
use std::time::{Duration, SystemTime, UNIX_EPOCH};

const MAX_HEAD: usize = 16384;
const MAX_BODY: usize = 1 << 20;

struct Package {
    name: &'static str,
    hash: &'static str,
    size: u64,
}

struct Release {
    version: &'static str,
    codebase: &'static str,
    packages: Vec<Package>,
}

struct App {
    appid: String,
    below: u16,
    releases: Vec<Release>,
}

struct Ruleset {
    server: &'static str,
    apps: Vec<App>,
}

struct State {
    ruleset: RwLock<Arc<Ruleset>>,
    requests: AtomicU64,
}

fn package() -> Package {
    Package {
        name: "x.bin",
        hash: "ba7816bf8f01cfea414140de5dae2223b00361a396177a9cb410ff61f20015ad",
        size: 3,
    }
}

fn release(packages: usize) -> Release {
    Release {
        version: "2.0.0.0",
        codebase: "http://dl.example/",
        packages: (0..packages).map(|_| package()).collect(),
    }
}

fn app(appid: String, below: u16, releases: usize, packages: usize) -> App {
    App { appid, below, releases: (0..releases).map(|_| release(packages)).collect() }
}

fn worked() -> Ruleset {
    Ruleset { server: "prod", apps: vec![app("x".to_string(), 2000, 1, 1)] }
}

fn many() -> Ruleset {
    let apps = (0..256).map(|number| app(format!("app{number}"), 10000, 64, 16)).collect();
    Ruleset { server: "prod", apps }
}

fn fnv1a(bytes: &[u8]) -> u64 {
    bytes.iter().fold(14695981039346656037, |hash, byte| {
        (hash ^ u64::from(*byte)).wrapping_mul(1099511628211)
    })
}

fn text<'a>(value: &'a Value, name: &str) -> Option<&'a str> {
    value.get(name).and_then(Value::as_str)
}

fn bucket(app: &Value, request: &Value) -> u16 {
    if let Some(digits) = text(app, "cohort").and_then(|cohort| cohort.strip_prefix("b:")) {
        if digits.len() == 4 && digits.bytes().all(|byte| byte.is_ascii_digit()) {
            return digits.parse().unwrap_or(0);
        }
    }
    let id = text(request, "requestid").filter(|id| !id.is_empty());
    let id = id.or_else(|| text(request, "sessionid")).unwrap_or("");
    (fnv1a(id.as_bytes()) % 10000) as u16
}

fn has(app: &Value, name: &str) -> bool {
    app.get(name).is_some_and(|value| !value.is_null())
}

fn file(package: &Package) -> Value {
    json!({
        "hash_sha256": package.hash, "name": package.name, "required": true, "size": package.size,
    })
}

fn update(release: &Release) -> Value {
    let packages: Vec<Value> = release.packages.iter().map(file).collect();
    json!({
        "manifest": {"packages": {"package": packages}, "version": release.version},
        "status": "ok",
        "urls": {"url": [{"codebase": release.codebase}]},
    })
}

fn app_reply(state: &State, ruleset: &Ruleset, request: &Value, app: &Value) -> Option<Value> {
    let appid = text(app, "appid")?;
    let mut reply = Map::new();
    reply.insert("appid".into(), appid.into());
    let Some(known) = ruleset.apps.iter().find(|known| known.appid == appid) else {
        reply.insert("status".into(), "error-unknownApplication".into());
        return Some(Value::Object(reply));
    };
    let bucket = bucket(app, request);
    reply.insert("cohort".into(), format!("b:{bucket:04}").into());
    if has(app, "ping") {
        reply.insert("ping".into(), json!({"status": "ok"}));
    }
    reply.insert("status".into(), "ok".into());
    if has(app, "updatecheck") {
        state.requests.fetch_add(1, Ordering::SeqCst);
        let release = known.releases.last().filter(|_| bucket < known.below);
        let answer = release.map_or(json!({"status": "noupdate"}), update);
        reply.insert("updatecheck".into(), answer);
    }
    Some(Value::Object(reply))
}

fn reply(state: &State, body: &[u8], moment: u64) -> Option<String> {
    let value: Value = serde_json::from_slice(body).ok()?;
    let request = value.get("request")?;
    if text(request, "protocol") != Some("3.1") {
        return None;
    }
    let ruleset = state.ruleset.read().ok()?.clone();
    let none = Vec::new();
    let apps = request.get("app").map_or(Some(&none), Value::as_array)?;
    let apps: Option<Vec<Value>> =
        apps.iter().map(|app| app_reply(state, &ruleset, request, app)).collect();
    let since = moment.saturating_sub(1167609600);
    let reply = json!({"response": {
        "app": apps?,
        "daystart": {"elapsed_days": since / 86400, "elapsed_seconds": since % 86400},
        "protocol": "3.1",
        "server": ruleset.server,
    }});
    Some(format!(")]}}'\n{reply}"))
}

/// The length of the head, and of the body that it gives.
fn head(bytes: &[u8]) -> Option<(usize, usize)> {
    let mut headers = [httparse::EMPTY_HEADER; 64];
    let mut request = httparse::Request::new(&mut headers);
    let httparse::Status::Complete(end) = request.parse(bytes).ok()? else {
        return None;
    };
    if request.method != Some("POST") || request.path != Some("/service/update2/json") {
        return None;
    }
    let length = request.headers.iter().find(|header| {
        header.name.eq_ignore_ascii_case("content-length")
    })?;
    let length = std::str::from_utf8(length.value).ok()?.parse().ok()?;
    (length <= MAX_BODY).then_some((end, length))
}

fn read_post(reader: &mut impl Read) -> io::Result<Option<Vec<u8>>> {
    let mut bytes = Vec::with_capacity(1024);
    let mut room = [0; 4096];
    loop {
        let count = reader.read(&mut room)?;
        bytes.extend_from_slice(&room[..count]);
        if let Some((end, length)) = head(&bytes) {
            while bytes.len() < end + length {
                let count = reader.read(&mut room)?;
                if count == 0 {
                    return Ok(None);
                }
                bytes.extend_from_slice(&room[..count]);
            }
            return Ok(Some(bytes[end..end + length].to_vec()));
        }
        if count == 0 || bytes.len() >= MAX_HEAD {
            return Ok(None);
        }
    }
}

fn answer(
    state: &State,
    reader: &mut impl Read,
    writer: &mut impl Write,
    moment: u64,
) -> io::Result<()> {
    let body = read_post(reader)?;
    let reply = body.and_then(|body| reply(state, &body, moment));
    let (status, kind, text) = match reply {
        Some(text) => ("200 OK", "application/json; charset=utf-8", text),
        None => ("400 Bad Request", "text/plain", "O1 Json\n".to_string()),
    };
    let head = format!(
        "HTTP/1.1 {status}\r\nContent-Type: {kind}\r\nContent-Length: {}\r\nConnection: close\r\n\r\n",
        text.len()
    );
    writer.write_all(head.as_bytes())?;
    writer.write_all(text.as_bytes())
}

fn now() -> u64 {
    SystemTime::now().duration_since(UNIX_EPOCH).map_or(0, |since| since.as_secs())
}

fn serve(state: Arc<State>, port: u16, workers: usize) -> io::Result<()> {
    let listener = TcpListener::bind(("127.0.0.1", port))?;
    let (sender, receiver) = sync_channel::<TcpStream>(64);
    let receiver = Arc::new(Mutex::new(receiver));
    for _ in 0..workers {
        let (receiver, state) = (receiver.clone(), state.clone());
        std::thread::spawn(move || loop {
            let Ok(stream) = receiver.lock().unwrap().recv() else { return };
            let _ = stream.set_read_timeout(Some(Duration::from_secs(30)));
            let _ = stream.set_write_timeout(Some(Duration::from_secs(30)));
            let _ = answer(&state, &mut &stream, &mut &stream, now());
        });
    }
    for stream in listener.incoming().flatten() {
        if sender.send(stream).is_err() {
            break;
        }
    }
    Ok(())
}

fn main() -> io::Result<()> {
    let words: Vec<String> = std::env::args().collect();
    let ruleset = if words.get(3).is_some_and(|word| word == "many") { many() } else { worked() };
    let state = State { ruleset: RwLock::new(Arc::new(ruleset)), requests: AtomicU64::new(0) };
    let number = |at: usize| words.get(at).and_then(|word| word.parse::<u64>().ok()).unwrap_or(1);
    match words.get(1).map(String::as_str) {
        Some("serve") => serve(Arc::new(state), number(2) as u16, number(3) as usize),
        Some("answer") => {
            let mut body = Vec::new();
            io::stdin().read_to_end(&mut body)?;
            let mut written = Vec::new();
            for _ in 0..number(2) {
                written.clear();
                answer(&state, &mut &body[..], &mut written, 1772413200)?;
            }
            io::stdout().write_all(&written)
        }
        _ => Err(io::Error::other("serve PORT WORKERS, or answer TIMES RULESET")),
    }
}
