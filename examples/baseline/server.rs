//! A plain server to measure beside: rustc -O server.rs; server ADDRESS WORKERS REPLIES
//!
//! REPLIES is a file of lines `PATH BODY`, whose bodies are answered from memory. An upload to any
//! changeset has its JSON parsed, its placeholders replaced and its elements kept under one lock, and
//! gets its diff result. No users, no rules of the map, no indexes, no limits. std alone, one thread a
//! worker, all on one listener.
use std::collections::HashMap;
use std::io::{self, Read, Write};
use std::net::{TcpListener, TcpStream};
use std::sync::{Arc, Mutex};
use std::{env, fs, thread};

const KINDS: [&str; 3] = ["node", "way", "relation"];

/// A value of JSON; a number is whole.
enum Value {
    /// `true`, `false` or `null`.
    Word,
    Number(i64),
    Text(String),
    List(Vec<Value>),
    Object(Vec<(String, Value)>),
}

impl Value {
    fn member(&self, name: &str) -> Option<&Value> {
        match self {
            Value::Object(members) => members.iter().find(|it| it.0 == name).map(|it| &it.1),
            _ => None,
        }
    }

    fn number(&self, name: &str) -> Option<i64> {
        match self.member(name)? {
            Value::Number(number) => Some(*number),
            _ => None,
        }
    }

    fn list(&self, name: &str) -> Option<&[Value]> {
        match self.member(name)? {
            Value::List(list) => Some(list),
            _ => None,
        }
    }
}

/// Reads JSON from its bytes.
struct Reader<'a> {
    left: &'a [u8],
}

impl Reader<'_> {
    fn next(&mut self) -> Option<u8> {
        while let [b' ' | b'\n' | b'\r' | b'\t', rest @ ..] = self.left {
            self.left = rest;
        }
        self.left.first().copied()
    }

    fn takes(&mut self, byte: u8) -> bool {
        let is = self.next() == Some(byte);
        self.left = &self.left[usize::from(is)..];
        is
    }

    fn word(&mut self, word: &str) -> Option<Value> {
        self.left = self.left.strip_prefix(word.as_bytes())?;
        Some(Value::Word)
    }

    fn value(&mut self) -> Option<Value> {
        match self.next()? {
            b'{' => self.object(),
            b'[' => self.list(),
            b'"' => self.text().map(Value::Text),
            b't' => self.word("true"),
            b'f' => self.word("false"),
            b'n' => self.word("null"),
            _ => self.number(),
        }
    }

    fn number(&mut self) -> Option<Value> {
        let is_part = |byte: &u8| byte.is_ascii_digit() || *byte == b'-';
        let end = self.left.iter().position(|byte| !is_part(byte)).unwrap_or(self.left.len());
        let (digits, rest) = self.left.split_at(end);
        self.left = rest;
        std::str::from_utf8(digits).ok()?.parse().ok().map(Value::Number)
    }

    /// A text without escapes other than of one byte.
    fn text(&mut self) -> Option<String> {
        let mut bytes = Vec::new();
        self.left = &self.left[1..];
        loop {
            match self.left {
                [b'"', rest @ ..] => {
                    self.left = rest;
                    return String::from_utf8(bytes).ok();
                }
                [b'\\', byte, rest @ ..] | [byte, rest @ ..] => {
                    bytes.push(*byte);
                    self.left = rest;
                }
                [] => return None,
            }
        }
    }

    fn list(&mut self) -> Option<Value> {
        let mut list = Vec::new();
        self.left = &self.left[1..];
        while !self.takes(b']') {
            list.push(self.value()?);
            if !self.takes(b',') && self.next() != Some(b']') {
                return None;
            }
        }
        Some(Value::List(list))
    }

    fn object(&mut self) -> Option<Value> {
        let mut members = Vec::new();
        self.left = &self.left[1..];
        while !self.takes(b'}') {
            if self.next() != Some(b'"') {
                return None;
            }
            let name = self.text()?;
            if !self.takes(b':') {
                return None;
            }
            members.push((name, self.value()?));
            if !self.takes(b',') && self.next() != Some(b'}') {
                return None;
            }
        }
        Some(Value::Object(members))
    }
}

/// What is kept of an element, which nothing here reads again.
#[allow(dead_code)]
enum Element {
    Node { lat7: i64, lon7: i64 },
    Listing { refs: Vec<i64> },
}

#[derive(Default)]
struct Map {
    elements: [HashMap<i64, Element>; 3],
    highest: [i64; 3],
}

/// The element that a create has, with the references as they are said.
fn element_of(value: &Value) -> Option<(usize, i64, Element)> {
    let Value::Text(kind) = value.member("type")? else {
        return None;
    };
    let kind = KINDS.iter().position(|it| it == kind)?;
    let element = if kind == 0 {
        Element::Node { lat7: value.number("lat7")?, lon7: value.number("lon7")? }
    } else {
        let refs = value.list("nodes")?.iter().map(|it| match it {
            Value::Number(number) => Some(*number),
            _ => None,
        });
        Element::Listing { refs: refs.collect::<Option<_>>()? }
    };
    Some((kind, value.number("id")?, element))
}

/// Keeps what the upload creates, and gives its diff result.
fn upload(map: &Mutex<Map>, body: &[u8]) -> Option<Vec<u8>> {
    let document = Reader { left: body }.value()?;
    let mut created = Vec::new();
    for block in document.list("osmChange")? {
        for value in block.list("create")? {
            created.push(element_of(value)?);
        }
    }
    let mut ids = HashMap::new();
    let mut answer = b"{\"diffResult\":[".to_vec();
    let mut map = map.lock().ok()?;
    for (kind, said, mut element) in created {
        map.highest[kind] += 1;
        let id = map.highest[kind];
        ids.insert((kind, said), id);
        if let Element::Listing { refs } = &mut element {
            for it in refs {
                *it = ids.get(&(0, *it)).copied().unwrap_or(*it);
            }
        }
        map.elements[kind].insert(id, element);
        let comma = if ids.len() > 1 { "," } else { "" };
        let name = KINDS[kind];
        write!(answer, "{comma}{{\"new_id\":{id},\"new_version\":1,\"old_id\":{said},\"type\":\"{name}\"}}").ok()?;
    }
    answer.extend_from_slice(b"],\"version\":\"0.6\"}");
    Some(answer)
}

/// The next request in the buffer: its length with the body, and where the body begins.
fn whole(held: &[u8]) -> Option<(usize, usize)> {
    let head = held.windows(4).position(|it| it == b"\r\n\r\n")? + 4;
    let text = std::str::from_utf8(&held[..head]).ok()?;
    let length = text.lines().find_map(|line| {
        let (name, value) = line.split_once(':')?;
        name.eq_ignore_ascii_case("content-length").then(|| value.trim().parse::<usize>().ok())?
    });
    let end = head + length.unwrap_or(0);
    (held.len() >= end).then_some((end, head))
}

fn reply(out: &mut Vec<u8>, status: &str, body: &[u8]) {
    let length = body.len();
    let _ = write!(out, "HTTP/1.1 {status}\r\nContent-Type: application/json\r\nContent-Length: {length}\r\n\r\n");
    out.extend_from_slice(body);
}

fn serve(mut stream: TcpStream, replies: &HashMap<Vec<u8>, Vec<u8>>, map: &Mutex<Map>) -> io::Result<()> {
    stream.set_nodelay(true)?;
    let (mut held, mut out, mut part) = (Vec::new(), Vec::new(), [0_u8; 16_384]);
    loop {
        while let Some((end, head)) = whole(&held) {
            let path = held.split(|byte| *byte == b' ').nth(1).unwrap_or_default();
            out.clear();
            if held.starts_with(b"POST ") {
                match upload(map, &held[head..end]) {
                    Some(body) => reply(&mut out, "200 OK", &body),
                    None => reply(&mut out, "400 Bad Request", b"{}"),
                }
            } else {
                match replies.get(path) {
                    Some(body) => reply(&mut out, "200 OK", body),
                    None => reply(&mut out, "404 Not Found", b"{}"),
                }
            }
            stream.write_all(&out)?;
            held.drain(..end);
        }
        match stream.read(&mut part)? {
            0 => return Ok(()),
            count => held.extend_from_slice(&part[..count]),
        }
    }
}

fn main() -> io::Result<()> {
    let words: Vec<String> = env::args().collect();
    let [_, address, workers, file] = words.as_slice() else {
        return Err(io::Error::other("usage: server ADDRESS WORKERS REPLIES"));
    };
    let lines = fs::read_to_string(file)?;
    let pairs = lines.lines().filter_map(|line| line.split_once(' '));
    let replies = Arc::new(pairs.map(|(path, body)| (path.into(), body.into())).collect::<HashMap<_, _>>());
    let map = Arc::new(Mutex::new(Map::default()));
    let listener = Arc::new(TcpListener::bind(address)?);
    let threads = (0..workers.parse().unwrap_or(1)).map(|_| {
        let (listener, replies, map) = (listener.clone(), replies.clone(), map.clone());
        thread::spawn(move || {
            for stream in listener.incoming().flatten() {
                let _ = serve(stream, &replies, &map);
            }
        })
    });
    for thread in threads.collect::<Vec<_>>() {
        let _ = thread.join();
    }
    Ok(())
}
