//! Writing: compact JSON as `serde_json` writes it, keys in the order of their bytes.
use crate::val::{Own, Val};
use std::collections::BTreeMap;

pub fn num(out: &mut Vec<u8>, n: u64) {
    let mut buf = [0u8; 20];
    let mut i = 20;
    let mut n = n;
    loop {
        i -= 1;
        buf[i] = b'0' + (n % 10) as u8;
        n /= 10;
        if n == 0 {
            break;
        }
    }
    out.extend_from_slice(&buf[i..]);
}

fn int(out: &mut Vec<u8>, n: i64) {
    if n < 0 {
        out.push(b'-');
    }
    num(out, n.unsigned_abs());
}

pub fn text(out: &mut Vec<u8>, s: &str) {
    out.push(b'"');
    let b = s.as_bytes();
    let mut from = 0;
    for (i, &c) in b.iter().enumerate() {
        if c >= 0x20 && c != b'"' && c != b'\\' {
            continue;
        }
        out.extend_from_slice(&b[from..i]);
        from = i + 1;
        match c {
            b'"' => out.extend_from_slice(b"\\\""),
            b'\\' => out.extend_from_slice(b"\\\\"),
            8 => out.extend_from_slice(b"\\b"),
            9 => out.extend_from_slice(b"\\t"),
            10 => out.extend_from_slice(b"\\n"),
            12 => out.extend_from_slice(b"\\f"),
            13 => out.extend_from_slice(b"\\r"),
            _ => {
                const HEX: &[u8; 16] = b"0123456789abcdef";
                out.extend_from_slice(b"\\u00");
                out.push(HEX[(c >> 4) as usize]);
                out.push(HEX[(c & 15) as usize]);
            }
        }
    }
    out.extend_from_slice(&b[from..]);
    out.push(b'"');
}

pub fn base64(out: &mut Vec<u8>, bytes: &[u8]) {
    out.push(b'"');
    let at = out.len();
    out.resize(at + bytes.len().div_ceil(3) * 4, 0);
    let n = base64::encode_config_slice(bytes, base64::STANDARD, &mut out[at..]);
    out.truncate(at + n);
    out.push(b'"');
}

pub fn buffers(out: &mut Vec<u8>, list: &[Vec<u8>]) {
    out.push(b'[');
    for (i, b) in list.iter().enumerate() {
        if i > 0 {
            out.push(b',');
        }
        base64(out, b);
    }
    out.push(b']');
}

pub fn val(out: &mut Vec<u8>, v: &Val) {
    match v {
        Val::Null | Val::Float => out.extend_from_slice(b"null"),
        Val::Bool(true) => out.extend_from_slice(b"true"),
        Val::Bool(false) => out.extend_from_slice(b"false"),
        Val::U(n) => num(out, *n),
        Val::I(n) => int(out, *n),
        Val::Text(t) => text(out, t),
        Val::List(l) => {
            out.push(b'[');
            for (i, v) in l.iter().enumerate() {
                if i > 0 {
                    out.push(b',');
                }
                val(out, v);
            }
            out.push(b']');
        }
        Val::Dict(d) => dict(out, d),
    }
}

pub fn dict(out: &mut Vec<u8>, d: &crate::val::Dict) {
    out.push(b'{');
    for (i, (k, v)) in d.iter().enumerate() {
        if i > 0 {
            out.push(b',');
        }
        text(out, k);
        out.push(b':');
        val(out, v);
    }
    out.push(b'}');
}

/// The plain state: no buffers, a list place of a buffer is null.
pub fn plain_dict(out: &mut Vec<u8>, d: &BTreeMap<Box<str>, Own>) {
    out.push(b'{');
    let mut first = true;
    for (k, v) in d {
        if let Own::Bytes(_) = v {
            continue;
        }
        if !first {
            out.push(b',');
        }
        first = false;
        text(out, k);
        out.push(b':');
        plain(out, v);
    }
    out.push(b'}');
}

fn plain(out: &mut Vec<u8>, v: &Own) {
    match v {
        Own::Null | Own::Bytes(_) => out.extend_from_slice(b"null"),
        Own::Bool(true) => out.extend_from_slice(b"true"),
        Own::Bool(false) => out.extend_from_slice(b"false"),
        Own::U(n) => num(out, *n),
        Own::I(n) => int(out, *n),
        Own::Text(t) => text(out, t),
        Own::List(l) => {
            out.push(b'[');
            for (i, v) in l.iter().enumerate() {
                if i > 0 {
                    out.push(b',');
                }
                plain(out, v);
            }
            out.push(b']');
        }
        Own::Dict(d) => plain_dict(out, d),
    }
}

/// The buffers of a state go to `out` as base64 texts, their paths to `paths` as JSON.
pub struct Split {
    pub paths: Vec<u8>,
    here: Vec<u8>,
    count: usize,
}

impl Split {
    pub fn new() -> Split {
        Split { paths: Vec::new(), here: Vec::new(), count: 0 }
    }

    /// Writes the list of buffers of `d`; `self.paths` is then the list of paths.
    pub fn write(&mut self, out: &mut Vec<u8>, d: &BTreeMap<Box<str>, Own>) {
        self.paths.clear();
        self.here.clear();
        self.count = 0;
        out.push(b'[');
        self.paths.push(b'[');
        self.dict(out, d);
        out.push(b']');
        self.paths.push(b']');
    }

    fn dict(&mut self, out: &mut Vec<u8>, d: &BTreeMap<Box<str>, Own>) {
        for (k, v) in d {
            if let Own::Bytes(_) | Own::List(_) | Own::Dict(_) = v {
                let at = self.here.len();
                text(&mut self.here, k);
                self.node(out, v, at);
            }
        }
    }

    fn node(&mut self, out: &mut Vec<u8>, v: &Own, at: usize) {
        match v {
            Own::Bytes(b) => {
                if self.count > 0 {
                    out.push(b',');
                    self.paths.push(b',');
                }
                self.count += 1;
                self.paths.push(b'[');
                self.paths.extend_from_slice(&self.here);
                self.paths.push(b']');
                base64(out, b);
            }
            Own::Dict(d) => {
                self.here.push(b',');
                self.dict(out, d);
            }
            Own::List(l) => {
                self.here.push(b',');
                for (i, v) in l.iter().enumerate() {
                    if let Own::Bytes(_) | Own::List(_) | Own::Dict(_) = v {
                        let at = self.here.len();
                        num(&mut self.here, i as u64);
                        self.node(out, v, at);
                    }
                }
            }
            _ => {}
        }
        self.here.truncate(at);
    }
}
