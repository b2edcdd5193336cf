//! Values: `Val` borrows from the line, `Own` stands in a comm's state.
use serde::de::{Deserialize, Deserializer, Error, MapAccess, SeqAccess, Visitor};
use std::borrow::Cow;
use std::collections::BTreeMap;
use std::fmt;

pub type Dict<'a> = Vec<(Cow<'a, str>, Val<'a>)>;

pub enum Val<'a> {
    Null,
    Bool(bool),
    U(u64),
    I(i64),
    Float,
    Text(Cow<'a, str>),
    List(Vec<Val<'a>>),
    Dict(Dict<'a>),
}

struct Key<'a>(Cow<'a, str>);
struct KeyVisitor;
impl<'de> Visitor<'de> for KeyVisitor {
    type Value = Key<'de>;
    fn expecting(&self, f: &mut fmt::Formatter) -> fmt::Result {
        f.write_str("a key")
    }
    fn visit_borrowed_str<E: Error>(self, s: &'de str) -> Result<Key<'de>, E> {
        Ok(Key(Cow::Borrowed(s)))
    }
    fn visit_str<E: Error>(self, s: &str) -> Result<Key<'de>, E> {
        Ok(Key(Cow::Owned(s.to_owned())))
    }
}
impl<'de> Deserialize<'de> for Key<'de> {
    fn deserialize<D: Deserializer<'de>>(d: D) -> Result<Self, D::Error> {
        d.deserialize_str(KeyVisitor)
    }
}

struct ValVisitor;
impl<'de> Visitor<'de> for ValVisitor {
    type Value = Val<'de>;
    fn expecting(&self, f: &mut fmt::Formatter) -> fmt::Result {
        f.write_str("a value")
    }
    fn visit_unit<E: Error>(self) -> Result<Val<'de>, E> {
        Ok(Val::Null)
    }
    fn visit_bool<E: Error>(self, b: bool) -> Result<Val<'de>, E> {
        Ok(Val::Bool(b))
    }
    fn visit_u64<E: Error>(self, n: u64) -> Result<Val<'de>, E> {
        Ok(Val::U(n))
    }
    fn visit_i64<E: Error>(self, n: i64) -> Result<Val<'de>, E> {
        Ok(if n < 0 { Val::I(n) } else { Val::U(n as u64) })
    }
    fn visit_f64<E: Error>(self, _: f64) -> Result<Val<'de>, E> {
        Ok(Val::Float)
    }
    fn visit_borrowed_str<E: Error>(self, s: &'de str) -> Result<Val<'de>, E> {
        Ok(Val::Text(Cow::Borrowed(s)))
    }
    fn visit_str<E: Error>(self, s: &str) -> Result<Val<'de>, E> {
        Ok(Val::Text(Cow::Owned(s.to_owned())))
    }
    fn visit_seq<A: SeqAccess<'de>>(self, mut a: A) -> Result<Val<'de>, A::Error> {
        let mut items = Vec::new();
        while let Some(v) = a.next_element()? {
            items.push(v);
        }
        Ok(Val::List(items))
    }
    fn visit_map<A: MapAccess<'de>>(self, mut a: A) -> Result<Val<'de>, A::Error> {
        let mut items: Dict<'de> = Vec::new();
        let mut sorted = true;
        while let Some(k) = a.next_key::<Key<'de>>()? {
            if let Some((last, _)) = items.last() {
                sorted &= last.as_bytes() < k.0.as_bytes();
            }
            items.push((k.0, a.next_value()?));
        }
        if !sorted {
            // stable, and the later of two equal keys wins, as in serde_json's map
            items.sort_by(|a, b| a.0.as_bytes().cmp(b.0.as_bytes()));
            items.reverse();
            items.dedup_by(|a, b| a.0 == b.0);
            items.reverse();
        }
        Ok(Val::Dict(items))
    }
}
impl<'de> Deserialize<'de> for Val<'de> {
    fn deserialize<D: Deserializer<'de>>(d: D) -> Result<Self, D::Error> {
        d.deserialize_any(ValVisitor)
    }
}

pub fn get<'d, 'a>(d: &'d [(Cow<'a, str>, Val<'a>)], key: &str) -> Option<&'d Val<'a>> {
    d.iter().find(|(k, _)| k == key).map(|(_, v)| v)
}

/// Out of line, as in the peer that the limits were set by: inlined, it spares some lines of the peer 4%.
#[inline(never)]
pub fn take<'a>(d: &mut Dict<'a>, key: &str) -> Option<Val<'a>> {
    d.iter_mut().find(|(k, _)| k == key).map(|(_, v)| std::mem::replace(v, Val::Null))
}

impl<'a> Val<'a> {
    pub fn whole(&self) -> bool {
        match self {
            Val::Float => false,
            Val::List(l) => l.iter().all(Val::whole),
            Val::Dict(d) => d.iter().all(|(_, v)| v.whole()),
            _ => true,
        }
    }
}

#[derive(Clone)]
pub enum Own {
    Null,
    Bool(bool),
    U(u64),
    I(i64),
    Text(Box<str>),
    List(Vec<Own>),
    Dict(BTreeMap<Box<str>, Own>),
    Bytes(Vec<u8>),
}

pub fn own(v: Val) -> Own {
    match v {
        Val::Null | Val::Float => Own::Null, // no float comes here: `whole` was asked before
        Val::Bool(b) => Own::Bool(b),
        Val::U(n) => Own::U(n),
        Val::I(n) => Own::I(n),
        Val::Text(t) => Own::Text(t.into()),
        Val::List(l) => Own::List(l.into_iter().map(own).collect()),
        Val::Dict(d) => Own::Dict(own_dict(d)),
    }
}

pub fn own_dict(d: Dict) -> BTreeMap<Box<str>, Own> {
    d.into_iter().map(|(k, v)| (Box::from(k), own(v))).collect()
}

pub enum Step<'a> {
    Key(&'a str),
    Index(u64),
}

pub fn read_paths<'v>(j: Option<&'v Val>) -> Result<Vec<Vec<Step<'v>>>, usize> {
    let list = match j {
        None | Some(Val::Null) => return Ok(Vec::new()),
        Some(Val::List(l)) => l,
        Some(_) => return Err(0),
    };
    let mut paths = Vec::with_capacity(list.len());
    for (n, item) in list.iter().enumerate() {
        let Val::List(steps) = item else { return Err(n) };
        let mut path = Vec::with_capacity(steps.len());
        for s in steps {
            path.push(match s {
                Val::Text(t) => Step::Key(t),
                Val::U(i) => Step::Index(*i),
                _ => return Err(n),
            });
        }
        paths.push(path);
    }
    Ok(paths)
}

pub enum PlaceFault {
    Path(usize),
    Missing(usize),
}

pub fn place(
    state: &mut BTreeMap<Box<str>, Own>,
    paths: &[Vec<Step>],
    buffers: Vec<Vec<u8>>,
) -> Result<(), PlaceFault> {
    let mut buffers = buffers.into_iter();
    for (n, path) in paths.iter().enumerate() {
        let b = buffers.next().ok_or(PlaceFault::Missing(n))?;
        put(state, path, b).ok_or(PlaceFault::Path(n))?;
    }
    Ok(())
}

fn put(state: &mut BTreeMap<Box<str>, Own>, path: &[Step], b: Vec<u8>) -> Option<()> {
    let (first, rest) = path.split_first()?;
    let Step::Key(k) = first else { return None };
    if rest.is_empty() {
        state.insert(Box::from(*k), Own::Bytes(b));
        return Some(());
    }
    let mut at = state.get_mut(*k)?;
    let (last, between) = rest.split_last()?;
    for s in between {
        at = match (at, s) {
            (Own::Dict(d), Step::Key(k)) => d.get_mut(*k)?,
            (Own::List(l), Step::Index(i)) => l.get_mut(usize::try_from(*i).ok()?)?,
            _ => return None,
        };
    }
    match (at, last) {
        (Own::Dict(d), Step::Key(k)) => {
            d.insert(Box::from(*k), Own::Bytes(b));
        }
        (Own::List(l), Step::Index(i)) => *l.get_mut(usize::try_from(*i).ok()?)? = Own::Bytes(b),
        _ => return None,
    }
    Some(())
}
