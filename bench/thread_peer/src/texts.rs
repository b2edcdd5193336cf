//! States as JSON texts, as the library for C takes and gives them.
use crate::sorted::{Dict, Val};
use serde_json::{Map, Value};
use std::fmt::Write;
use std::sync::Arc;

/// The state that a text has: an object of unsigned numbers.
pub fn state_of(text: &str) -> Dict {
    let members: Map<String, Value> = serde_json::from_str(text).expect("an object");
    let number = |value: &Value| Val::Unsigned(value.as_u64().expect("an unsigned number"));
    let keys = members.keys().map(|key| Arc::from(key.as_str())).collect();
    Dict::new(keys, members.values().map(number).collect())
}

/// The text of a state of unsigned numbers.
pub fn text_of(state: &Dict) -> String {
    let members = state.iter().map(|(key, value)| match value {
        Val::Unsigned(number) => (key, number),
        _ => panic!("an unsigned number"),
    });
    object_of(members)
}

/// The text of what a list of comms says.
pub fn infos_of(comms: &[(Arc<str>, Arc<str>)]) -> String {
    let mut text = String::from("{\"comms\":{");
    for (n, (id, target)) in comms.iter().enumerate() {
        text.push_str(if n > 0 { "," } else { "" });
        text.push_str(&serde_json::to_string(&**id).expect("a text"));
        text.push_str(":{\"target_name\":");
        text.push_str(&serde_json::to_string(&**target).expect("a text"));
        text.push('}');
    }
    text.push_str("}}");
    text
}

fn object_of<'a>(members: impl Iterator<Item = (&'a Arc<str>, &'a u64)>) -> String {
    let mut text = String::from("{");
    for (n, (key, number)) in members.enumerate() {
        text.push_str(if n > 0 { "," } else { "" });
        text.push_str(&serde_json::to_string(&**key).expect("a text"));
        write!(text, ":{number}").expect("memory");
    }
    text.push('}');
    text
}
