//! The lines of a script: a message of a frontend or a command of the kernel, or why it can't be read.
use crate::changes::Opening;
use crate::player::{Bad, Player, State, CLIENTS};
use crate::val::{get, own_dict, place, read_paths, take, Dict, PlaceFault, Val};
use std::borrow::Cow;

#[derive(Clone, Copy, PartialEq)]
enum Message {
    Open,
    Msg,
    Close,
    Info,
}

/// What a message holds beside its type.
struct Parts<'a> {
    id: Cow<'a, str>,
    target: Option<Cow<'a, str>>,
    data: Dict<'a>,
    metadata: Dict<'a>,
    buffers: Vec<Vec<u8>>,
}

impl Player {
    pub fn line(&mut self, number: u64, bytes: &[u8]) {
        if let Err(why) = self.play(bytes) {
            self.bad(number, &why);
        }
    }

    fn play(&mut self, bytes: &[u8]) -> Result<(), Bad> {
        let Ok(Val::Dict(mut line)) = serde_json::from_slice::<Val>(bytes) else {
            return Err(Bad::Words("not_json"));
        };
        let client = match get(&line, "client") {
            None | Some(Val::Null) => 0,
            Some(Val::U(n)) if *n < CLIENTS => *n as usize,
            Some(_) => return Err(Bad::Words("bad_client")),
        };
        if get(&line, "call").is_some() {
            return self.command(client, &mut line);
        }
        let message = type_of(take(&mut line, "header"))?;
        let Parts { id, target, data, metadata, buffers } = parts(message, &mut line)?;
        let target = target.as_deref();
        match message {
            Message::Info => self.info(client, target),
            Message::Close => self.close(client, &id, false),
            Message::Msg => self.msg(client, &id, data, buffers),
            Message::Open => {
                let version = match get(&metadata, "version") {
                    Some(Val::Text(version)) => Some(&**version),
                    _ => None,
                };
                self.open(client, &Opening { id: &id, target: target.unwrap_or(""), version }, data, buffers);
            }
        }
        Ok(())
    }

    fn command(&mut self, client: usize, line: &mut Dict) -> Result<(), Bad> {
        let call = match get(line, "call") {
            Some(Val::Text(call)) => call.clone(),
            _ => return Err(Bad::Words("unknown_call")),
        };
        let keys = keys_of(&call).ok_or(Bad::Words("unknown_call"))?;
        tested(keys, line)?;
        let mut buffers = if keys.contains(&"buffers") { decoded(get(line, "buffers"))? } else { Vec::new() };
        let data = dict_in(line, "data");
        let mut state = State::new();
        if keys.contains(&"state") {
            state = own_dict(dict_in(line, "state"));
            let paths = read_paths(get(line, "buffer_paths")).map_err(PlaceFault::Path)?;
            place(&mut state, &paths, std::mem::take(&mut buffers))?;
        }
        let text = |key: &str| match get(line, key) {
            Some(Val::Text(text)) => &**text,
            _ => "",
        };
        match &*call {
            "register" => return self.register(client, text("kind"), text("name")),
            "unregister" => self.unregister(client, text("name")),
            "launch" => return self.launch(client, text("name"), text("uuid"), state),
            "push" => self.push(client, text("id"), state),
            "send" => self.send(client, text("id"), &data, &buffers),
            "hang_up" => self.close(client, text("id"), true),
            _ => self.state(text("id")),
        }
        Ok(())
    }
}

fn type_of(header: Option<Val>) -> Result<Message, Bad> {
    let Some(Val::Dict(header)) = header else { return Err(Bad::Words("no_type")) };
    let Some(Val::Text(name)) = get(&header, "msg_type") else { return Err(Bad::Words("no_type")) };
    match &**name {
        "comm_open" => Ok(Message::Open),
        "comm_msg" => Ok(Message::Msg),
        "comm_close" => Ok(Message::Close),
        "comm_info_request" => Ok(Message::Info),
        _ => Err(Bad::Words("unknown_type")),
    }
}

fn parts<'a>(message: Message, line: &mut Dict<'a>) -> Result<Parts<'a>, Bad> {
    let mut content = object(take(line, "content"), "bad_content content")?;
    let id = match take(&mut content, "comm_id") {
        Some(Val::Text(id)) => id,
        _ if message == Message::Info => Cow::Borrowed(""),
        _ => return Err(Bad::Words("bad_content comm_id")),
    };
    let target = match (message, take(&mut content, "target_name")) {
        (Message::Open | Message::Info, Some(Val::Text(name))) => Some(name),
        (Message::Open, _) => return Err(Bad::Words("bad_content target_name")),
        (Message::Info, Some(Val::Null) | None) => None,
        (Message::Info, Some(_)) => return Err(Bad::Words("bad_content target_name")),
        _ => None,
    };
    let data = match take(&mut content, "data") {
        _ if message == Message::Info => Vec::new(),
        data => object(data, "bad_content data")?,
    };
    let metadata = object(take(line, "metadata"), "bad_content metadata")?;
    let is_kept = matches!(message, Message::Open | Message::Msg);
    if is_kept && !data.iter().all(|(_, value)| value.whole()) {
        return Err(Bad::Words("not_whole"));
    }
    let buffers = decoded(get(line, "buffers"))?;
    Ok(Parts { id, target, data, metadata, buffers })
}

fn object<'a>(value: Option<Val<'a>>, words: &'static str) -> Result<Dict<'a>, Bad> {
    match value {
        None | Some(Val::Null) => Ok(Vec::new()),
        Some(Val::Dict(dict)) => Ok(dict),
        Some(_) => Err(Bad::Words(words)),
    }
}

fn dict_in<'a>(line: &mut Dict<'a>, key: &str) -> Dict<'a> {
    match take(line, key) {
        Some(Val::Dict(dict)) => dict,
        _ => Vec::new(),
    }
}

fn keys_of(call: &str) -> Option<&'static [&'static str]> {
    Some(match call {
        "register" => &["kind", "name"],
        "unregister" => &["name"],
        "launch" => &["name", "uuid", "state", "buffer_paths", "buffers"],
        "push" => &["id", "state", "buffer_paths", "buffers"],
        "send" => &["id", "data", "buffers"],
        "hang_up" | "state" => &["id"],
        _ => return None,
    })
}

fn tested(keys: &[&'static str], line: &Dict) -> Result<(), Bad> {
    for key in keys {
        let value = get(line, key);
        let is_good = match *key {
            "kind" => {
                matches!(value, Some(Val::Text(t)) if matches!(&**t, "echo" | "counter" | "widget" | "widget_echo"))
            }
            "state" | "data" => matches!(value, None | Some(Val::Null) | Some(Val::Dict(_))),
            "buffers" => matches!(value, None | Some(Val::Null) | Some(Val::List(_))),
            "buffer_paths" => true,
            _ => matches!(value, Some(Val::Text(_))),
        };
        if !is_good {
            return Err(Bad::Field(key));
        }
    }
    for key in ["state", "data", "buffer_paths"] {
        if keys.contains(&key) && !get(line, key).map_or(true, Val::whole) {
            return Err(Bad::Words("not_whole"));
        }
    }
    Ok(())
}

fn decoded(value: Option<&Val>) -> Result<Vec<Vec<u8>>, Bad> {
    let list = match value {
        None | Some(Val::Null) => return Ok(Vec::new()),
        Some(Val::List(list)) => list,
        Some(_) => return Err(Bad::Words("bad_content buffers")),
    };
    let one = |(n, value): (usize, &Val)| match value {
        // `base64` 0.13 takes text without padding
        Val::Text(t) if t.len() % 4 == 0 => base64::decode_config(&**t, base64::STANDARD).map_err(|_| n),
        _ => Err(n),
    };
    list.iter().enumerate().map(one).collect::<Result<_, usize>>().map_err(|n| Bad::At("bad_buffer", n))
}
