//! The changes and reads, each of which says what came of it.
use crate::player::{Bad, Comm, Fault, Kind, Player, State, Target, COMMS};
use crate::val::{get, own, place, read_paths, take, Dict, Own, Val};
use crate::{out, w};
use std::borrow::Cow;

const STANDS: &str = "a comm's target stands";

/// An open, as a frontend's message has it.
pub struct Opening<'a> {
    pub id: &'a str,
    pub target: &'a str,
    pub version: Option<&'a str>,
}

impl Player {
    pub fn open(&mut self, client: usize, asked: &Opening, mut data: Dict, buffers: Vec<Vec<u8>>) {
        if self.comms.contains_key(asked.id) {
            return self.words(client, "id_in_use");
        }
        let slot = match self.target(asked.target) {
            None => Err(Fault::Word("no_target")),
            Some(_) if self.comms.len() >= COMMS => Err(Fault::Word("too_many_comms")),
            Some(slot) if !self.kind(slot).is_widget() => Ok((slot, None)),
            Some(slot) => widget_open(asked.version, &mut data, buffers).map(|s| (slot, Some(s))),
        };
        match slot {
            Err(fault) => {
                self.fault(client, "refused ", &fault);
                self.sent_close(client, asked.id);
            }
            Ok((slot, state)) => {
                self.add(asked.id, slot, state);
                self.words(client, "opened");
            }
        }
    }

    fn add(&mut self, id: &str, target: usize, state: Option<State>) {
        self.opened += 1;
        self.stale = true;
        self.comms.insert(Box::from(id), Comm { target, opened: self.opened, state });
    }

    pub fn msg(&mut self, client: usize, id: &str, data: Dict, buffers: Vec<Vec<u8>>) {
        let Some(comm) = self.comms.get(id) else {
            return self.words(client, "no_comm");
        };
        let target = self.targets[comm.target].as_mut().expect(STANDS);
        match target.kind {
            Kind::Echo => {
                self.words(client, "delivered");
                self.sent_body(client, id, &data, &buffers);
            }
            Kind::Counter => {
                target.notes = target.notes.saturating_add(1);
                let notes = target.notes;
                self.words(client, "delivered");
                self.sent_body(client, id, &vec![(Cow::Borrowed("count"), Val::U(notes))], &[]);
            }
            kind => self.widget_msg(client, id, kind, data, buffers),
        }
    }

    fn widget_msg(&mut self, client: usize, id: &str, kind: Kind, mut data: Dict, buffers: Vec<Vec<u8>>) {
        let method = match get(&data, "method") {
            Some(Val::Text(method)) => method.clone(),
            _ => return self.fault(client, "fault ", &Fault::Word("no_method")),
        };
        match &*method {
            "update" => match widget_update(&mut data, buffers) {
                Err(fault) => self.fault(client, "fault ", &fault),
                Ok(None) => self.words(client, "delivered"),
                Ok(Some(new)) => {
                    self.words(client, "delivered");
                    if kind == Kind::WidgetEcho && !new.is_empty() {
                        self.sent_update(client, id, "echo_update", &new);
                    }
                    self.merge(id, new);
                }
            },
            "request_state" => {
                let state = self.comms.get_mut(id).expect(STANDS).state.take().unwrap_or_default();
                self.words(client, "delivered");
                self.sent_update(client, id, "update", &state);
                self.comms.get_mut(id).expect(STANDS).state = Some(state);
            }
            "custom" => self.custom(client, get(&data, "content"), &buffers),
            _ => self.fault(client, "fault ", &Fault::Word("unknown_method")),
        }
    }

    fn custom(&mut self, client: usize, content: Option<&Val>, buffers: &[Vec<u8>]) {
        let Some(content) = content else {
            return self.words(client, "delivered");
        };
        self.reply(client);
        w!(self.out, "custom {\"buffers\":");
        out::buffers(&mut self.out, buffers);
        w!(self.out, ",\"content\":");
        out::val(&mut self.out, content);
        w!(self.out, "}\n");
    }

    fn merge(&mut self, id: &str, update: State) {
        let comm = self.comms.get_mut(id).expect(STANDS);
        let now = comm.state.get_or_insert_with(State::new);
        for (key, value) in update {
            now.insert(key, value);
        }
    }

    /// Writes the ids of the target's comms in the order of opening, then takes the target and its comms out and tells
    /// of each.
    fn end(&mut self, client: usize, slot: usize, word: &str) {
        let of_target = self.comms.iter().filter(|(_, comm)| comm.target == slot);
        let mut ids: Vec<(u64, Box<str>)> = of_target.map(|(id, comm)| (comm.opened, id.clone())).collect();
        ids.sort_unstable();
        self.reply(client);
        w!(self.out, word);
        w!(self.out, " [");
        for (i, (_, id)) in ids.iter().enumerate() {
            if i > 0 {
                self.out.push(b',');
            }
            out::text(&mut self.out, id);
        }
        w!(self.out, "]\n");
        for (_, id) in &ids {
            self.comms.remove(id);
            self.sent_close(client, id);
        }
        self.stale = true;
        self.targets[slot] = None;
    }

    pub fn close(&mut self, client: usize, id: &str, tell: bool) {
        if self.comms.remove(id).is_none() {
            return self.words(client, "no_comm");
        }
        self.stale = true;
        self.words(client, "closed");
        if tell {
            self.sent_close(client, id);
        }
    }

    pub fn info(&mut self, client: usize, filter: Option<&str>) {
        if self.stale {
            self.sorted.clear();
            self.sorted.extend(self.comms.iter().map(|(id, comm)| (id.clone(), comm.target)));
            self.sorted.sort_unstable();
            self.stale = false;
        }
        w!(self.out, "out {\"buffers\":[],\"client\":");
        out::num(&mut self.out, client as u64);
        w!(self.out, ",\"content\":{\"comms\":{");
        let mut first = true;
        for (id, slot) in &self.sorted {
            let name = &*self.targets[*slot].as_ref().expect(STANDS).name;
            if filter.is_some_and(|wanted| wanted != name) {
                continue;
            }
            if !first {
                self.out.push(b',');
            }
            first = false;
            out::text(&mut self.out, id);
            w!(self.out, ":{\"target_name\":");
            out::text(&mut self.out, name);
            self.out.push(b'}');
        }
        w!(self.out, "},\"status\":\"ok\"},\"front\":");
        out::num(&mut self.out, self.changes);
        w!(self.out, ",\"header\":{\"msg_type\":\"comm_info_reply\"},\"metadata\":{}}\n");
    }

    pub fn register(&mut self, client: usize, kind: &str, name: &str) -> Result<(), Bad> {
        let (at, kind) = match kind {
            "echo" => (0, Kind::Echo),
            "counter" => (1, Kind::Counter),
            "widget" => (2, Kind::Widget),
            _ => (3, Kind::WidgetEcho),
        };
        if self.stock[at] == 0 {
            return Err(Bad::Words("no_stock"));
        }
        match self.target(name) {
            Some(old) => self.end(client, old, "replaced"),
            None => self.words(client, "registered"),
        }
        self.stock[at] -= 1;
        self.targets.push(Some(Target { name: Box::from(name), kind, notes: 0 }));
        Ok(())
    }

    pub fn unregister(&mut self, client: usize, name: &str) {
        match self.target(name) {
            Some(slot) => self.end(client, slot, "unregistered"),
            None => self.words(client, "no_target"),
        }
    }

    pub fn launch(&mut self, client: usize, name: &str, uuid: &str, state: State) -> Result<(), Bad> {
        let is_urn = uuid.get(..9).is_some_and(|prefix| prefix.eq_ignore_ascii_case("urn:uuid:"));
        let given = if is_urn { format!("urn:uuid:{}", &uuid[9..]) } else { uuid.to_owned() };
        let uuid = uuid::Uuid::parse_str(&given).map_err(|_| Bad::Words("bad_uuid"))?;
        let mut room = uuid::Uuid::encode_buffer();
        let id: &str = uuid.hyphenated().encode_lower(&mut room);
        let refusal = match self.target(name) {
            _ if self.comms.contains_key(id) => "id_in_use",
            None => "no_target",
            Some(slot) if !self.kind(slot).is_widget() => "not_widget",
            Some(_) if self.comms.len() >= COMMS => "refused too_many_comms",
            Some(slot) => {
                self.words(client, "launched");
                self.sent_open(client, id, name, &state);
                self.add(id, slot, Some(state));
                return Ok(());
            }
        };
        self.words(client, refusal);
        Ok(())
    }

    pub fn push(&mut self, client: usize, id: &str, state: State) {
        match self.comms.get(id).map(|comm| self.kind(comm.target).is_widget()) {
            None => self.words(client, "no_comm"),
            Some(false) => self.words(client, "not_widget"),
            Some(true) => {
                self.words(client, "delivered");
                self.sent_update(client, id, "update", &state);
                self.merge(id, state);
            }
        }
    }

    pub fn send(&mut self, client: usize, id: &str, data: &Dict, buffers: &[Vec<u8>]) {
        if !self.comms.contains_key(id) {
            return self.words(client, "no_comm");
        }
        self.words(client, "delivered");
        self.sent_body(client, id, data, buffers);
    }

    pub fn state(&mut self, id: &str) {
        w!(self.out, "state ");
        out::num(&mut self.out, self.changes);
        match self.comms.get(id).map(|comm| &comm.state) {
            None => w!(self.out, " no_comm\n"),
            Some(None) => w!(self.out, " no_state\n"),
            Some(Some(state)) => {
                let mut buffers = Vec::new();
                self.split.write(&mut buffers, state);
                w!(self.out, " {\"buffer_paths\":");
                self.out.extend_from_slice(&self.split.paths);
                w!(self.out, ",\"buffers\":");
                self.out.extend_from_slice(&buffers);
                w!(self.out, ",\"state\":");
                out::plain_dict(&mut self.out, state);
                w!(self.out, "}\n");
            }
        }
    }
}

fn placed(state: Val, data: &Dict, buffers: Vec<Vec<u8>>) -> Result<State, Fault> {
    let Own::Dict(mut state) = own(state) else { return Err(Fault::Word("bad_state")) };
    let paths = read_paths(get(data, "buffer_paths")).map_err(Fault::Path)?;
    place(&mut state, &paths, buffers)?;
    Ok(state)
}

fn widget_open(version: Option<&str>, data: &mut Dict, buffers: Vec<Vec<u8>>) -> Result<State, Fault> {
    if version.unwrap_or("").split('.').next() != Some("2") {
        return Err(Fault::Word("wrong_version"));
    }
    let state = take(data, "state").ok_or(Fault::Word("no_state"))?;
    placed(state, data, buffers)
}

fn widget_update(data: &mut Dict, buffers: Vec<Vec<u8>>) -> Result<Option<State>, Fault> {
    take(data, "state").map(|state| placed(state, data, buffers)).transpose()
}
