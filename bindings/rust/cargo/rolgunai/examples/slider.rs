//! The life of a slider: a frontend opens it, moves it and closes it, and each message that is to be sent is shown.

use rolgunai::{Error, Kind, Manager, Outcome};

const METADATA: &[u8] = br#"{"version":"2.1.0"}"#;

fn show(what: &str, came: &Outcome) {
    println!("{what}: {}", came.reply);
    for sent in &came.sent {
        println!("  {} {}", sent.message_type, sent.content);
    }
}

fn main() -> Result<(), Error> {
    let mut manager = Manager::new(4096)?;
    manager.register(0, Kind::WidgetEcho, "jupyter.widget")?;
    let open = br#"{"comm_id":"a","target_name":"jupyter.widget","data":{"state":{"value":1},"buffer_paths":[]}}"#;
    show("open", &manager.message(0, br#"{"msg_type":"comm_open"}"#, METADATA, open, &[])?);
    let moved = br#"{"comm_id":"a","data":{"method":"update","state":{"value":2},"buffer_paths":[]}}"#;
    show("move", &manager.message(0, br#"{"msg_type":"comm_msg"}"#, METADATA, moved, &[])?);
    show("set", &manager.push(0, "a", br#"{"value":7}"#, b"[]", &[])?);
    show("close", &manager.close(0, "a")?);
    Ok(())
}
