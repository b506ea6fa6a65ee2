//! One whole job: cable bytes in, receiver, adapter, transmitter, cable bytes out, and a step back.
//!
//! The first frame enables the parallel lines, the second reads them. Between them the pins are sampled; at the end the
//! reading is taken back and done again, and is answered as before.

use sca::{transmit, Adapter, Answer, Edge, Heard, JournalSize, Port, Receiver, Refusal};

const ENABLE_LINES: [u8; 14] = [
    0x7E, 0x00, 0x00, 0x01, 0x00, 0x04, 0x02, 0x00, 0x04, 0x00, 0x00, 0x82, 0x87, 0x7E,
];
const READ_LINES: [u8; 14] = [
    0x7E, 0x00, 0x02, 0x02, 0x02, 0x01, 0x01, 0x00, 0x00, 0x00, 0x00, 0x39, 0xCB, 0x7E,
];

fn show(what: &str, bytes: &[u8]) {
    let digits: String = bytes.iter().map(|byte| format!("{:02x}", byte)).collect();
    println!("{:<11}{}", what, digits);
}

fn show_kept(what: &str, adapter: &Adapter) {
    println!("{:<11}{} kept", what, adapter.kept());
}

/// A body that came on the primary port: it is answered, and the answer goes out on the cable.
fn answer(adapter: &mut Adapter, body: &[u8]) -> Result<(), Refusal> {
    show("request", body);
    if let Answer::HasFrame { body, .. } = adapter.frame(Port::Primary, body)? {
        show("reply", &body);
        show("cable out", &transmit(&body)?);
    }
    Ok(())
}

/// Bytes that came on the cable: every frame in them is answered.
fn hear(receiver: &mut Receiver, adapter: &mut Adapter, cable: &[u8]) -> Result<(), Refusal> {
    show("cable in", cable);
    for heard in receiver.listen(cable) {
        if let Heard::HasFrame(body) = heard {
            answer(adapter, &body)?;
        }
    }
    Ok(())
}

fn main() -> Result<(), Refusal> {
    let mut receiver = Receiver::new();
    let mut adapter = Adapter::with_journal(0x00_000A, JournalSize::Large)?;

    hear(&mut receiver, &mut adapter, &ENABLE_LINES)?;
    adapter.sample(0x1234_5678, Edge::SystemClock)?;
    show_kept("pins", &adapter);
    hear(&mut receiver, &mut adapter, &READ_LINES)?;
    show_kept("lines read", &adapter);

    adapter.step_back()?;
    show_kept("step back", &adapter);
    hear(&mut receiver, &mut adapter, &READ_LINES)?;
    show_kept("again", &adapter);
    Ok(())
}
