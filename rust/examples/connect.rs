use sca::{transmit, Adapter, Answer, Heard, Port, Receiver, Refusal};

fn main() -> Result<(), Refusal> {
    let mut receiver = Receiver::new();
    let mut adapter = Adapter::new(0x00_000A)?;

    // CONNECT comes on the primary port's cable, and its acknowledgement goes out.
    let cable = transmit(&[0x00, 0x2F])?;
    let mut sent = Vec::new();
    for heard in receiver.listen(&cable) {
        if let Heard::HasFrame(body) = heard {
            if let Answer::HasFrame { port, body } = adapter.frame(Port::Primary, &body)? {
                sent.push((port, transmit(&body)?));
            }
        }
    }
    assert_eq!(sent, [(Port::Primary, transmit(&[0x00, 0x63])?)]);

    // The board is as it was before.
    adapter.step_back()?;
    assert_eq!(adapter.state(), Adapter::new(0x00_000A)?.state());
    Ok(())
}
