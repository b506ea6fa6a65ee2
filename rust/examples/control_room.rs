//! Both ends of the link with a cable between them: the control room asks, the chip answers, and no byte of a body or a frame
//! is written by hand.
//!
//! The first request enables the parallel lines, the second reads them. Between them the pins are sampled.

use sca::{transmit, Adapter, Answer, ControlRoom, Edge, Heard, Port, Receiver, Refusal, Reply};

fn show(what: &str, bytes: &[u8]) {
    let digits: String = bytes.iter().map(|byte| format!("{:02x}", byte)).collect();
    println!("{:<11}{}", what, digits);
}

fn show_reply(reply: Reply) {
    if let Reply::Answered {
        transaction: asked,
        error,
        length,
        data,
    } = reply
    {
        println!(
            "{:<11}TRN {:02x} CH {:02x} CMD {:02x} ERR {:02x} LEN {} data {:08x}",
            "answer", asked.trn, asked.channel, asked.command, error, length, data
        );
    }
}

/// The chip's end of the cable.
struct Chip {
    receiver: Receiver,
    adapter: Adapter,
}

impl Chip {
    /// Bytes that came on the cable of the primary port: every frame in them is answered. Gives the bytes that go back.
    fn hear(&mut self, cable: &[u8]) -> Result<Vec<u8>, Refusal> {
        let mut sent = Vec::new();
        for heard in self.receiver.listen(cable) {
            if let Heard::HasFrame(body) = heard {
                if let Answer::HasFrame { body, .. } = self.adapter.frame(Port::Primary, &body)? {
                    show("reply", &body);
                    sent.extend_from_slice(&transmit(&body)?);
                }
            }
        }
        Ok(sent)
    }
}

/// The control room's end.
struct Room {
    receiver: Receiver,
    control_room: ControlRoom,
}

impl Room {
    /// A request goes out on the cable, and what comes back is read.
    fn ask(&mut self, chip: &mut Chip, channel: u8, command: u8, data: u32) -> Result<(), Refusal> {
        let request = self.control_room.request(channel, command, data)?;
        show("request", &request.body);
        let cable = transmit(&request.body)?;
        show("cable out", &cable);
        let cable = chip.hear(&cable)?;
        self.hear(&cable)
    }

    /// Bytes that came on the cable: every reply in them is read.
    fn hear(&mut self, cable: &[u8]) -> Result<(), Refusal> {
        show("cable in", cable);
        for heard in self.receiver.listen(cable) {
            if let Heard::HasFrame(body) = heard {
                show_reply(self.control_room.reply(&body)?);
            }
        }
        Ok(())
    }
}

fn main() -> Result<(), Refusal> {
    let mut chip = Chip {
        receiver: Receiver::new(),
        adapter: Adapter::new(0x00_000A)?,
    };
    let mut room = Room {
        receiver: Receiver::new(),
        control_room: ControlRoom::new(),
    };

    // CRB with bit 2, the parallel lines; then DATAIN.
    room.ask(&mut chip, 0x00, 0x02, 0x0400_0000)?;
    chip.adapter.sample(0x1234_5678, Edge::SystemClock)?;
    room.ask(&mut chip, 0x02, 0x01, 0)?;
    Ok(())
}
