//! The packet loop `protocol` of class.rs, read as one step: a packet in, packets out. Deadlines are
//! left out, sending never fails, and a packet longer than its room is a failed read, as 01 says.

use crate::aic_upg::protocol::{
    CBW_SIZE, Cbw, Csw, Engine, RESP_FAIL, RESP_OK, TRANSPORT_READ, TRANSPORT_WRITE,
};

/// CHUNK of class.rs.
const CHUNK: usize = 512;

/// Where the loop waits for the next packet.
#[derive(Clone, Copy, Debug)]
pub enum State {
    /// At `ep_out.read(&mut cbw_buf)`.
    Cbw,
    /// At `ep_out.read(&mut data[..want])` of a TRANSPORT_WRITE.
    Data {
        tag: u32,
        remaining: usize,
        status: u8,
    },
    /// The loop has returned.
    Closed,
}

/// One packet. The packets sent are appended to `sent`.
pub fn step(
    state: State,
    engine: &mut Engine<'_>,
    packet: &[u8],
    sent: &mut Vec<Vec<u8>>,
) -> State {
    match state {
        State::Cbw => {
            if packet.len() > CBW_SIZE {
                engine.reset();
                return State::Cbw;
            }
            let Some(cbw) = Cbw::parse(packet) else {
                sent.push(Csw::reply(0, RESP_FAIL, 0).to_bytes().to_vec());
                return State::Cbw;
            };
            command(engine, cbw, sent)
        }
        State::Data {
            tag,
            remaining,
            status,
        } => {
            if packet.len() > remaining.min(CHUNK) {
                engine.reset();
                return State::Cbw;
            }
            if packet.is_empty() {
                return finish(engine, Csw::reply(tag, status, remaining as u32), sent);
            }
            let status = engine.transport_write(packet);
            let remaining = remaining - packet.len();
            if remaining == 0 {
                return finish(engine, Csw::reply(tag, status, 0), sent);
            }
            State::Data {
                tag,
                remaining,
                status,
            }
        }
        State::Closed => State::Closed,
    }
}

/// A valid CBW.
fn command(engine: &mut Engine<'_>, cbw: Cbw, sent: &mut Vec<Vec<u8>>) -> State {
    let tag = cbw.tag;
    let mut remaining = cbw.data_len as usize;
    let csw = match cbw.command {
        TRANSPORT_WRITE => {
            if remaining > 0 {
                let status = RESP_OK;
                return State::Data {
                    tag,
                    remaining,
                    status,
                };
            }
            Csw::reply(tag, engine.transport_write(&[]), 0)
        }
        TRANSPORT_READ => {
            let mut data = [0u8; CHUNK];
            while remaining > 0 {
                let want = remaining.min(CHUNK);
                let n = engine.transport_read(&mut data[..want]);
                if n == 0 {
                    break;
                }
                sent.push(data[..n].to_vec());
                remaining -= n;
            }
            Csw::reply(tag, RESP_OK, remaining as u32)
        }
        _ => Csw::reply(tag, RESP_FAIL, cbw.data_len),
    };
    finish(engine, csw, sent)
}

/// The CSW for a valid CBW.
fn finish(engine: &Engine<'_>, csw: Csw, sent: &mut Vec<Vec<u8>>) -> State {
    sent.push(csw.to_bytes().to_vec());
    if engine.reset_requested() {
        State::Closed
    } else {
        State::Cbw
    }
}
