//! The flat combiner, after `flat_combine.rs`: its steps.

use super::bytes::Out;
use super::code::Code;

pub const MAX_CLIENTS: usize = 16;

#[derive(Clone, Copy, PartialEq)]
pub struct Request {
    pub rid: u32,
    pub req: u32,
}

#[derive(Clone, Copy, PartialEq)]
pub struct Response {
    pub rid: u32,
    pub resp: u32,
}

/// A client with its slot and what is stored for it.
#[derive(Clone, Copy, Default, PartialEq)]
pub struct Client {
    /// The id it waits for; none while idle.
    pub waiting: Option<u32>,
    pub slot: bool,
    pub request: Option<Request>,
    pub response: Option<Response>,
}

#[derive(Clone, Copy)]
pub enum Mode {
    Collecting,
    Responding { idx: usize },
}

pub struct Flat {
    pub clients: Vec<Client>,
    /// The ids gathered, none for a client that was skipped.
    pub elements: Vec<Option<u32>>,
    pub mode: Mode,
}

pub enum Step {
    ClientSend { client: u8, rid: u32, req: u32 },
    ClientRecv { client: u8 },
    CombinerRecv,
    CombinerSkip,
    CombinerGoToResponding,
    CombinerSend { rid: u32, resp: u32 },
    CombinerSendSkip,
    CombinerGoToCollecting,
}

impl Flat {
    fn client(&mut self, client: u8) -> Result<&mut Client, Code> {
        self.clients
            .get_mut(usize::from(client))
            .ok_or(Code::Outside)
    }

    pub fn client_send(&mut self, j: u8, rid: u32, req: u32) -> Result<(), Code> {
        let client = self.client(j)?;
        if client.waiting.is_some() {
            return Err(Code::Phase);
        }
        client.waiting = Some(rid);
        client.slot = true;
        client.request = Some(Request { rid, req });
        Ok(())
    }

    pub fn client_recv(&mut self, j: u8, log: &mut Out) -> Result<(), Code> {
        let client = self.client(j)?;
        if client.waiting.is_none() {
            return Err(Code::Phase);
        }
        if client.slot {
            return Err(Code::Slot);
        }
        // A waiting client whose slot is clear has its response stored.
        let response = client.response.take().ok_or(Code::Slot)?;
        client.waiting = None;
        log.put([9, j]);
        log.number(response.rid);
        log.number(response.resp);
        Ok(())
    }

    /// The client that collecting has come to.
    fn collecting_at(&self) -> Result<usize, Code> {
        match self.mode {
            Mode::Responding { .. } => Err(Code::Phase),
            Mode::Collecting if self.elements.len() < self.clients.len() => Ok(self.elements.len()),
            Mode::Collecting => Err(Code::Cursor),
        }
    }

    /// The client that responding has come to, and the id gathered from it.
    fn responding_at(&self) -> Result<(usize, Option<u32>), Code> {
        match self.mode {
            Mode::Collecting => Err(Code::Phase),
            Mode::Responding { idx } => match self.elements.get(idx) {
                Some(&element) => Ok((idx, element)),
                None => Err(Code::Cursor),
            },
        }
    }

    pub fn combiner_recv(&mut self) -> Result<(), Code> {
        let at = self.collecting_at()?;
        let client = &mut self.clients[at];
        if !client.slot {
            return Err(Code::Slot);
        }
        // A set slot that isn't gathered has its request stored. The slot
        // stays set until the answer comes.
        let request = client.request.take().ok_or(Code::Slot)?;
        self.elements.push(Some(request.rid));
        Ok(())
    }

    pub fn combiner_skip(&mut self) -> Result<(), Code> {
        self.collecting_at()?;
        self.elements.push(None);
        Ok(())
    }

    pub fn go_to_responding(&mut self) -> Result<(), Code> {
        if matches!(self.mode, Mode::Responding { .. }) {
            return Err(Code::Phase);
        }
        if self.elements.len() != self.clients.len() {
            return Err(Code::Cursor);
        }
        self.mode = Mode::Responding { idx: 0 };
        Ok(())
    }

    pub fn combiner_send(&mut self, rid: u32, resp: u32) -> Result<(), Code> {
        let (idx, element) = self.responding_at()?;
        if element != Some(rid) {
            return Err(Code::Element);
        }
        let client = &mut self.clients[idx];
        client.slot = false;
        client.response = Some(Response { rid, resp });
        self.mode = Mode::Responding { idx: idx + 1 };
        Ok(())
    }

    pub fn combiner_send_skip(&mut self) -> Result<(), Code> {
        let (idx, element) = self.responding_at()?;
        if element.is_some() {
            return Err(Code::Element);
        }
        self.mode = Mode::Responding { idx: idx + 1 };
        Ok(())
    }

    pub fn go_to_collecting(&mut self) -> Result<(), Code> {
        let Mode::Responding { idx } = self.mode else {
            return Err(Code::Phase);
        };
        if idx != self.clients.len() {
            return Err(Code::Cursor);
        }
        self.mode = Mode::Collecting;
        self.elements.clear();
        Ok(())
    }
}
