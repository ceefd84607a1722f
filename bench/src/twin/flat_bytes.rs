//! The flat combiner: how it stands in bytes, and which states are sound.

use super::bytes::{Out, Raw};
use super::code::Code;
use super::flat::{Client, Flat, Mode, Request, Response, Step, MAX_CLIENTS};
use super::Machine;

impl Flat {
    fn idx(&self) -> usize {
        match self.mode {
            Mode::Collecting => 0,
            Mode::Responding { idx } => idx,
        }
    }

    fn responding(&self) -> bool {
        matches!(self.mode, Mode::Responding { .. })
    }

    /// The id that the combiner holds for a client and hasn't answered yet.
    fn held(&self, i: usize) -> Option<u32> {
        if i < self.idx() {
            return None;
        }
        self.elements.get(i).copied().flatten()
    }

    /// The invariants of the source.
    fn sound(&self) -> bool {
        let count = self.clients.len();
        let sized = if self.responding() {
            self.elements.len() == count && self.idx() <= count
        } else {
            self.elements.len() <= count
        };
        sized && (0..count).all(|i| self.client_sound(i))
    }

    fn client_sound(&self, i: usize) -> bool {
        let Client {
            waiting,
            slot,
            request,
            response,
        } = self.clients[i];
        let held = self.held(i);
        if waiting.is_none() {
            return !slot && request.is_none() && response.is_none() && held.is_none();
        }
        let served = request.is_some() || response.is_some() || held.is_some();
        served
            && request.is_none_or(|request| waiting == Some(request.rid) && slot)
            && response.is_none_or(|response| waiting == Some(response.rid) && !slot)
            && held.is_none_or(|rid| waiting == Some(rid) && slot && request.is_none())
    }
}

/// Reads a raw client; None when an entry it doesn't use isn't zero.
fn load_client(raw: &mut Raw) -> Option<Client> {
    let (rid, req, resp) = (raw.number(), raw.number(), raw.number());
    let (waiting, asked, told, slot) = (raw.flag(), raw.flag(), raw.flag(), raw.flag());
    if (!waiting && rid != 0) || (!asked && req != 0) || (!told && resp != 0) {
        return None;
    }
    Some(Client {
        waiting: waiting.then_some(rid),
        slot,
        request: asked.then_some(Request { rid, req }),
        response: told.then_some(Response { rid, resp }),
    })
}

/// Reads a raw element; None when it is empty with an id.
fn load_element(raw: &mut Raw) -> Option<Option<u32>> {
    let (rid, present) = (raw.number(), raw.flag());
    if !present && rid != 0 {
        return None;
    }
    Some(present.then_some(rid))
}

fn store_client(client: &Client, out: &mut Out) {
    out.number(client.waiting.unwrap_or(0));
    out.number(client.request.map_or(0, |request| request.req));
    out.number(client.response.map_or(0, |response| response.resp));
    out.flag(client.waiting.is_some());
    out.flag(client.request.is_some());
    out.flag(client.response.is_some());
    out.flag(client.slot);
}

fn image_client(client: &Client, out: &mut Out) {
    out.option(client.waiting);
    out.option(client.request.map(|request| request.rid));
    out.number(client.request.map_or(0, |request| request.req));
    out.option(client.response.map(|response| response.rid));
    out.number(client.response.map_or(0, |response| response.resp));
}

impl Machine for Flat {
    type Step = Step;
    const KIND: u8 = 1;
    const PARAMETERS: usize = 1;
    const LENGTHS: &'static [u8] = &[10, 2, 1, 1, 1, 9, 1, 1];
    const RAW: usize = 340;

    fn fresh(parameters: &[u8]) -> Option<Self> {
        let &[clients] = parameters else { return None };
        let clients = usize::from(clients);
        if clients > MAX_CLIENTS {
            return None;
        }
        Some(Flat {
            clients: vec![Client::default(); clients],
            elements: Vec::with_capacity(clients),
            mode: Mode::Collecting,
        })
    }

    #[inline(always)]
    fn read(step: &[u8]) -> Option<Step> {
        Some(match *step {
            [1, client, a, b, c, d, e, f, g, h] => Step::ClientSend {
                client,
                rid: u32::from_be_bytes([a, b, c, d]),
                req: u32::from_be_bytes([e, f, g, h]),
            },
            [2, client] => Step::ClientRecv { client },
            [3] => Step::CombinerRecv,
            [4] => Step::CombinerSkip,
            [5] => Step::CombinerGoToResponding,
            [6, a, b, c, d, e, f, g, h] => Step::CombinerSend {
                rid: u32::from_be_bytes([a, b, c, d]),
                resp: u32::from_be_bytes([e, f, g, h]),
            },
            [7] => Step::CombinerSendSkip,
            [8] => Step::CombinerGoToCollecting,
            _ => return None,
        })
    }

    #[inline(always)]
    fn apply(&mut self, step: Step, log: &mut Out) -> Result<(), Code> {
        match step {
            Step::ClientSend { client, rid, req } => self.client_send(client, rid, req),
            Step::ClientRecv { client } => self.client_recv(client, log),
            Step::CombinerRecv => self.combiner_recv(),
            Step::CombinerSkip => self.combiner_skip(),
            Step::CombinerGoToResponding => self.go_to_responding(),
            Step::CombinerSend { rid, resp } => self.combiner_send(rid, resp),
            Step::CombinerSendSkip => self.combiner_send_skip(),
            Step::CombinerGoToCollecting => self.go_to_collecting(),
        }
    }

    fn image(&self, out: &mut Out) {
        let mut mask: u16 = 0;
        for (i, client) in self.clients.iter().enumerate() {
            image_client(client, out);
            mask |= u16::from(client.slot) << i;
        }
        out.put(mask.to_be_bytes());
        out.flag(self.responding());
        out.byte(self.idx() as u8);
        out.byte(self.elements.len() as u8);
        for &element in &self.elements {
            out.option(element);
        }
    }

    fn load(raw: &[u8]) -> Option<Self> {
        let mut raw = Raw(raw);
        let mut clients: Vec<Client> = (0..MAX_CLIENTS)
            .map(|_| load_client(&mut raw))
            .collect::<Option<_>>()?;
        let mut elements: Vec<Option<u32>> = (0..MAX_CLIENTS)
            .map(|_| load_element(&mut raw))
            .collect::<Option<_>>()?;
        let (count, len) = (usize::from(raw.byte()), usize::from(raw.byte()));
        let (idx, responding) = (usize::from(raw.byte()), raw.flag());
        if count > MAX_CLIENTS || len > MAX_CLIENTS || (!responding && idx != 0) {
            return None;
        }
        if clients
            .drain(count..)
            .any(|client| client != Client::default())
        {
            return None;
        }
        if elements.drain(len..).any(|element| element.is_some()) {
            return None;
        }
        let mode = if responding {
            Mode::Responding { idx }
        } else {
            Mode::Collecting
        };
        let flat = Flat {
            clients,
            elements,
            mode,
        };
        flat.sound().then_some(flat)
    }

    fn store(&self, out: &mut Out) {
        let unused = Client::default();
        for i in 0..MAX_CLIENTS {
            store_client(self.clients.get(i).unwrap_or(&unused), out);
        }
        for i in 0..MAX_CLIENTS {
            let element = self.elements.get(i).copied().flatten();
            out.number(element.unwrap_or(0));
            out.flag(element.is_some());
        }
        out.put([
            self.clients.len() as u8,
            self.elements.len() as u8,
            self.idx() as u8,
        ]);
        out.flag(self.responding());
    }
}
