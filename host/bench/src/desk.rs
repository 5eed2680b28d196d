//! The desk behind its boundary, and the twin behind the same one: an output lent by the caller, the specification's numbers.

use fourport::{raw, Counts};
use twin::rules::Direction;
use twin::services;

pub trait Desk {
    fn read(&self, text: &[u8], names: &mut [u8], out: &mut [u8]) -> u32;
    fn read_query(&self, rules: &[u8], query: &[u8], names: &mut [u8], out: &mut [u8]) -> u32;
    fn canonical(&self, clauses: &[u8], out: &mut [u8]) -> u32;
    fn first(&self, query: &[u8], out: &mut [u8]) -> u32;
    fn forward(&self, program: &[u8], event: &[u8], out: &mut [u8]) -> u32;
    fn back(&self, program: &[u8], event: &[u8], out: &mut [u8]) -> u32;
    /// The number and the steps taken.
    fn run(&self, program: &[u8], event: &[u8], steps: u32, back: bool, out: &mut [u8]) -> (u32, u32);
    /// The number and the steps taken.
    fn door(&self, program: &[u8], event: &[u8], limit: u32, out: &mut [u8]) -> (u32, u32);
    fn answers(&self, program: &[u8], query: &[u8], steps: u32, out: &mut [u8]) -> u32;
    fn value(&self, event: &[u8], v: u16, out: &mut [u8]) -> u32;
    /// The length of the definition.
    fn lookup(&self, program: &[u8], event: &[u8]) -> usize;
    fn greatest(&self, event: &[u8]) -> u32;
    fn count(&self, event: &[u8]) -> u32;
}

/// The proved archive.
pub struct Fourport;

impl Desk for Fourport {
    fn read(&self, text: &[u8], names: &mut [u8], out: &mut [u8]) -> u32 {
        raw::read(text, names, out, &mut 0)
    }

    fn read_query(&self, rules: &[u8], query: &[u8], names: &mut [u8], out: &mut [u8]) -> u32 {
        raw::read_query(rules, query, names, out, &mut 0)
    }

    fn canonical(&self, clauses: &[u8], out: &mut [u8]) -> u32 {
        raw::canonical(clauses, out)
    }

    fn first(&self, query: &[u8], out: &mut [u8]) -> u32 {
        raw::first(query, out)
    }

    fn forward(&self, program: &[u8], event: &[u8], out: &mut [u8]) -> u32 {
        raw::forward(program, event, out)
    }

    fn back(&self, program: &[u8], event: &[u8], out: &mut [u8]) -> u32 {
        raw::back(program, event, out)
    }

    fn run(&self, program: &[u8], event: &[u8], steps: u32, back: bool, out: &mut [u8]) -> (u32, u32) {
        let mut taken = 0;
        (raw::run(program, event, steps, u8::from(back), out, &mut taken), taken)
    }

    fn door(&self, program: &[u8], event: &[u8], limit: u32, out: &mut [u8]) -> (u32, u32) {
        let mut taken = 0;
        (raw::door(program, event, limit, out, &mut taken), taken)
    }

    fn answers(&self, program: &[u8], query: &[u8], steps: u32, out: &mut [u8]) -> u32 {
        raw::answers(program, query, steps, out, &mut 0, &mut 0)
    }

    fn value(&self, event: &[u8], v: u16, out: &mut [u8]) -> u32 {
        raw::value(event, v, out, &mut 0)
    }

    fn lookup(&self, program: &[u8], event: &[u8]) -> usize {
        raw::lookup(program, event, &mut 0)
    }

    fn greatest(&self, event: &[u8]) -> u32 {
        raw::greatest(event, &mut 0, &mut 0)
    }

    fn count(&self, event: &[u8]) -> u32 {
        raw::count(&mut Counts::default(), event)
    }
}

pub struct Twin;

fn written(number: u8, bytes: &[u8], out: &mut [u8]) -> u32 {
    out[..bytes.len()].copy_from_slice(bytes);
    u32::from(number)
}

impl Desk for Twin {
    fn read(&self, text: &[u8], names: &mut [u8], out: &mut [u8]) -> u32 {
        let reply = twin::text::read(text, names.len(), out.len());
        written(reply.number, &reply.names, names);
        written(reply.number, &reply.bytes, out)
    }

    fn read_query(&self, rules: &[u8], query: &[u8], names: &mut [u8], out: &mut [u8]) -> u32 {
        let reply = twin::text::read_query(rules, query, names.len(), out.len());
        written(reply.number, &reply.names, names);
        written(reply.number, &reply.bytes, out)
    }

    fn canonical(&self, clauses: &[u8], out: &mut [u8]) -> u32 {
        let reply = services::canonical(clauses, out.len());
        written(reply.number, &reply.bytes, out)
    }

    fn first(&self, query: &[u8], out: &mut [u8]) -> u32 {
        let reply = services::first(query, out.len());
        written(reply.number, &reply.bytes, out)
    }

    fn forward(&self, program: &[u8], event: &[u8], out: &mut [u8]) -> u32 {
        let reply = services::forward(program, event, out.len());
        written(reply.number, &reply.bytes, out)
    }

    fn back(&self, program: &[u8], event: &[u8], out: &mut [u8]) -> u32 {
        let reply = services::back(program, event, out.len());
        written(reply.number, &reply.bytes, out)
    }

    fn run(&self, program: &[u8], event: &[u8], steps: u32, back: bool, out: &mut [u8]) -> (u32, u32) {
        let direction = if back { Direction::Back } else { Direction::Forward };
        let reply = services::run(program, event, steps, direction, out.len());
        (written(reply.number, &reply.bytes, out), reply.steps)
    }

    fn door(&self, program: &[u8], event: &[u8], limit: u32, out: &mut [u8]) -> (u32, u32) {
        let reply = twin::door::door(program, event, limit, out.len());
        (written(reply.number, &reply.bytes, out), reply.steps)
    }

    fn answers(&self, program: &[u8], query: &[u8], steps: u32, out: &mut [u8]) -> u32 {
        let reply = twin::answers::answers(program, query, steps, out.len());
        written(reply.number, &reply.bytes, out)
    }

    fn value(&self, event: &[u8], v: u16, out: &mut [u8]) -> u32 {
        let reply = services::value(event, v, out.len());
        written(reply.number, &reply.bytes, out)
    }

    fn lookup(&self, program: &[u8], event: &[u8]) -> usize {
        services::lookup(program, event).len()
    }

    fn greatest(&self, event: &[u8]) -> u32 {
        u32::from(services::greatest(event).0)
    }

    fn count(&self, event: &[u8]) -> u32 {
        u32::from(services::count(event, [0; 4]).0)
    }
}
