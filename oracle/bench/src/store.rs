//! A store in memory that this program lends: the state and the six tables in 32-bit words. The calls are those of the library for C
//! (host/piecrag.h); each function here lends what its call asks for, and answers one number.

use crate::c;
use crate::scenes::Kind;

pub type State = [u32; 32];
pub type Nodes = [u32; 11264];
pub type Edges = [u32; 3072];
pub type Order = [u32; 512];
pub type Voices = [u32; 9152];
pub type Events = [u32; 3840];
pub type Steals = [u32; 320];
pub type Seal = [u32; 12];
pub type Waiting = [u32; 12];
pub type Wishes = [u32; 31104];

#[derive(Clone)]
pub struct Store {
    pub state: State,
    pub nodes: Nodes,
    pub edges: Edges,
    pub order: Order,
    pub voices: Voices,
    pub events: Events,
    pub steals: Steals,
}

const NAME: &[u8] = b"amp";
/// No seal.
pub const UNSEALED: Seal = [0; 12];
const VALUE: u32 = 0;
const GLIDE: u32 = 1;
const FREE: u32 = 3;
const LINEAR: u32 = 1;
const RAW: u32 = 0;

/// The number of a refusal, so that it differs from every id and count.
pub fn or_refusal(answer: u32, told: u32) -> u32 {
    if answer == 0 { told } else { 65_536 + answer }
}

/// At 48 kHz with blocks of 128 samples and a budget; with the fade table where `table` is not 0.
pub fn make(state: &mut State, budget: usize, policy: u32, table: u32) -> u32 {
    c::piecrag_make(state, 48_000.0, 128, 1, budget, policy, 0, table)
}

impl Store {
    pub fn add_node(&mut self, ports: u32) -> u32 {
        let (kind, mut node) = (b"Host", 0);
        // SAFETY: the name is lent with its length.
        unsafe {
            c::piecrag_add_node(
                &UNSEALED,
                &mut self.state,
                &mut self.nodes,
                kind.as_ptr(),
                kind.len(),
                ports,
                0,
                0,
                0,
                &mut node,
            )
        }
    }

    pub fn remove_node(&mut self, node: u32) -> u32 {
        c::piecrag_remove_node(&UNSEALED, &mut self.state, &mut self.nodes, &mut self.edges, node)
    }

    pub fn connect(&mut self, from: u32, to: u32, port: u32) -> u32 {
        c::piecrag_connect(&UNSEALED, &mut self.state, &self.nodes, &mut self.edges, from, to, port)
    }

    pub fn disconnect(&mut self, to: u32, port: u32) -> u32 {
        c::piecrag_disconnect(&UNSEALED, &mut self.state, &self.nodes, &mut self.edges, to, port)
    }

    pub fn set_sink(&mut self, node: u32) -> u32 {
        c::piecrag_set_sink(&UNSEALED, &mut self.state, &self.nodes, node)
    }

    pub fn prepare(&mut self) -> u32 {
        c::piecrag_prepare(&mut self.state, &self.nodes, &self.edges, &mut self.order)
    }

    /// An event for the parameter `amp`.
    pub fn schedule(&mut self, time: u64, voice: u64, kind: Kind) -> u32 {
        let (state, events, name, length) = (&mut self.state, &mut self.events, NAME.as_ptr(), NAME.len());
        let action = match kind {
            Kind::Value => VALUE,
            Kind::Glide => GLIDE,
            Kind::Free => FREE,
        };
        // SAFETY: the name is lent with its length.
        unsafe { c::piecrag_schedule(state, events, time, voice, name, length, action, 0.5, 0.25, LINEAR, 0.0, RAW) }
    }

    fn spawn_on_bus(&mut self, managed: u32, book: &[u8], pan: f32) -> u32 {
        let mut voice = 0;
        // SAFETY: the book is lent with its length.
        let answer = unsafe {
            c::piecrag_spawn(
                &UNSEALED,
                &mut self.state,
                &mut self.nodes,
                &mut self.edges,
                &mut self.voices,
                &mut self.steals,
                managed,
                book.as_ptr(),
                book.len(),
                0,
                pan,
                0,
                &mut voice,
            )
        };
        or_refusal(answer, voice as u32)
    }

    /// A managed spawn of the book on node 0: the id of the new voice, or a refusal.
    pub fn spawn(&mut self, book: &[u8]) -> u32 {
        self.spawn_on_bus(1, book, 0.0)
    }

    /// The same, panned, and not managed.
    pub fn spawn_panned(&mut self, book: &[u8]) -> u32 {
        self.spawn_on_bus(0, book, 0.5)
    }

    pub fn free_voice(&mut self, voice: u64) -> u32 {
        c::piecrag_free_voice(&mut self.state, &mut self.nodes, &mut self.edges, &mut self.voices, voice)
    }

    /// How many voices the clearing removed.
    pub fn clear(&mut self) -> u32 {
        let mut removed = 0;
        let answer = c::piecrag_free_done_synths(
            &mut self.state,
            &mut self.nodes,
            &mut self.edges,
            &mut self.voices,
            &mut removed,
        );
        or_refusal(answer, removed as u32)
    }

    pub fn set_voice_param(&mut self, voice: u64, value: f32) -> u32 {
        // SAFETY: the name is lent with its length.
        unsafe {
            c::piecrag_set_voice_param(
                &self.state,
                &mut self.nodes,
                &self.voices,
                voice,
                NAME.as_ptr(),
                NAME.len(),
                value,
            )
        }
    }

    pub fn set_voice_param_glide(&mut self, voice: u64, target: f32) -> u32 {
        // SAFETY: the name is lent with its length.
        unsafe {
            c::piecrag_set_voice_param_glide(
                &self.state,
                &mut self.nodes,
                &self.voices,
                voice,
                NAME.as_ptr(),
                NAME.len(),
                target,
                0.25,
                LINEAR,
                0.0,
                RAW,
            )
        }
    }

    /// A block of one channel, and that the node is done.
    pub fn report(&mut self, node: u32, samples: &[f32; 128]) -> u32 {
        // SAFETY: the samples are lent with their count.
        unsafe { c::piecrag_report(&self.state, &mut self.nodes, &self.voices, node, 1, samples.as_ptr(), 128, 1) }
    }

    /// 1 if the block sounds.
    pub fn render(&mut self) -> u32 {
        let (mut outcomes, mut sounding, mut taken) = ([0; 256], 0, 0);
        // SAFETY: the list is lent with its length.
        let answer = unsafe {
            c::piecrag_render(
                &mut self.state,
                &mut self.nodes,
                &mut self.edges,
                &mut self.order,
                &mut self.voices,
                &mut self.events,
                outcomes.as_mut_ptr(),
                outcomes.len(),
                &mut sounding,
                &mut taken,
            )
        };
        or_refusal(answer, sounding)
    }

    pub fn clock(&self) -> u32 {
        let mut clock = 0;
        or_refusal(c::piecrag_clock(&self.state, &mut clock), clock as u32)
    }

    pub fn voice_count(&self) -> u32 {
        let mut count = 0;
        or_refusal(c::piecrag_voices(&self.state, &self.voices, &mut count), count as u32)
    }

    pub fn edge_count(&self) -> u32 {
        let mut count = 0;
        or_refusal(c::piecrag_edges(&self.state, &self.edges, &mut count), count as u32)
    }

    pub fn order_length(&self) -> u32 {
        let mut count = 0;
        or_refusal(c::piecrag_processing_order(&self.state, &self.order, &mut count), count as u32)
    }

    /// The processing order.
    pub fn ordered(&self) -> &[u32] {
        &self.order[..self.order_length() as usize]
    }

    pub fn edge_at(&self, place: usize) -> u32 {
        let (mut found, mut row) = (0, [0; 3]);
        or_refusal(c::piecrag_edge_at(&self.state, &self.edges, place, &mut found, &mut row), found)
    }

    pub fn voice_level(&self, voice: u64) -> u32 {
        let (mut known, mut level) = (0, 0.0);
        or_refusal(
            c::piecrag_voice_level(&self.state, &self.nodes, &self.voices, voice, &mut known, &mut level),
            known,
        )
    }

    pub fn fade_position(&self, voice: u64) -> u32 {
        let (mut fading, mut position) = (0, 0);
        or_refusal(
            c::piecrag_fade_position(&self.state, &self.voices, voice, &mut fading, &mut position),
            fading,
        )
    }

    pub fn voice(&self, voice: u64) -> u32 {
        let (mut found, mut row) = (0, [0; 143]);
        or_refusal(c::piecrag_voice(&self.state, &self.voices, voice, &mut found, &mut row), found)
    }

    pub fn voice_at(&self, place: usize) -> u32 {
        let (mut found, mut row) = (0, [0; 143]);
        or_refusal(c::piecrag_voice_at(&self.state, &self.voices, place, &mut found, &mut row), found)
    }

    pub fn node_record(&self, node: u32) -> u32 {
        let (mut found, mut row) = (0, [0; 22]);
        or_refusal(c::piecrag_node_record(&self.state, &self.nodes, node, &mut found, &mut row), found)
    }

    /// Of how many steals the record is held.
    pub fn steals(&self) -> u32 {
        let (mut total, mut held) = (0, 0);
        or_refusal(c::piecrag_steals(&self.state, &self.steals, &mut total, &mut held), held as u32)
    }

    /// Whether there is a record at the place.
    pub fn steal_at(&self, place: usize) -> u32 {
        let (mut found, mut sample, mut known, mut level, mut cut) = (0, 0, 0, 0.0, 0);
        let answer = c::piecrag_steal_at(
            &self.state,
            &self.steals,
            place,
            &mut found,
            &mut sample,
            &mut known,
            &mut level,
            &mut cut,
        );
        or_refusal(answer, found)
    }

    /// How many records are in the busiest stretch of so many samples.
    pub fn busiest_steals(&self, width: u64) -> u32 {
        let (mut count, mut sample) = (0, 0);
        let answer = c::piecrag_busiest_steals(&self.state, &self.steals, width, &mut count, &mut sample);
        or_refusal(answer, count as u32)
    }

    /// What feeds the port.
    pub fn source(&self, node: u32, port: u32) -> u32 {
        let (mut fed, mut from) = (0, 0);
        or_refusal(c::piecrag_source(&self.state, &self.edges, node, port, &mut fed, &mut from), from)
    }

    /// How long the page is.
    pub fn page(&self, out: &mut [u8]) -> u32 {
        let mut length = 0;
        // SAFETY: the buffer is lent with its length.
        let answer = unsafe {
            c::piecrag_page(&self.state, &self.edges, &self.voices, out.as_mut_ptr(), out.len(), &mut length)
        };
        or_refusal(answer, length as u32)
    }

    /// A block in a fade, of so many channels in and out.
    pub fn fade_output(&self, channels: usize, input: &[f32], gains: &[f32], position: u64, out: &mut [f32]) -> u32 {
        let state = &self.state;
        // SAFETY: each block is lent with its length.
        unsafe {
            c::piecrag_fade_output(
                state,
                input.as_ptr(),
                input.len(),
                channels,
                gains.as_ptr(),
                gains.len(),
                position,
                out.as_mut_ptr(),
                out.len(),
                channels,
            )
        }
    }

    /// The same in whole numbers.
    pub fn whole_fade_output(
        &self,
        channels: usize,
        input: &[i32],
        gains: &[u32],
        position: u64,
        out: &mut [i32],
    ) -> u32 {
        let state = &self.state;
        // SAFETY: each block is lent with its length.
        unsafe {
            c::piecrag_whole_fade_output(
                state,
                input.as_ptr(),
                input.len(),
                channels,
                gains.as_ptr(),
                gains.len(),
                position,
                out.as_mut_ptr(),
                out.len(),
                channels,
            )
        }
    }

    /// The sum of a bus, of so many channels.
    pub fn bus_sum(&self, channels: usize, inputs: &[f32], counts: &[usize], out: &mut [f32]) -> u32 {
        let state = &self.state;
        // SAFETY: each block is lent with its length.
        unsafe {
            c::piecrag_bus_sum(
                state,
                inputs.as_ptr(),
                inputs.len(),
                counts.as_ptr(),
                counts.len(),
                out.as_mut_ptr(),
                out.len(),
                channels,
            )
        }
    }

    /// The same in whole numbers.
    pub fn whole_bus_sum(&self, channels: usize, inputs: &[i32], counts: &[usize], out: &mut [i32]) -> u32 {
        let state = &self.state;
        // SAFETY: each block is lent with its length.
        unsafe {
            c::piecrag_whole_bus_sum(
                state,
                inputs.as_ptr(),
                inputs.len(),
                counts.as_ptr(),
                counts.len(),
                out.as_mut_ptr(),
                out.len(),
                channels,
            )
        }
    }
}
