//! A generator that does as it is told: its ports, channels and samples are given, and it records what it is asked.
//! It serves as a voice's node, as a host node and as a bus.

use std::collections::HashMap;
use std::sync::{Arc, LazyLock, Mutex, MutexGuard};

use microsynth::buffer::AudioBuffer;
use microsynth::context::{ProcessContext, Rate};
use microsynth::curve::{GlideShape, GlideSpace};
use microsynth::node::{InputSpec, OutputSpec, UGen, UGenCategory, UGenSpec};

/// One input port.
#[derive(Clone, PartialEq, Eq, Hash)]
pub struct Port {
    pub name: String,
    pub required: bool,
}

/// What is fixed when a generator is made.
#[derive(Clone, PartialEq, Eq, Hash)]
pub struct Kind {
    pub name: String,
    pub ports: Vec<Port>,
    pub channels: usize,
    pub takes_values: bool,
    pub takes_glides: bool,
}

impl Kind {
    /// A kind with this many ports, none of them required or named, one channel, and no orders taken.
    pub fn plain(name: &str, ports: usize) -> Kind {
        let port = Port { name: String::new(), required: false };
        Kind { name: name.to_string(), ports: vec![port; ports], channels: 1, takes_values: false, takes_glides: false }
    }
}

/// The orders that a generator takes.
#[derive(Clone, Copy)]
pub enum Order {
    Value(f32),
    Glide(f32, f32, GlideShape, GlideSpace),
}

/// What a generator is told while it lives, and what it has recorded.
#[derive(Default)]
pub struct State {
    /// The number by which it signs the log of process calls.
    pub mark: u32,
    /// What it writes at each process call, channel by channel; +0 where there is nothing.
    pub samples: Vec<f32>,
    pub done: bool,
    /// The orders that it took, in order.
    pub orders: Vec<Order>,
    /// The seeds that it was given, in order.
    pub seeds: Vec<u32>,
}

/// A way to a generator that the graph owns.
#[derive(Clone, Default)]
pub struct Handle(Arc<Mutex<State>>);

impl Handle {
    pub fn state(&self) -> MutexGuard<'_, State> {
        self.0.lock().expect("no holder of the state panics")
    }
}

/// The marks of the generators in the order in which they were processed.
#[derive(Clone, Default)]
pub struct Log(Arc<Mutex<Vec<u32>>>);

impl Log {
    fn put(&self, mark: u32) {
        self.0.lock().expect("no holder of the log panics").push(mark);
    }

    /// What was logged since the last call.
    pub fn take(&self) -> Vec<u32> {
        std::mem::take(&mut *self.0.lock().expect("no holder of the log panics"))
    }
}

/// A kind whose names and ports last to the end, as the Rust asks.
struct Lasting {
    kind: &'static Kind,
    inputs: Vec<InputSpec>,
}

/// Each kind is kept once.
fn lasting(kind: &Kind) -> &'static Lasting {
    static KEPT: LazyLock<Mutex<HashMap<Kind, &'static Lasting>>> = LazyLock::new(Mutex::default);
    let mut kept = KEPT.lock().expect("no holder of the table panics");
    if let Some(found) = kept.get(kind) {
        return found;
    }
    let named: &'static Kind = Box::leak(Box::new(kind.clone()));
    let input = |port: &'static Port| InputSpec { name: &port.name, rate: Rate::Audio, required: port.required };
    let made = Box::leak(Box::new(Lasting { kind: named, inputs: named.ports.iter().map(input).collect() }));
    kept.insert(kind.clone(), made);
    made
}

pub struct Generator {
    kind: &'static Kind,
    inputs: &'static [InputSpec],
    handle: Handle,
    log: Log,
}

impl Generator {
    pub fn new(kind: &Kind, handle: Handle, log: Log) -> Generator {
        let Lasting { kind, inputs } = lasting(kind);
        Generator { kind, inputs, handle, log }
    }
}

static OUTPUTS: [OutputSpec; 1] = [OutputSpec { name: "out", rate: Rate::Audio }];

impl UGen for Generator {
    fn spec(&self) -> UGenSpec {
        UGenSpec { name: &self.kind.name, category: UGenCategory::Utility, inputs: self.inputs, outputs: &OUTPUTS }
    }

    fn init(&mut self, _context: &ProcessContext) {}

    fn reset(&mut self) {}

    fn output_channels(&self, _input_channels: &[usize]) -> usize {
        self.kind.channels
    }

    fn process(&mut self, _context: &ProcessContext, _inputs: &[Option<&AudioBuffer>], output: &mut AudioBuffer) {
        let state = self.handle.state();
        self.log.put(state.mark);
        let mut samples = state.samples.iter();
        for channel in 0..output.num_channels() {
            for sample in output.channel_mut(channel).samples_mut() {
                *sample = samples.next().copied().unwrap_or(0.0);
            }
        }
    }

    fn set_value(&mut self, value: f32) -> bool {
        if self.kind.takes_values {
            self.handle.state().orders.push(Order::Value(value));
        }
        self.kind.takes_values
    }

    fn set_target(&mut self, target: f32, seconds: f32, shape: GlideShape, space: GlideSpace) -> bool {
        if self.kind.takes_glides {
            let order = Order::Glide(target, seconds, shape, space);
            self.handle.state().orders.push(order);
        }
        self.kind.takes_glides
    }

    fn reseed_noise(&mut self, seed: u32) {
        self.handle.state().seeds.push(seed);
    }

    fn is_done(&self) -> bool {
        self.handle.state().done
    }
}
