//! The moves that scenes are mixed from: a call with random arguments, or a few that belong together.

use microsynth::scheduler::{Event, EventAction};
use replay::script::{Call, Length};
use scripted::name;

use crate::values;
use crate::writer::Writer;

#[derive(Clone, Copy)]
pub enum Move {
    Spawn,
    Add,
    Remove,
    Connect,
    Disconnect,
    Sink,
    Free,
    Clear,
    Order,
    Event,
    Prepare,
    Render,
    /// A prepare where one is needed, and a render.
    Sound,
    Keep,
    /// A definition at a limit or past it, and a spawn of it.
    Limits,
    /// Done flags above a voice's output, and a clearing.
    Hush,
    Rules,
    Read,
    ReportAgain,
    ReportRefused,
    TakePort,
    RemoveBus,
    Squeeze,
    FailingFree,
    Cycle,
    Refusals,
    Page,
    Wish,
    Turn,
    /// Some wishes, and turns.
    Rush,
    /// More wishes than a keyboard holds.
    Crowd,
    Waiting,
    /// A sealing, which may be accepted.
    Seal,
    /// A spawn of a definition around what the seal leaves open, or a wish for one.
    Near,
    /// Spawns that fill a sealed board.
    Flood,
}

impl Writer {
    pub fn make_move(&mut self, which: Move) {
        match which {
            Move::Spawn => self.spawn(),
            Move::Add => self.add(),
            Move::Remove => self.remove(),
            Move::Connect => self.connect(),
            Move::Disconnect => self.disconnect(),
            Move::Sink => self.sink(),
            Move::Free => self.free(),
            Move::Clear => drop(self.put(Call::Clear {})),
            Move::Order => self.order(),
            Move::Event => self.event(),
            Move::Prepare => self.prepare(),
            Move::Render => self.render(),
            Move::Sound => self.sound(),
            Move::Keep => self.keep(),
            Move::Limits => self.limits(),
            Move::Hush => self.hush(),
            Move::Rules => self.rules(),
            Move::Read => self.read(),
            Move::ReportAgain => self.report_again(),
            Move::ReportRefused => self.report_refused(),
            Move::TakePort => self.take_port(),
            Move::RemoveBus => self.remove_bus(),
            Move::Squeeze => self.squeeze(),
            Move::FailingFree => self.failing_free(),
            Move::Cycle => self.cycle(),
            Move::Refusals => self.refusals(),
            Move::Page => self.page(),
            Move::Wish => self.wish(),
            Move::Turn => self.turn(),
            Move::Rush => self.rush(),
            Move::Crowd => self.fill_keyboard(),
            Move::Waiting => drop(self.put(Call::Waiting {})),
            Move::Seal => self.seal(),
            Move::Near => self.near(),
            Move::Flood => self.flood(),
        }
    }

    fn spawn(&mut self) {
        let slot = self.some_slot();
        let bus = self.some_target();
        let managed = !self.rng.once_in(5);
        self.spawn_on(slot, bus, managed);
    }

    /// A spawn by one of the two calls that there are for it, of rank 0 or of one that is refused. Answers the voice.
    pub fn spawn_on(&mut self, slot: u8, bus: u32, managed: bool) -> Option<u64> {
        let pan = values::pan(&mut self.rng);
        let rank = if self.rng.once_in(100) { *self.rng.pick(&[8, 9, 255, 256, u32::MAX]) } else { 0 };
        let call = match (managed, self.rng.once_in(4)) {
            (true, false) => Call::SpawnManagedPanned { slot, bus, pan, rank },
            (true, true) => Call::SpawnManaged { slot, bus, rank },
            (false, false) => Call::SpawnPanned { slot, bus, pan, rank },
            (false, true) => Call::Spawn { slot, bus, rank },
        };
        self.put(call).of("voice")
    }

    fn add(&mut self) {
        let ports = match self.rng.below(10) {
            0 => *self.rng.pick(&[64, 65, 256, u32::MAX]),
            1 | 2 => 0,
            3 => self.rng.within(5, 63) as u32,
            _ => self.rng.within(1, 4) as u32,
        };
        let required = if self.rng.once_in(10) { self.rng.bits() & self.rng.bits() & 0xff } else { 0 };
        let length = if self.rng.once_in(20) { *self.rng.pick(&[0, 16, 17, 255]) } else { self.rng.within(1, 5) };
        self.add_node(&vec![b'H'; length], ports, required);
    }

    /// Adds a host node. Answers its id.
    pub fn add_node(&mut self, kind: &[u8], ports: u32, required: u64) -> Option<u32> {
        let takes = self.rng.below(4) as u8;
        let channels = 1 + u8::from(self.rng.flag());
        let added = self.put(Call::AddNode { kind: kind.to_vec(), ports, required, takes, channels });
        added.of("node").map(|id| id as u32)
    }

    fn remove(&mut self) {
        let node = self.some_node(4);
        self.put(Call::RemoveNode { node });
    }

    /// Connects two nodes, most often from the lower id to the higher, which makes no cycle.
    fn connect(&mut self) {
        let (mut from, mut to) = (self.some_node(20), self.some_node(20));
        if from > to && !self.rng.once_in(25) {
            std::mem::swap(&mut from, &mut to);
        }
        let ports = self.hosts.iter().find(|host| host.id == to).map_or(1, |host| host.ports);
        let port = self.some_port(ports);
        self.put(Call::Connect { from, to, port });
    }

    /// Disconnects a port that is fed, or just some port.
    fn disconnect(&mut self) {
        let edges = self.engine().graph().all_edges();
        let fed: Vec<(u32, u32)> = edges.iter().map(|edge| (edge.to.number() as u32, edge.to_input as u32)).collect();
        let (to, port) = match (self.rng.below(3), self.some_bus()) {
            (0, _) if !fed.is_empty() => *self.rng.pick(&fed),
            (1, Some(bus)) => (bus.id, self.some_port(bus.ports)),
            _ => (self.some_node(8), self.rng.below(66) as u32),
        };
        self.put(Call::Disconnect { to, port });
    }

    fn sink(&mut self) {
        let node = self.some_node(8);
        self.put(Call::SetSink { node });
    }

    fn free(&mut self) {
        let voice = self.some_voice();
        self.put(Call::Free { voice });
    }

    fn order(&mut self) {
        let (voice, name) = (self.some_voice(), values::param(&mut self.rng));
        let call = if self.rng.flag() {
            Call::Value { voice, name, value: values::float(&mut self.rng) }
        } else {
            Call::SetGlide { voice, name, glide: values::glide(&mut self.rng) }
        };
        self.put(call);
    }

    /// An event: every other time one that is like one that waits.
    pub fn event(&mut self) {
        let waiting: Vec<Event> = self.pending().cloned().collect();
        if !waiting.is_empty() && self.rng.flag() {
            let like = self.rng.pick(&waiting).clone();
            return self.event_like(&like);
        }
        let (time, voice) = (self.some_time(), self.some_voice());
        let action = *self.rng.pick(&[0, 0, 1, 1, 2, 2, 3, 255]);
        let (name, glide) = (values::param(&mut self.rng), values::glide(&mut self.rng));
        self.put(Call::Schedule { time, voice, action, name, glide });
    }

    /// An event that replaces this one, or nearly does: another time, voice, sort or name, or no name at all.
    fn event_like(&mut self, old: &Event) {
        let (mut voice, mut action, mut name) = match &old.action {
            EventAction::SetParam { voice, param, .. } => (voice.0, 0, name::bytes(param)),
            EventAction::SetParamGlide { voice, param, .. } => (voice.0, 1, name::bytes(param)),
            EventAction::SetGate { voice, .. } => (voice.0, 2, values::param(&mut self.rng)),
            EventAction::FreeSynth { voice } => (voice.0, *self.rng.pick(&[0, 1, 3]), values::param(&mut self.rng)),
        };
        let mut time = old.time;
        match self.rng.below(14) {
            0 => time = self.some_time(),
            1 => voice = self.some_voice(),
            2 => action = 1 - action.min(1),
            3 => name = values::param(&mut self.rng),
            4 if action == 2 => (action, name) = (0, b"gate".to_vec()),
            4 | 5 if name == b"gate" => action = 2,
            5 => (action, name) = (3, vec![]),
            _ => {}
        }
        let glide = values::glide(&mut self.rng);
        self.put(Call::Schedule { time, voice, action, name, glide });
    }

    /// A time: past, around the next deadline, that of an event which waits, the last of all, or any.
    fn some_time(&mut self) -> u64 {
        let (clock, block) = (self.clock(), self.block() as u64);
        let waiting: Vec<u64> = self.pending().map(|event| event.time).collect();
        match self.rng.below(12) {
            0 => u64::MAX - self.rng.below(2) as u64,
            1 => self.rng.bits(),
            2 => clock.saturating_sub(self.rng.within(1, 40) as u64),
            3 | 4 if !waiting.is_empty() => *self.rng.pick(&waiting),
            5..=8 => clock.saturating_add(*self.rng.pick(&[0, block - 1, block, block + 1])),
            _ => clock.saturating_add(self.rng.below(4 * block as usize + 4) as u64),
        }
    }

    /// A prepare. One that fails is mended three times in four.
    pub fn prepare(&mut self) {
        let answer = self.put(Call::Prepare {});
        if !answer.is("done") && !self.rng.once_in(4) {
            self.mend();
            self.put(Call::Prepare {});
        }
    }

    /// Keeps another definition: within the limits in the first eight slots, and at or past one in the others.
    pub fn keep(&mut self) {
        let slot = self.rng.below(15) as u8;
        let n = self.rng.below(32);
        let definition = match (slot < 8, self.rng.below(4)) {
            (true, 0) => values::tone(),
            (true, _) => values::definition(&mut self.rng, n),
            (false, _) => values::edge_definition(&mut self.rng),
        };
        self.put(Call::Keep { slot, definition });
    }

    fn limits(&mut self) {
        let slot = self.rng.within(8, 14) as u8;
        let definition = values::edge_definition(&mut self.rng);
        self.put(Call::Keep { slot, definition });
        let bus = self.some_target();
        self.spawn_on(slot, bus, true);
    }

    fn read(&mut self) {
        let voice = self.some_voice();
        let node = self.some_node(4);
        let places = self.voices().len() + 2;
        let call = match self.rng.below(10) {
            0 | 1 => Call::Level { voice },
            2 => Call::Position { voice },
            3 => Call::Voice { voice },
            4 => Call::VoiceAt { place: self.rng.below(places) as u32 },
            5 => Call::Voices {},
            6 => Call::Steals {},
            7 => Call::Sources { node },
            8 => Call::Clock {},
            _ if self.edges() > 100 => Call::VoiceAt { place: *self.rng.pick(&[64, u32::MAX]) },
            _ if self.rng.flag() => Call::Edges {},
            _ => Call::Order {},
        };
        self.put(call);
    }

    /// The page, into buffers around its length.
    pub fn page(&mut self) {
        let any = self.rng.below(4097) as u32;
        self.put(Call::Page { length: Length(any) });
        if let Some(length) = self.put(Call::Page { length: Length(4096) }).of("page") {
            self.put(Call::Page { length: Length(length as u32) });
            self.put(Call::Page { length: Length(length as u32 - 1) });
        }
    }
}
