//! Boards with a seal (02, Paper 14): profiles around those that fit, and calls around those that the seal leaves open.

use replay::script::Call;
use replay::seal::Profile;
use scripted::limits;

use crate::keyboards::make_console;
use crate::scenes::{leave_nodes, make};
use crate::values::{self, Config};
use crate::writer::{Host, Writer};

/// What a voice may need beyond its definition's own nodes and edges.
const SPARE_NODES: u64 = 3;
const SPARE_EDGES: u64 = 4;

/// Numbers that are far too large, some of which wrap to small ones in 64 bits.
const HUGE: [u64; 7] = [u64::MAX, u64::MAX - 2, u64::MAX - 3, 1 << 63, (1 << 62) - 3, (1 << 62) - 4, 1 << 32];

/// The most nodes and edges of a definition that a move keeps.
const LARGE: u64 = 60;

/// A board that is to be built: the ports of its bus, and how many nodes and edges of the host.
struct Plan {
    ports: u64,
    nodes: u64,
    edges: u64,
}

fn seal_call(profile: Profile) -> Call {
    let Profile { bus, ports, nodes, edges, def_nodes, def_edges } = profile;
    Call::Seal { bus, ports, nodes, edges, def_nodes, def_edges }
}

/// The largest D, or E, that a table of `rows` has room for behind `base` rows of the host, if there is one.
fn largest(rows: usize, base: u64, ports: u64, spare: u64) -> Option<u64> {
    let each = (rows as u64).checked_sub(base)? / (ports + 1);
    each.checked_sub(spare)
}

impl Writer {
    /// The profile of the present store for this bus, but for D and E.
    fn present(&self, bus: Host) -> Profile {
        let (nodes, edges) = (self.live_nodes() as u64, self.edges() as u64);
        Profile { bus: bus.id, ports: bus.ports.into(), nodes, edges, def_nodes: 0, def_edges: 0 }
    }

    fn put_seal(&mut self, profile: Profile) {
        self.put(seal_call(profile));
    }

    /// A D or an E: small, at the limit of a definition, or the largest that fits.
    fn some_size(&mut self, most: u64, limit: usize) -> u64 {
        let most = most.min(255);
        match self.rng.below(6) {
            0 => most,
            1 => most.saturating_sub(1),
            2 => most.min(limit as u64),
            3 => self.rng.below(most as usize + 1) as u64,
            _ => self.rng.below(most.min(limit as u64) as usize + 1) as u64,
        }
    }

    /// A profile that fits the present store, if one does.
    fn some_profile(&mut self, bus: Host) -> Option<Profile> {
        let mut profile = self.present(bus);
        let most_nodes = largest(limits::NODES, profile.nodes, profile.ports, SPARE_NODES)?;
        let most_edges = largest(limits::EDGES, profile.edges, profile.ports, SPARE_EDGES)?;
        profile.def_nodes = self.some_size(most_nodes, limits::DEF_NODES);
        profile.def_edges = self.some_size(most_edges, limits::DEF_EDGES);
        Some(profile)
    }

    /// The same profile with one number of it wrong.
    fn spoiled(&mut self, good: Profile) -> Profile {
        let mut bad = good;
        let beside = |n: u64, up: bool| if up { n + 1 } else { n.wrapping_sub(1) };
        let up = self.rng.flag();
        match self.rng.below(10) {
            0 => bad.ports = beside(good.ports, up),
            1 => bad.nodes = beside(good.nodes, up),
            2 => bad.edges = beside(good.edges, up),
            3 => bad.def_nodes = largest(limits::NODES, good.nodes, good.ports, SPARE_NODES).map_or(0, |most| most + 1),
            4 => bad.def_edges = largest(limits::EDGES, good.edges, good.ports, SPARE_EDGES).map_or(0, |most| most + 1),
            5 => bad.def_nodes = *self.rng.pick(&HUGE),
            6 => bad.def_edges = *self.rng.pick(&HUGE),
            7 => bad.bus = self.some_node(1),
            8 if up => bad.def_nodes += self.rng.within(512, 2000) as u64,
            8 => bad.def_edges += self.rng.within(1024, 2000) as u64,
            _ => {
                let huge = *self.rng.pick(&HUGE);
                let number = self.rng.below(3);
                *[&mut bad.ports, &mut bad.nodes, &mut bad.edges][number] = huge;
            }
        }
        bad
    }

    /// Sealings that are not accepted: a wrong number, a bus of too few or too many ports, a voice, a wish that waits.
    fn vain_seals(&mut self, good: Profile) {
        for _ in 0..self.rng.below(5) {
            let bad = self.spoiled(good);
            self.put_seal(bad);
        }
        let is_wide = self.rng.flag();
        let is_odd = |host: &Host| if is_wide { host.ports > 31 } else { host.ports < 2 };
        let hosts: Vec<Host> = self.hosts.iter().copied().filter(is_odd).collect();
        if !hosts.is_empty() && self.rng.flag() {
            let bus = *self.rng.pick(&hosts);
            let mut profile = self.present(bus);
            profile.def_nodes = u64::from(self.rng.flag());
            self.put_seal(profile);
        }
        if self.rng.flag() {
            self.seal_with_voice(good);
        }
        if self.rng.once_in(3) {
            self.seal_with_wish(good);
        }
    }

    /// A sealing while a voice lives: its nodes and edges are counted, or they are not.
    fn seal_with_voice(&mut self, good: Profile) {
        let (slot, managed) = (self.rng.below(8) as u8, self.rng.flag());
        self.spawn_on(slot, good.bus, managed);
        let counted = Profile { nodes: self.live_nodes() as u64, edges: self.edges() as u64, ..good };
        for profile in [counted, good] {
            if !self.voices().is_empty() {
                self.put_seal(profile);
            }
        }
        self.free_all();
    }

    /// A sealing while wishes wait, and the turns that serve them.
    fn seal_with_wish(&mut self, good: Profile) {
        for _ in 0..self.rng.within(1, 2) {
            self.wish();
        }
        if self.waits() {
            self.put_seal(good);
        }
        self.serve_all();
        self.free_all();
    }

    fn waits(&self) -> bool {
        self.wishes.iter().any(|queue| !queue.is_empty())
    }

    /// Turns until no wish waits.
    fn serve_all(&mut self) {
        while self.waits() {
            self.turn();
        }
    }

    fn free_all(&mut self) {
        for voice in self.voices() {
            self.put(Call::Free { voice });
        }
    }

    /// Sealings in vain, the one that is accepted, and now and then another, which is closed then. A graph that was prepared
    /// before stays so.
    fn seal_after(&mut self, good: Profile) {
        self.vain_seals(good);
        let sounds = self.rng.once_in(3);
        if sounds {
            self.put(Call::Prepare {});
        }
        self.put_seal(good);
        if sounds {
            self.render();
        }
        if self.rng.flag() {
            let again = self.spoiled(good);
            let again = if self.rng.flag() { good } else { again };
            self.put_seal(again);
        }
        if self.rng.once_in(12) {
            let voices = u64::MAX - self.rng.below(20) as u64;
            let (clock, noise) = (self.clock(), u32::MAX - self.rng.below(6) as u32);
            self.put(Call::SetCounters { clock, voices, noise, node: 0 });
        }
    }

    /// A sealing of the present store, or one that is nearly so.
    pub fn seal(&mut self) {
        let buses: Vec<Host> = self.hosts.iter().copied().filter(|host| (2..=31).contains(&host.ports)).collect();
        if buses.is_empty() {
            return;
        }
        let bus = *self.rng.pick(&buses);
        let Some(profile) = self.some_profile(bus) else { return };
        let bad = self.spoiled(profile);
        let chosen = if self.rng.flag() { profile } else { bad };
        self.put_seal(chosen);
    }

    /// Keeps a definition around D and E in this slot.
    fn keep_near(&mut self, slot: u8, profile: Profile) {
        let (nodes, edges) = (profile.def_nodes.min(LARGE) as usize, profile.def_edges.min(LARGE) as usize);
        let definition = match self.rng.below(8) {
            0 | 1 => values::sized(nodes, edges),
            2 => values::sized(nodes + 1, edges),
            3 => values::sized(nodes, edges + 1),
            4 => values::doubled(nodes, edges, 1),
            5 => values::doubled(nodes, edges.saturating_sub(1), 1),
            6 => values::sized(nodes.saturating_sub(1), edges.saturating_sub(1)),
            _ => values::sized(1, 0),
        };
        self.put(Call::Keep { slot, definition });
    }

    /// A definition around D and E, and a spawn of it or a wish for one.
    pub fn near(&mut self) {
        let Some(profile) = self.seal else { return self.seal() };
        let slot = self.rng.below(8) as u8;
        self.keep_near(slot, profile);
        let bus = self.some_target();
        let managed = !self.rng.once_in(8);
        if self.rng.once_in(3) {
            self.wish_for(slot, bus, managed);
            if self.rng.flag() {
                self.turn();
            }
        } else {
            self.spawn_on(slot, bus, managed);
        }
    }

    /// One spawn more than the bus has ports, each of the largest definition that the seal leaves open, with its pan.
    pub fn flood(&mut self) {
        let Some(profile) = self.seal else { return };
        let slot = self.rng.below(8) as u8;
        let (nodes, edges) = (profile.def_nodes.min(LARGE) as usize, profile.def_edges.min(LARGE) as usize);
        self.put(Call::Keep { slot, definition: values::sized(nodes, edges) });
        for _ in 0..=profile.ports {
            let pan = *self.rng.pick(&[f32::NAN, -1.0, 0.5]);
            self.put(Call::SpawnManagedPanned { slot, bus: profile.bus, pan, rank: 0 });
        }
    }

    /// Open wishes until a keyboard is full, and one that the seal closes.
    fn brim(&mut self) {
        let Some(profile) = self.seal.filter(|_| !self.wishes.is_empty()) else { return };
        let keyboard = self.rng.below(self.wishes.len()) as u32;
        self.put(Call::Keep { slot: 0, definition: values::sized(1, 0) });
        for managed in [1; 17].into_iter().chain([0]) {
            self.put_wish(0, keyboard, managed, profile.bus);
        }
    }

    /// Host nodes and edges as planned: the bus first, then a source, then nodes with ports for the edges.
    fn build(&mut self, plan: &Plan) -> Option<Host> {
        let required = u64::from(self.rng.once_in(20));
        let id = self.add_node(b"Bus", plan.ports as u32, required)?;
        if plan.nodes > 1 {
            self.add_node(b"Src", 0, 0);
        }
        let fillers = plan.nodes.saturating_sub(2);
        let wide = plan.edges.div_ceil(fillers.max(1)).clamp(1, 64) as u32;
        for _ in 0..fillers {
            let odd = *self.rng.pick(&[2, 31, 32, 32, 33, 64]);
            let ports = if self.rng.once_in(5) { odd.max(wide) } else { wide };
            self.add_node(b"Fill", ports, 0);
        }
        let sink = if self.rng.once_in(6) { self.some_node(4) } else { id };
        self.put(Call::SetSink { node: sink });
        self.fill_edges(id + 1, plan.edges as usize);
        Some(Host { id, ports: plan.ports as u32 })
    }

    /// A store for a board, most often with keyboards.
    fn make_board(&mut self, config: Config) {
        if self.rng.once_in(4) { make(self, config) } else { make_console(self, config) }
    }
}

/// A plan that with this D and E fits the node table, the edge table or both exactly; once in a while one with few ports and so
/// with many host nodes.
fn exact_plan(writer: &mut Writer) -> (Plan, u64, u64) {
    let ports = if writer.rng.once_in(12) { writer.rng.within(2, 15) } else { writer.rng.within(16, 31) } as u64;
    let most_nodes = largest(limits::NODES, 1, ports, SPARE_NODES).unwrap_or(0);
    let most_edges = largest(limits::EDGES, 0, ports, SPARE_EDGES).unwrap_or(0);
    let (def_nodes, def_edges) = (most_nodes.min(limits::DEF_NODES as u64), most_edges.min(limits::DEF_EDGES as u64));
    let nodes = limits::NODES as u64 - (ports + 1) * (def_nodes + SPARE_NODES);
    let edges = limits::EDGES as u64 - (ports + 1) * (def_edges + SPARE_EDGES);
    let (nodes, edges) = match writer.rng.below(3) {
        0 => (nodes, edges),
        1 => (nodes, edges.min(2)),
        _ => (nodes.min(4 + edges / 8), edges),
    };
    (Plan { ports, nodes, edges }, def_nodes, def_edges)
}

/// A board that fits exactly, so that one more for D or E is refused, with a budget that lets all but one of its voices fade, and as many voices as it may have.
pub fn exact_board(writer: &mut Writer) {
    let mut config = Config::random(&mut writer.rng);
    config.budget = Some(writer.rng.within(1, 2) as u32);
    config.policy = writer.rng.within(1, 3) as u8;
    writer.make_board(config);
    let (plan, def_nodes, def_edges) = exact_plan(writer);
    let Some(bus) = writer.build(&plan) else { return };
    let good = Profile { def_nodes, def_edges, ..writer.present(bus) };
    for over in [Profile { def_nodes: def_nodes + 1, ..good }, Profile { def_edges: def_edges + 1, ..good }] {
        if !(over.has_nodes() && over.has_edges()) {
            writer.put_seal(over);
        }
    }
    writer.seal_after(good);
    writer.flood();
}

/// A board with a random profile around the bounds.
pub fn any_board(writer: &mut Writer) {
    let config = Config::random(&mut writer.rng);
    writer.make_board(config);
    let ports = *writer.rng.pick(&[2, 2, 3, 3, 4, 5, 6, 7, 8, 12, 17, 30, 31]);
    let nodes = writer.rng.within(1, 8) as u64;
    let edges = if nodes > 2 { writer.rng.below(10) as u64 } else { 0 };
    let plan = Plan { ports, nodes, edges };
    let Some(bus) = writer.build(&plan) else { return };
    if plan.nodes > 1 && writer.rng.once_in(3) {
        let port = writer.rng.below(ports as usize) as u32;
        writer.put(Call::Connect { from: bus.id + 1, to: bus.id, port });
    }
    if let Some(good) = writer.some_profile(bus) {
        writer.seal_after(good);
        for slot in 0..4 {
            writer.keep_near(slot, good);
        }
    }
}

/// A small board: a short scene that is sealed soon, with as many voices as it may have. Now and then another such board is
/// made before it.
pub fn small_board(writer: &mut Writer) {
    seal_small(writer);
    if writer.rng.once_in(4) {
        seal_small(writer);
    }
    if writer.rng.once_in(6) {
        writer.brim();
    }
    writer.flood();
}

fn seal_small(writer: &mut Writer) {
    let config = Config::random(&mut writer.rng);
    writer.make_board(config);
    build_small(writer);
}

/// The nodes of a small board, and its seal.
fn build_small(writer: &mut Writer) {
    let plan = Plan { ports: writer.rng.within(2, 4) as u64, nodes: writer.rng.within(1, 3) as u64, edges: 0 };
    let Some(bus) = writer.build(&plan) else { return };
    let mut good = writer.present(bus);
    good.def_nodes = writer.rng.within(1, 3) as u64;
    good.def_edges = writer.rng.below(4) as u64;
    writer.seal_after(good);
}

/// A small board near the end of the node ids: its open spawns are refused with 8 from then on.
pub fn last_board(writer: &mut Writer) {
    let config = Config::random(&mut writer.rng);
    writer.make_board(config);
    let left = *writer.rng.pick(&[12, 20, 40, 120]) + writer.rng.below(8) as u64;
    leave_nodes(writer, left);
    build_small(writer);
    writer.flood();
}

/// What was a store like others until it was sealed: its voices are freed and its wishes served before.
pub fn late_board(writer: &mut Writer) {
    let config = Config::random(&mut writer.rng);
    writer.make_board(config);
    for _ in 0..writer.rng.within(1, 3) {
        writer.add_bus();
    }
    writer.live_first();
    writer.serve_all();
    writer.free_all();
    let buses: Vec<Host> = writer.hosts.iter().copied().filter(|host| (2..=31).contains(&host.ports)).collect();
    if buses.is_empty() {
        return;
    }
    let bus = *writer.rng.pick(&buses);
    if let Some(good) = writer.some_profile(bus) {
        writer.seal_after(good);
    }
}
