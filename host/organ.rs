//! The organ's calls from Rust: reads the script that host/organ.c wrote, makes the same calls through the same library, and prints what
//! they answer. `Store` shows how a Rust host holds the store: its memory in one struct, one safe method to a call.
use std::os::raw::c_uint;
use std::{env, fs};

type Words<const N: usize> = [u32; N];

#[rustfmt::skip]
extern "C" {
    fn piecrag_make_console(s: *mut u32, q: *mut u32, rate: f32, block: usize, limited: u32, budget: usize, policy: u32, scope: u32, table: u32, keyboards: usize) -> c_uint;
    fn piecrag_wish(x: *const u32, q: *mut u32, w: *mut u32, keyboard: usize, managed: u32, book: *const u8, len: usize, bus: u32, pan: f32, rank: u32) -> c_uint;
    fn piecrag_turn(s: *mut u32, n: *mut u32, e: *mut u32, v: *mut u32, l: *mut u32, q: *mut u32, w: *const u32, keyboard: &mut usize, voice: &mut u64) -> c_uint;
    fn piecrag_keyboard_count(q: *const u32, count: &mut usize) -> c_uint;
    fn piecrag_waiting_count(q: *const u32, keyboard: usize, count: &mut usize) -> c_uint;
    fn piecrag_add_node(x: *const u32, s: *mut u32, n: *mut u32, kind: *const u8, len: usize, ports: u32, required: u64, values: u32, glides: u32, node: &mut u32) -> c_uint;
    fn piecrag_connect(x: *const u32, s: *mut u32, n: *const u32, e: *mut u32, from: u32, to: u32, port: u32) -> c_uint;
    fn piecrag_set_sink(x: *const u32, s: *mut u32, n: *const u32, node: u32) -> c_uint;
    fn piecrag_prepare(s: *mut u32, n: *const u32, e: *const u32, o: *mut u32) -> c_uint;
    fn piecrag_spawn(x: *const u32, s: *mut u32, n: *mut u32, e: *mut u32, v: *mut u32, l: *mut u32, managed: u32, book: *const u8, len: usize, bus: u32, pan: f32, rank: u32, voice: &mut u64) -> c_uint;
    fn piecrag_set_voice_param(s: *const u32, n: *mut u32, v: *const u32, voice: u64, name: *const u8, len: usize, value: f32) -> c_uint;
    fn piecrag_set_voice_param_glide(s: *const u32, n: *mut u32, v: *const u32, voice: u64, name: *const u8, len: usize, target: f32, seconds: f32, shape: u32, curve: f32, space: u32) -> c_uint;
    fn piecrag_schedule(s: *mut u32, w: *mut u32, time: u64, voice: u64, name: *const u8, len: usize, action: u32, value: f32, seconds: f32, shape: u32, curve: f32, space: u32) -> c_uint;
    fn piecrag_report(s: *const u32, n: *mut u32, v: *const u32, node: u32, channels: usize, samples: *const f32, len: usize, done: u32) -> c_uint;
    fn piecrag_render(s: *mut u32, n: *mut u32, e: *mut u32, o: *mut u32, v: *mut u32, w: *mut u32, outcomes: *mut u8, len: usize, sounding: &mut u32, taken: &mut usize) -> c_uint;
    fn piecrag_free_done_synths(s: *mut u32, n: *mut u32, e: *mut u32, v: *mut u32, removed: &mut usize) -> c_uint;
    fn piecrag_page(s: *const u32, e: *const u32, v: *const u32, out: *mut u8, len: usize, length: &mut usize) -> c_uint;
    fn piecrag_voice_level(s: *const u32, n: *const u32, v: *const u32, voice: u64, known: &mut u32, level: &mut f32) -> c_uint;
    fn piecrag_voices(s: *const u32, v: *const u32, count: &mut usize) -> c_uint;
    fn piecrag_edges(s: *const u32, e: *const u32, count: &mut usize) -> c_uint;
    fn piecrag_processing_order(s: *const u32, o: *const u32, count: &mut usize) -> c_uint;
    fn piecrag_clock(s: *const u32, clock: &mut u64) -> c_uint;
    fn piecrag_steals(s: *const u32, l: *const u32, total: &mut u64, held: &mut usize) -> c_uint;
    fn piecrag_steal_at(s: *const u32, l: *const u32, place: usize, found: &mut u32, sample: &mut u64, known: &mut u32, level: &mut f32, cut: &mut u32) -> c_uint;
}

/// The memory of a store; the sizes are those of piecrag.h. The seal's words stay 0: the organ is never sealed.
struct Store {
    state: Words<32>,
    nodes: Words<11264>,
    edges: Words<3072>,
    order: Words<512>,
    voices: Words<9152>,
    events: Words<3840>,
    steals: Words<320>,
    waiting: Words<12>,
    wishes: Words<31104>,
    seal: Words<12>,
}

type Answer<T> = Result<T, u32>;

fn answer<T>(k: u32, x: T) -> Answer<T> {
    if k == 0 { Ok(x) } else { Err(k) }
}

#[rustfmt::skip]
impl Store {
    fn new() -> Box<Store> {
        Box::new(Store { state: [0; _], nodes: [0; _], edges: [0; _], order: [0; _], voices: [0; _], events: [0; _], steals: [0; _], waiting: [0; _], wishes: [0; _], seal: [0; _] })
    }
    fn make(&mut self, rate: f32, block: usize, limited: u32, budget: usize, policy: u32, scope: u32, table: u32, keyboards: usize) -> Answer<()> {
        answer(unsafe { piecrag_make_console(self.state.as_mut_ptr(), self.waiting.as_mut_ptr(), rate, block, limited, budget, policy, scope, table, keyboards) }, ())
    }
    fn wish(&mut self, keyboard: usize, managed: u32, book: &[u8], bus: u32, pan: f32, rank: u32) -> Answer<()> {
        answer(unsafe { piecrag_wish(self.seal.as_ptr(), self.waiting.as_mut_ptr(), self.wishes.as_mut_ptr(), keyboard, managed, book.as_ptr(), book.len(), bus, pan, rank) }, ())
    }
    /// The keyboard served, and what its spawn was answered.
    fn turn(&mut self) -> Option<(usize, Answer<u64>)> {
        let (mut keyboard, mut voice) = (0, 0);
        let (s, n, e, v) = (self.state.as_mut_ptr(), self.nodes.as_mut_ptr(), self.edges.as_mut_ptr(), self.voices.as_mut_ptr());
        let k = unsafe { piecrag_turn(s, n, e, v, self.steals.as_mut_ptr(), self.waiting.as_mut_ptr(), self.wishes.as_ptr(), &mut keyboard, &mut voice) };
        (k != TURN_EMPTY).then_some((keyboard, answer(k, voice)))
    }
    /// How many wishes wait at each keyboard.
    fn waiting(&self) -> Vec<usize> {
        let mut n = 0;
        unsafe { piecrag_keyboard_count(self.waiting.as_ptr(), &mut n) };
        let one = |q| {
            let mut count = 0;
            unsafe { piecrag_waiting_count(self.waiting.as_ptr(), q, &mut count) };
            count
        };
        (0..n).map(one).collect()
    }
    fn add_node(&mut self, kind: &[u8], ports: u32, required: u64, takes: u32) -> Answer<u32> {
        let mut id = 0;
        let k = unsafe { piecrag_add_node(self.seal.as_ptr(), self.state.as_mut_ptr(), self.nodes.as_mut_ptr(), kind.as_ptr(), kind.len(), ports, required, takes & 1, takes & 2, &mut id) };
        answer(k, id)
    }
    fn connect(&mut self, from: u32, to: u32, port: u32) -> Answer<()> {
        answer(unsafe { piecrag_connect(self.seal.as_ptr(), self.state.as_mut_ptr(), self.nodes.as_ptr(), self.edges.as_mut_ptr(), from, to, port) }, ())
    }
    fn set_sink(&mut self, node: u32) -> Answer<()> {
        answer(unsafe { piecrag_set_sink(self.seal.as_ptr(), self.state.as_mut_ptr(), self.nodes.as_ptr(), node) }, ())
    }
    fn prepare(&mut self) -> Answer<()> {
        answer(unsafe { piecrag_prepare(self.state.as_mut_ptr(), self.nodes.as_ptr(), self.edges.as_ptr(), self.order.as_mut_ptr()) }, ())
    }
    /// A managed spawn.
    fn spawn(&mut self, book: &[u8], bus: u32, pan: f32, rank: u32) -> Answer<u64> {
        let (mut id, s, n, e) = (0, self.state.as_mut_ptr(), self.nodes.as_mut_ptr(), self.edges.as_mut_ptr());
        let (v, l) = (self.voices.as_mut_ptr(), self.steals.as_mut_ptr());
        let k = unsafe { piecrag_spawn(self.seal.as_ptr(), s, n, e, v, l, 1, book.as_ptr(), book.len(), bus, pan, rank, &mut id) };
        answer(k, id)
    }
    fn set_param(&mut self, voice: u64, name: &[u8], x: f32) -> u32 {
        unsafe { piecrag_set_voice_param(self.state.as_ptr(), self.nodes.as_mut_ptr(), self.voices.as_ptr(), voice, name.as_ptr(), name.len(), x) }
    }
    fn set_glide(&mut self, voice: u64, name: &[u8], g: Glide) -> u32 {
        unsafe { piecrag_set_voice_param_glide(self.state.as_ptr(), self.nodes.as_mut_ptr(), self.voices.as_ptr(), voice, name.as_ptr(), name.len(), g.target, g.seconds, g.shape, g.curve, g.space) }
    }
    fn schedule(&mut self, time: u64, voice: u64, name: &[u8], action: u8, g: Glide) -> Answer<()> {
        let (s, w) = (self.state.as_mut_ptr(), self.events.as_mut_ptr());
        answer(unsafe { piecrag_schedule(s, w, time, voice, name.as_ptr(), name.len(), action as u32, g.target, g.seconds, g.shape, g.curve, g.space) }, ())
    }
    fn report(&mut self, node: u32, channels: usize, samples: &[f32], done: u32) -> Answer<()> {
        answer(unsafe { piecrag_report(self.state.as_ptr(), self.nodes.as_mut_ptr(), self.voices.as_ptr(), node, channels, samples.as_ptr(), samples.len(), done) }, ())
    }
    fn render(&mut self) -> Answer<(bool, Vec<u8>)> {
        let (mut sounding, mut taken, mut list) = (0, 0, vec![0; 256]);
        let k = unsafe { piecrag_render(self.state.as_mut_ptr(), self.nodes.as_mut_ptr(), self.edges.as_mut_ptr(), self.order.as_mut_ptr(), self.voices.as_mut_ptr(), self.events.as_mut_ptr(), list.as_mut_ptr(), list.len(), &mut sounding, &mut taken) };
        list.truncate(taken);
        answer(k, (sounding == 1, list))
    }
    fn clear(&mut self) -> usize {
        let mut removed = 0;
        unsafe { piecrag_free_done_synths(self.state.as_mut_ptr(), self.nodes.as_mut_ptr(), self.edges.as_mut_ptr(), self.voices.as_mut_ptr(), &mut removed) };
        removed
    }
    fn page(&self, room: usize) -> Answer<String> {
        let (mut out, mut length) = (vec![0; room], 0);
        let k = unsafe { piecrag_page(self.state.as_ptr(), self.edges.as_ptr(), self.voices.as_ptr(), out.as_mut_ptr(), room, &mut length) };
        answer(k, String::from_utf8_lossy(&out[..length]).into_owned())
    }
    fn level(&self, voice: u64) -> Option<f32> {
        let (mut known, mut x) = (0, 0.0);
        unsafe { piecrag_voice_level(self.state.as_ptr(), self.nodes.as_ptr(), self.voices.as_ptr(), voice, &mut known, &mut x) };
        (known == 1).then_some(x)
    }
    fn voices(&self) -> Vec<u32> {
        let mut n = 0;
        unsafe { piecrag_voices(self.state.as_ptr(), self.voices.as_ptr(), &mut n) };
        self.voices.chunks(VOICE).take(n).map(|row| row[0]).collect()
    }
    fn edges(&self) -> &[u32] {
        let mut n = 0;
        unsafe { piecrag_edges(self.state.as_ptr(), self.edges.as_ptr(), &mut n) };
        &self.edges[..3 * n]
    }
    fn order(&self) -> &[u32] {
        let mut n = 0;
        unsafe { piecrag_processing_order(self.state.as_ptr(), self.order.as_ptr(), &mut n) };
        &self.order[..n]
    }
    fn clock(&self) -> u64 {
        let mut t = 0;
        unsafe { piecrag_clock(self.state.as_ptr(), &mut t) };
        t
    }
    fn steals(&self) -> (u64, Vec<(u64, Option<f32>, bool)>) {
        let (mut total, mut held) = (0, 0);
        unsafe { piecrag_steals(self.state.as_ptr(), self.steals.as_ptr(), &mut total, &mut held) };
        let one = |i| {
            let (mut found, mut sample, mut known, mut level, mut cut) = (0, 0, 0, 0.0, 0);
            unsafe { piecrag_steal_at(self.state.as_ptr(), self.steals.as_ptr(), i, &mut found, &mut sample, &mut known, &mut level, &mut cut) };
            (sample, (known == 1).then_some(level), cut == 1)
        };
        (total, (0..held).map(one).collect())
    }
}

/// Words of a row of the voice table.
const VOICE: usize = 143;

/// What a turn answers if no wish waited, and the word that has the keyboard after the last served.
const TURN_EMPTY: u32 = 256;
const WAITING_NEXT: usize = 2;

struct Glide { target: f32, seconds: f32, shape: u32, curve: f32, space: u32 }

/// The fields of a script.
struct Script<'a> { bytes: &'a [u8] }

impl<'a> Script<'a> {
    fn take(&mut self, n: usize) -> &'a [u8] {
        let (head, tail) = self.bytes.split_at(n);
        self.bytes = tail;
        head
    }
    fn u8(&mut self) -> u8 { self.take(1)[0] }
    fn u32(&mut self) -> u32 { u32::from_le_bytes(self.take(4).try_into().unwrap()) }
    fn u64(&mut self) -> u64 { u64::from_le_bytes(self.take(8).try_into().unwrap()) }
    fn f32(&mut self) -> f32 { f32::from_bits(self.u32()) }
    fn name(&mut self) -> &'a [u8] {
        let n = self.u8() as usize;
        self.take(n)
    }
    fn glide(&mut self) -> Glide {
        Glide { target: self.f32(), seconds: self.f32(), shape: self.u8() as u32, curve: self.f32(), space: self.u8() as u32 }
    }
    /// A definition, as a book.
    fn book(&mut self) -> Vec<u8> {
        let padded = |name: &[u8]| [&[name.len() as u8][..], name, &[0; 16][name.len()..]].concat();
        let record = |kind: u8, payload: &[u8]| [&[payload.len() as u8 + 4, 0, kind, 0], payload].concat();
        let (mut rows, nodes) = (Vec::new(), self.u8());
        for _ in 0..nodes {
            let (kind, f) = (self.name(), self.take(7));
            rows.extend(record(2, &[&padded(kind)[..], &f[..3], &f[4..]].concat()));
        }
        for _ in 0..self.u8() {
            rows.extend(record(3, self.take(3)));
        }
        for _ in 0..self.u8() {
            let name = self.name();
            rows.extend(record(4, &[&padded(name)[..], self.take(1)].concat()));
        }
        [record(1, &[nodes, self.u8()]), rows].concat()
    }
}

fn line<T>(a: Answer<T>, done: impl FnOnce(T) -> String) -> String {
    a.map_or_else(|k| format!("refused {k}"), done)
}

fn plain(a: Answer<()>) -> String {
    line(a, |()| "done".into())
}

fn level(x: Option<f32>) -> String {
    x.map_or("-".into(), |x| format!("{:08x}", x.to_bits()))
}

fn list<T: ToString>(head: &str, all: impl IntoIterator<Item = T>) -> String {
    all.into_iter().fold(head.into(), |l, x| l + " " + &x.to_string())
}

/// One entry of the script: its call, and the line that `replay` writes for it.
fn play(s: &mut Script, store: &mut Store, books: &mut [Vec<u8>]) -> String {
    match s.u8() {
        47 => {
            let (rate, block, limited, budget) = (s.f32(), s.u32() as usize, s.u8() as u32, s.u32() as usize);
            let (policy, scope, table) = (s.u8() as u32, s.u8() as u32, s.u8() as u32);
            line(store.make(rate, block, limited, budget, policy, scope, table, s.u32() as usize), |()| "made".into())
        }
        3 => {
            let (kind, ports, required, takes) = (s.name(), s.u32(), s.u64(), s.u8() as u32);
            s.u8();
            line(store.add_node(kind, ports, required, takes), |n| format!("node {n}"))
        }
        5 => plain(store.connect(s.u32(), s.u32(), s.u32())),
        7 => plain(store.set_sink(s.u32())),
        8 => {
            let slot = s.u8() as usize;
            books[slot] = s.book();
            "kept".into()
        }
        sort @ (9 | 11) => {
            let (slot, bus) = (s.u8() as usize, s.u32());
            let pan = if sort == 9 { s.f32() } else { 0.0 };
            line(store.spawn(&books[slot], bus, pan, s.u32()), |v| format!("voice {v}"))
        }
        14 => format!("removed {}", store.clear()),
        15 => format!("outcome {}", store.set_param(s.u64(), s.name(), s.f32())),
        16 => format!("outcome {}", store.set_glide(s.u64(), s.name(), s.glide())),
        17 => {
            let (time, voice, action, name, g) = (s.u64(), s.u64(), s.u8(), s.name(), s.glide());
            plain(store.schedule(time, voice, name, action, g))
        }
        18 => {
            let (node, channels, done) = (s.u32(), s.u8() as usize, s.u8() as u32);
            let samples: Vec<f32> = (0..s.u32()).map(|_| s.f32()).collect();
            plain(store.report(node, channels, &samples, done))
        }
        20 => plain(store.prepare()),
        21 => line(store.render(), |(sounds, list)| {
            let gap = if list.is_empty() { "" } else { " " };
            let hex: String = list.iter().map(|x| format!("{x:02x}")).collect();
            format!("{} took {}{gap}{hex}", if sounds { "sounding" } else { "silent" }, list.len())
        }),
        22 => format!("level {}", level(store.level(s.u64()))),
        26 => list("voices", store.voices()),
        27 => {
            let (total, all) = store.steals();
            let one = |(t, x, cut)| format!("{t} {} {}", level(x), if cut { "cut" } else { "faded" });
            list(&format!("steals {total}"), all.into_iter().map(one))
        }
        28 => list("edges", store.edges()),
        29 => list("order", store.order()),
        31 => format!("clock {}", store.clock()),
        32 => line(store.page(s.u32() as usize), |p| format!("page {}\n{}", p.len(), p.trim_end())),
        48 => {
            let (slot, keyboard, managed, bus) = (s.u8() as usize, s.u32() as usize, s.u8() as u32, s.u32());
            line(store.wish(keyboard, managed, &books[slot], bus, s.f32(), s.u32()), |()| "waits".into())
        }
        49 => store.turn().map_or("empty".into(), |(q, a)| format!("served {q} {}", line(a, |v| format!("voice {v}")))),
        50 => list("waiting", store.waiting()) + &format!(" next {}", store.waiting[WAITING_NEXT]),
        sort => panic!("the organ makes no entry of sort {sort}"),
    }
}

fn main() {
    let bytes = fs::read(env::args().nth(1).expect("organ_rs SCRIPT")).expect("the script can be read");
    let (mut script, mut store, mut books, mut played) = (Script { bytes: &bytes }, Store::new(), vec![Vec::new(); 16], 0);
    while !script.bytes.is_empty() {
        println!("{}", play(&mut script, &mut store, &mut books));
        played += 1;
    }
    println!("played {played}");
}
