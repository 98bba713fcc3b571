//! The calls of the library for C that are timed, as host/piecrag.h declares them.

use crate::store::{Edges, Events, Nodes, Order, Seal, State, Steals, Voices, Waiting, Wishes};

unsafe extern "C" {
    pub safe fn piecrag_make(
        state: &mut State,
        rate: f32,
        block: usize,
        limited: u32,
        budget: usize,
        policy: u32,
        scope: u32,
        table: u32,
    ) -> u32;
    pub fn piecrag_add_node(
        seal: &Seal,
        state: &mut State,
        nodes: &mut Nodes,
        kind: *const u8,
        kind_length: usize,
        ports: u32,
        required: u64,
        values: u32,
        glides: u32,
        node: &mut u32,
    ) -> u32;
    pub safe fn piecrag_remove_node(
        seal: &Seal,
        state: &mut State,
        nodes: &mut Nodes,
        edges: &mut Edges,
        node: u32,
    ) -> u32;
    pub safe fn piecrag_connect(
        seal: &Seal,
        state: &mut State,
        nodes: &Nodes,
        edges: &mut Edges,
        from: u32,
        to: u32,
        port: u32,
    ) -> u32;
    pub safe fn piecrag_disconnect(
        seal: &Seal,
        state: &mut State,
        nodes: &Nodes,
        edges: &mut Edges,
        to: u32,
        port: u32,
    ) -> u32;
    pub safe fn piecrag_set_sink(seal: &Seal, state: &mut State, nodes: &Nodes, node: u32) -> u32;
    pub safe fn piecrag_prepare(state: &mut State, nodes: &Nodes, edges: &Edges, order: &mut Order) -> u32;
    pub fn piecrag_schedule(
        state: &mut State,
        events: &mut Events,
        time: u64,
        voice: u64,
        name: *const u8,
        name_length: usize,
        action: u32,
        value: f32,
        seconds: f32,
        shape: u32,
        curve: f32,
        space: u32,
    ) -> u32;
    pub fn piecrag_spawn(
        seal: &Seal,
        state: &mut State,
        nodes: &mut Nodes,
        edges: &mut Edges,
        voices: &mut Voices,
        steals: &mut Steals,
        managed: u32,
        book: *const u8,
        book_length: usize,
        bus: u32,
        pan: f32,
        rank: u32,
        voice: &mut u64,
    ) -> u32;
    pub fn piecrag_wish(
        seal: &Seal,
        waiting: &mut Waiting,
        wishes: &mut Wishes,
        keyboard: usize,
        managed: u32,
        book: *const u8,
        book_length: usize,
        bus: u32,
        pan: f32,
        rank: u32,
    ) -> u32;
    pub safe fn piecrag_seal(
        seal: &mut Seal,
        state: &State,
        nodes: &Nodes,
        edges: &Edges,
        voices: &Voices,
        waiting: &Waiting,
        bus: u32,
        ports: u64,
        host_nodes: u64,
        host_edges: u64,
        def_nodes: u64,
        def_edges: u64,
    ) -> u32;
    pub safe fn piecrag_make_console(
        state: &mut State,
        waiting: &mut Waiting,
        rate: f32,
        block: usize,
        limited: u32,
        budget: usize,
        policy: u32,
        scope: u32,
        table: u32,
        keyboards: usize,
    ) -> u32;
    pub safe fn piecrag_turn(
        state: &mut State,
        nodes: &mut Nodes,
        edges: &mut Edges,
        voices: &mut Voices,
        steals: &mut Steals,
        waiting: &mut Waiting,
        wishes: &Wishes,
        keyboard: &mut usize,
        voice: &mut u64,
    ) -> u32;
    pub safe fn piecrag_keyboard_count(waiting: &Waiting, count: &mut usize) -> u32;
    pub safe fn piecrag_waiting_count(waiting: &Waiting, keyboard: usize, count: &mut usize) -> u32;
    pub safe fn piecrag_next_keyboard(waiting: &Waiting, found: &mut u32, keyboard: &mut usize) -> u32;
    pub safe fn piecrag_free_voice(
        state: &mut State,
        nodes: &mut Nodes,
        edges: &mut Edges,
        voices: &mut Voices,
        voice: u64,
    ) -> u32;
    pub safe fn piecrag_free_done_synths(
        state: &mut State,
        nodes: &mut Nodes,
        edges: &mut Edges,
        voices: &mut Voices,
        removed: &mut usize,
    ) -> u32;
    pub fn piecrag_set_voice_param(
        state: &State,
        nodes: &mut Nodes,
        voices: &Voices,
        voice: u64,
        name: *const u8,
        name_length: usize,
        value: f32,
    ) -> u32;
    pub fn piecrag_set_voice_param_glide(
        state: &State,
        nodes: &mut Nodes,
        voices: &Voices,
        voice: u64,
        name: *const u8,
        name_length: usize,
        target: f32,
        seconds: f32,
        shape: u32,
        curve: f32,
        space: u32,
    ) -> u32;
    pub fn piecrag_report(
        state: &State,
        nodes: &mut Nodes,
        voices: &Voices,
        node: u32,
        channels: usize,
        samples: *const f32,
        samples_length: usize,
        done: u32,
    ) -> u32;
    pub fn piecrag_render(
        state: &mut State,
        nodes: &mut Nodes,
        edges: &mut Edges,
        order: &mut Order,
        voices: &mut Voices,
        events: &mut Events,
        outcomes: *mut u8,
        outcomes_length: usize,
        sounding: &mut u32,
        taken: &mut usize,
    ) -> u32;
    pub safe fn piecrag_clock(state: &State, clock: &mut u64) -> u32;
    pub safe fn piecrag_voices(state: &State, voices: &Voices, count: &mut usize) -> u32;
    pub safe fn piecrag_edges(state: &State, edges: &Edges, count: &mut usize) -> u32;
    pub safe fn piecrag_processing_order(state: &State, order: &Order, count: &mut usize) -> u32;
    pub safe fn piecrag_edge_at(
        state: &State,
        edges: &Edges,
        place: usize,
        found: &mut u32,
        row: &mut [u32; 3],
    ) -> u32;
    pub safe fn piecrag_voice_level(
        state: &State,
        nodes: &Nodes,
        voices: &Voices,
        voice: u64,
        known: &mut u32,
        level: &mut f32,
    ) -> u32;
    pub safe fn piecrag_fade_position(
        state: &State,
        voices: &Voices,
        voice: u64,
        fading: &mut u32,
        position: &mut u64,
    ) -> u32;
    pub safe fn piecrag_voice(
        state: &State,
        voices: &Voices,
        voice: u64,
        found: &mut u32,
        row: &mut [u32; 143],
    ) -> u32;
    pub safe fn piecrag_voice_at(
        state: &State,
        voices: &Voices,
        place: usize,
        found: &mut u32,
        row: &mut [u32; 143],
    ) -> u32;
    pub safe fn piecrag_node_record(
        state: &State,
        nodes: &Nodes,
        node: u32,
        found: &mut u32,
        row: &mut [u32; 22],
    ) -> u32;
    pub safe fn piecrag_steals(state: &State, steals: &Steals, total: &mut u64, held: &mut usize) -> u32;
    pub safe fn piecrag_steal_at(
        state: &State,
        steals: &Steals,
        place: usize,
        found: &mut u32,
        sample: &mut u64,
        known: &mut u32,
        level: &mut f32,
        cut: &mut u32,
    ) -> u32;
    pub safe fn piecrag_busiest_steals(
        state: &State,
        steals: &Steals,
        width: u64,
        count: &mut usize,
        sample: &mut u64,
    ) -> u32;
    pub safe fn piecrag_source(
        state: &State,
        edges: &Edges,
        node: u32,
        port: u32,
        fed: &mut u32,
        from: &mut u32,
    ) -> u32;
    pub fn piecrag_page(
        state: &State,
        edges: &Edges,
        voices: &Voices,
        out: *mut u8,
        out_length: usize,
        length: &mut usize,
    ) -> u32;
    pub fn piecrag_fade_output(
        state: &State,
        input: *const f32,
        input_length: usize,
        ins: usize,
        gains: *const f32,
        gains_length: usize,
        position: u64,
        out: *mut f32,
        out_length: usize,
        outs: usize,
    ) -> u32;
    pub fn piecrag_bus_sum(
        state: &State,
        inputs: *const f32,
        inputs_length: usize,
        counts: *const usize,
        counts_length: usize,
        out: *mut f32,
        out_length: usize,
        outs: usize,
    ) -> u32;
    pub fn piecrag_whole_fade_output(
        state: &State,
        input: *const i32,
        input_length: usize,
        ins: usize,
        gains: *const u32,
        gains_length: usize,
        position: u64,
        out: *mut i32,
        out_length: usize,
        outs: usize,
    ) -> u32;
    pub fn piecrag_whole_bus_sum(
        state: &State,
        inputs: *const i32,
        inputs_length: usize,
        counts: *const usize,
        counts_length: usize,
        out: *mut i32,
        out_length: usize,
        outs: usize,
    ) -> u32;
    /// The port search alone, of crate `port_search`.
    pub safe fn piecrag_free_port(edges: &Edges, count: usize, node: u32, ports: u32) -> u32;
}
