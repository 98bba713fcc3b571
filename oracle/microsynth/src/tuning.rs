//! Stands in for the tuning tables, which `ugens/math.rs` names for glides in pitch space. No compared call reaches
//! them: a scripted generator records a glide and does not play it.

pub fn hz_to_midi_12tet(hz: f32, _a4: f32) -> f32 {
    hz
}

pub fn midi_to_hz_12tet(note: f32, _a4: f32) -> f32 {
    note
}
