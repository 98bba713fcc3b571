//! What wishes and turns reach.

use super::{Reach, Seen};

/// How many wait at each keyboard, and which was served last.
#[derive(Default)]
pub struct Keyboards {
    waiting: Vec<usize>,
    last: Option<usize>,
}

impl Keyboards {
    /// Whether a wish waits.
    pub fn is_waiting(&self) -> bool {
        self.waiting.iter().any(|&waiting| waiting > 0)
    }

    pub fn has(&self, keyboard: u32) -> bool {
        (keyboard as usize) < self.waiting.len()
    }

    /// Whether a keyboard that there is has no place for another wish.
    pub fn is_full(&self, keyboard: u32) -> bool {
        self.waiting.get(keyboard as usize) == Some(&16)
    }
}

impl Reach {
    pub fn note_console(&mut self, seen: &Seen, block: u32, keyboards: u32) {
        if seen.answer.is("made") {
            self.keyboards = Keyboards { waiting: vec![0; keyboards as usize], last: None };
            self.note_made();
            return self.hit(match keyboards {
                1 => "making with 1 keyboard",
                8 => "making with 8 keyboards",
                _ => "making with 2 to 7 keyboards",
            });
        }
        self.hit_if("making refused for its keyboards", seen.answer.of("refused") == Some(24));
        self.hit_if("making refused, and its keyboards too", block == 129 && seen.answer.of("refused") == Some(2));
    }

    pub fn note_wish(&mut self, seen: &Seen, keyboard: u32, is_managed: bool) {
        match seen.answer.of("refused") {
            Some(24) => return self.hit("wish of a keyboard that there is not"),
            // closed by a seal, which is counted by itself
            Some(28) => return,
            Some(_) => return self.hit("seventeenth wish refused"),
            None => {}
        }
        self.hit(if is_managed { "wish of a managed spawn" } else { "wish of an unmanaged spawn" });
        let waiting = &mut self.keyboards.waiting[keyboard as usize];
        *waiting += 1;
        let is_full = *waiting == 16;
        self.hit_if("sixteenth wish of a keyboard", is_full);
    }

    pub fn note_turn(&mut self, seen: &Seen) {
        let Some(served) = seen.answer.of("served") else {
            return self.hit("turn that finds no wish");
        };
        let (served, many) = (served as usize, self.keyboards.waiting.len());
        self.keyboards.waiting[served] -= 1;
        if let Some(last) = self.keyboards.last.replace(served) {
            let steps = (served + many - last - 1) % many;
            self.hit_if("turn that serves the next keyboard", many > 1 && steps == 0);
            self.hit_if("turn that passes over keyboards without a wish", many > 1 && steps > 0);
            self.hit_if("turn that goes round past the last keyboard", served < last);
            self.hit_if("turn that serves the same keyboard again", many > 1 && served == last);
        }
        let is_in = seen.answer.served_voice().is_some();
        self.hit(if is_in { "turn that lets a voice in" } else { "turn whose spawn is refused" });
    }
}
