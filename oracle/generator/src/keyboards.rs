//! Keyboards: their wishes, which wait, and turns that serve them.

use replay::script::Call;

use crate::values::{self, Config};
use crate::writer::Writer;

impl Writer {
    /// How many keyboards there are.
    fn keyboards(&self) -> usize {
        self.wishes.len()
    }

    /// A keyboard: now and then one that there is not.
    fn some_keyboard(&mut self) -> u32 {
        let many = self.keyboards() as u32;
        if many == 0 || self.rng.once_in(25) {
            return *self.rng.pick(&[many, many.saturating_add(1), 8, u32::MAX]);
        }
        self.rng.below(many as usize) as u32
    }

    /// A wish of that keyboard. Nothing of it is tested, so its spawn may be one that will be refused. Compared runs have
    /// rank 0, or one that is refused.
    fn wish_at(&mut self, keyboard: u32) {
        let slot = self.some_slot();
        let bus = self.some_target();
        let managed = if self.rng.once_in(4) { 0 } else { values::yes(&mut self.rng) };
        self.put_wish(slot, keyboard, managed, bus);
    }

    /// A wish for this spawn, of some keyboard.
    pub fn wish_for(&mut self, slot: u8, bus: u32, is_managed: bool) {
        let keyboard = self.some_keyboard();
        let managed = if is_managed { values::yes(&mut self.rng) } else { 0 };
        self.put_wish(slot, keyboard, managed, bus);
    }

    pub fn put_wish(&mut self, slot: u8, keyboard: u32, managed: u8, bus: u32) {
        let pan = values::pan(&mut self.rng);
        let rank = if self.rng.once_in(20) { *self.rng.pick(&[8, 9, 255, u32::MAX]) } else { 0 };
        self.put(Call::Wish { slot, keyboard, managed, bus, pan, rank });
    }

    pub fn wish(&mut self) {
        let keyboard = self.some_keyboard();
        self.wish_at(keyboard);
    }

    pub fn turn(&mut self) {
        self.put(Call::Turn {});
    }

    /// Some keyboards send some wishes each, and turns follow, with wishes in between.
    pub fn rush(&mut self) {
        for _ in 0..self.rng.within(1, 3) {
            let keyboard = self.some_keyboard();
            for _ in 0..self.rng.within(1, 5) {
                self.wish_at(keyboard);
            }
        }
        self.put(Call::Waiting {});
        for _ in 0..self.rng.within(2, 16) {
            self.turn();
            if self.rng.once_in(5) {
                self.wish();
            }
        }
        self.put(Call::Waiting {});
    }

    /// One keyboard sends until it is full, and once more.
    pub fn fill_keyboard(&mut self) {
        let keyboard = self.some_keyboard();
        for _ in 0..17 {
            self.wish_at(keyboard);
        }
        self.put(Call::Waiting {});
    }
}

/// A making with keyboards: once in a while it is refused for their sake, or before that is looked at.
pub fn make_console(writer: &mut Writer, config: Config) {
    if writer.rng.once_in(3) {
        let mut refused = config;
        if writer.rng.flag() {
            refused.block = 129;
        }
        let keyboards = *writer.rng.pick(&[0, 9, 10, 256, u32::MAX]);
        let call = refused.console(&mut writer.rng, keyboards);
        writer.put(call);
    }
    writer.done_once_in = 8;
    let keyboards = match writer.rng.below(6) {
        0 => 1,
        1 => 8,
        _ => writer.rng.within(2, 7) as u32,
    };
    let call = config.console(&mut writer.rng, keyboards);
    writer.put(call);
}
