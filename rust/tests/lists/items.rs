//! Random calls on items and parts.

use crate::list::{List, Style};
use crate::support::calls::Call;
use crate::support::Random;
use crate::texts::{random_length, ODD_NAMES, ODD_SUFFIXES};
use zombirels::package::CAPACITY_MAX;
use zombirels::script::Code;

impl List {
    /// An item name, most often one that the list has planned.
    fn item_name(&self, random: &mut Random) -> Vec<u8> {
        if random.once_in(60) {
            return random.pick(ODD_NAMES).to_vec();
        }
        let count = self.prefixes.len();
        let which = match self.style {
            Style::Full if !random.once_in(12) => self.held.len() % count,
            _ => random.below(count),
        };
        let suffix = random_suffix(random, self.last[which]);
        let name = [&self.prefixes[which][..], &suffix].concat();
        match random.below(8) {
            0..=3 => random.flip_case(&name),
            4 if random.once_in(6) => random.damaged(&name),
            _ => name,
        }
    }

    /// A name to ask for: one that is held, most often, or another.
    fn wanted_name(&self, random: &mut Random) -> Vec<u8> {
        if random.once_in(40) {
            return random.pick(ODD_NAMES).to_vec();
        }
        if self.held.is_empty() || random.once_in(3) {
            return self.item_name(random);
        }
        let name = &self.held[random.below(self.held.len())];
        random.flip_case(name)
    }

    pub fn part_name(&self, random: &mut Random) -> Vec<u8> {
        match random.below(12) {
            0 => random.pick(ODD_NAMES).to_vec(),
            1 => self.item_name(random),
            _ => {
                let which = random.below(self.prefixes.len());
                random.flip_case(&self.prefixes[which])
            }
        }
    }

    /// How many bytes an item gets; `room` is what the capacity still takes.
    fn size(&self, random: &mut Random, room: usize) -> usize {
        let exact = |random: &mut Random| (room + random.below(3)).saturating_sub(1);
        match self.style {
            Style::Tight if room < 2000 && random.once_in(3) => exact(random),
            Style::Tiles if room < 8000 && random.once_in(3) => exact(random),
            // a copy goes by blocks of 4 KiB: some have more than two
            Style::Tiles if random.once_in(4) => random.below(10_000),
            Style::Tiles => random.below(4200),
            Style::Full => random.below(4),
            Style::Cuts if random.once_in(4) => 0,
            Style::Cuts if random.once_in(4) => random.below(8000),
            _ => random.below(24),
        }
    }

    pub fn item_call(&self, random: &mut Random, room: usize) -> Call {
        let (puts, drops) = match self.style {
            Style::Full => (92, 2),
            Style::Pieces => (60, 6),
            Style::Cuts => (50, 15),
            _ => (45, 18),
        };
        match random.below(100) {
            n if n < puts => {
                let name = self.item_name(random);
                let size = self.size(random, room.saturating_sub(name.len()));
                Call::new(Code::PutItem, &[&name, &random.bytes(size)])
            }
            n if n < puts + drops => Call::new(Code::DropItem, &[&self.wanted_name(random)]),
            _ => self.question(random),
        }
    }

    fn question(&self, random: &mut Random) -> Call {
        match random.below(80) {
            0..=19 => Call::new(Code::FindItem, &[&self.wanted_name(random)]),
            20..=35 => Call::new(Code::ViewItem, &[&self.wanted_name(random)]),
            36..=55 => {
                let offset = match random.below(12) {
                    0 => random.pick(&[u64::MAX, 1 << 32, (1 << 32) - 1, 1 << 63, 1_000_000]),
                    1..=5 => random.below(100) as u64,
                    6 => random.below(5000) as u64,
                    _ => 0,
                };
                let name = self.part_name(random);
                Call::new(Code::ReadPart, &[&name])
                    .with_number(offset)
                    .with_output(random_length(random))
            }
            56..=71 => {
                let position = match random.below(12) {
                    0 => random.pick(&[u64::MAX, 1 << 32, 256, 255]),
                    1 => random.below(300) as u64,
                    _ => random.below(self.prefixes.len().min(self.held.len() + 1)) as u64,
                };
                Call::new(Code::PartAt, &[])
                    .with_number(position)
                    .with_output(random_length(random))
            }
            72..=78 => Call::new(Code::Totals, &[]),
            _ => Call::new(Code::Start, &[]).with_number(self.new_capacity(random)),
        }
    }

    fn new_capacity(&self, random: &mut Random) -> u64 {
        match random.below(8) {
            0 => CAPACITY_MAX + 1,
            1 => u64::MAX - random.below(40_000) as u64,
            2 => self.lent + 1,
            3 => self.lent,
            4 => CAPACITY_MAX,
            5 => random.below(self.capacity as usize + 1) as u64,
            _ => self.capacity,
        }
    }
}

/// The suffix of a piece, or of none; `last` is the number of the last piece.
fn random_suffix(random: &mut Random, last: Option<usize>) -> Vec<u8> {
    let mark = |last| if last { ".last.piece" } else { ".piece" };
    match last {
        _ if random.once_in(40) => random.pick(ODD_SUFFIXES).to_vec(),
        Some(last) if random.once_in(10) => {
            // a number or a mark that may disagree
            let number = random.below(last + 4);
            format!("/[{number}]{}", mark(random.once_in(2))).into_bytes()
        }
        Some(last) => {
            let number = random.below(last + 1);
            format!("/[{number}]{}", mark(number == last)).into_bytes()
        }
        None if random.once_in(30) => b"/[0].piece".to_vec(),
        None => Vec::new(),
    }
}
