//! A random list of calls: its plan, what is held by now, the next call.

use crate::origins::typed_name;
use crate::support::calls::Call;
use crate::support::pieces::piece;
use crate::support::Random;
use crate::texts::{beginning, forked_name, SEGMENTS};
use reference::ledger::Ledger;
use std::collections::VecDeque;
use zombirels::package::CAPACITY_MAX;
use zombirels::script::Code;

/// What the names and sizes of a list are like.
#[derive(Clone, Copy, Debug, PartialEq, Eq)]
pub enum Style {
    /// Few names that collide and derive from each other.
    Crowded,
    /// Names without end, so that the set of items gets full.
    Full,
    /// Bytes that fill the capacity to the last one, or one more.
    Tight,
    /// A few parts in many pieces, in any order.
    Pieces,
    /// Tiles of some thousand bytes, put and dropped.
    Tiles,
    /// Parts of few bytes and of many, cut and joined.
    Cuts,
    /// Few parts, types and relationships with colliding keys.
    Fields,
    /// Parts whose types come from Overrides, from Defaults or from neither.
    Origins,
    /// Types or relationships without end, so that their sets get full.
    FullFields,
    /// Types and relationships read from streams.
    Readings,
}

/// One list: the names to choose from, the capacity, what is held by now.
pub struct List {
    pub style: Style,
    pub prefixes: Vec<Vec<u8>>,
    /// For each prefix the number of its last piece, if it comes in pieces.
    pub last: Vec<Option<usize>>,
    pub capacity: u64,
    /// The greatest capacity that the buffer is long enough for.
    pub lent: u64,
    /// The names of accepted puts, as given.
    pub held: Vec<Vec<u8>>,
    /// The keys of accepted Defaults, Overrides and relationships, as given.
    pub extensions: Vec<Vec<u8>>,
    pub overrides: Vec<Vec<u8>>,
    pub relationships: Vec<(Vec<u8>, Vec<u8>)>,
    /// Whether the list fills the relationships, or else the types.
    pub relates: bool,
    /// Some streams that were written, and by which calls.
    pub written: Vec<(Code, Vec<u8>)>,
    /// The calls that come next.
    pub planned: VecDeque<Call>,
}

impl List {
    pub fn new(random: &mut Random, style: Style) -> List {
        let count = match style {
            Style::Crowded => 2 + random.below(10),
            Style::Full => 300 + random.below(200),
            Style::Tight => 2 + random.below(30),
            Style::Pieces => 1 + random.below(4),
            Style::Tiles => 5 + random.below(60),
            Style::Cuts => 1 + random.below(20),
            Style::Fields => 1 + random.below(8),
            Style::Origins => 2 + random.below(8),
            Style::FullFields => 70 + random.below(40),
            Style::Readings => 2 + random.below(8),
        };
        let mut list = List {
            style,
            prefixes: Vec::new(),
            last: Vec::new(),
            capacity: random_capacity(random, style),
            lent: 0,
            held: Vec::new(),
            extensions: Vec::new(),
            overrides: Vec::new(),
            relationships: Vec::new(),
            relates: random.once_in(2),
            written: Vec::new(),
            planned: VecDeque::new(),
        };
        list.lent = match random.below(120) {
            0 => CAPACITY_MAX + 1, // long enough for a capacity that is too large
            1..=40 => list.capacity + random.below(3000) as u64,
            _ => list.capacity,
        };
        for number in 0..count {
            list.prefixes.push(random_prefix(random, style, number));
            list.last.push(random_last(random, style));
        }
        list
    }

    /// The next call on the package of that ledger.
    pub fn call(&mut self, random: &mut Random, ledger: &Ledger) -> Call {
        if let Some(call) = self.planned.pop_front() {
            return call;
        }
        if random.once_in(40) {
            return self.stream_call(random);
        }
        // of a hundred calls: on fields, cuts and joins, type origins, readings
        let (fields, cuts, origins, readings) = match self.style {
            Style::Full => (3, 2, 1, 1),
            Style::Pieces => (8, 8, 2, 1),
            Style::Crowded | Style::Tight => (15, 8, 4, 3),
            Style::Tiles => (15, 4, 2, 2),
            Style::Cuts => (12, 35, 4, 2),
            Style::Fields => (65, 3, 8, 5),
            Style::Origins => (32, 2, 30, 3),
            Style::FullFields => (95, 1, 1, 1),
            Style::Readings => (35, 2, 3, 25),
        };
        let room = ledger.room() as usize;
        let [fields, cuts, origins, readings] = [
            fields,
            fields + cuts,
            fields + cuts + origins,
            fields + cuts + origins + readings,
        ];
        match random.below(100) {
            n if n < fields => self.field_call(random, room),
            n if n < cuts => self.cut_call(random, ledger),
            n if n < origins => self.origin_call(random, ledger),
            n if n < readings => self.reading_call(random, ledger),
            _ => self.item_call(random, room),
        }
    }

    /// Notes what an accepted call put.
    pub fn note(&mut self, call: Call) {
        if matches!(call.code, Code::ReadTypes | Code::ReadRelationships) {
            return self.note_read(&call);
        }
        let [first, second, ..] = call.texts;
        match call.code {
            Code::PutItem => self.held.push(first),
            Code::PutDefault => self.extensions.push(first),
            Code::PutOverride => self.overrides.push(first),
            Code::PutRelationship => self.relationships.push((first, second)),
            Code::Start => self.restart(call.number),
            Code::CutPart => {
                let count = call.number as usize;
                let pieces = [0, count / 2, count - 1].map(|k| piece(&first, k, count));
                self.held.extend(pieces);
            }
            Code::JoinPart => self.held.push(first),
            _ => {}
        }
    }

    /// Notes a stream that was written, in place of an older one if there are
    /// many.
    pub fn note_written(&mut self, random: &mut Random, code: Code, stream: Vec<u8>) {
        if self.written.len() == 4 {
            self.written.swap_remove(random.below(4));
        }
        self.written.push((code, stream));
    }

    /// Empties the list's account, as a start does with the package.
    fn restart(&mut self, capacity: u64) {
        self.held.clear();
        self.extensions.clear();
        self.overrides.clear();
        self.relationships.clear();
        self.capacity = capacity;
    }
}

fn random_capacity(random: &mut Random, style: Style) -> u64 {
    let capacity = match style {
        Style::Crowded => random.below(3000),
        Style::Full => 20_000,
        Style::Tight => random.below(400),
        Style::Pieces => 2000 + random.below(6000),
        Style::Tiles => 20_000 + random.below(60_000),
        Style::Cuts => random.pick(&[400, 5000, 20_000]) + random.below(3000),
        Style::Fields | Style::Origins => random.below(8000),
        Style::FullFields => 40_000,
        Style::Readings => random.pick(&[300, 1500, 6000, 40_000]) + random.below(300),
    };
    capacity as u64
}

fn random_prefix(random: &mut Random, style: Style, number: usize) -> Vec<u8> {
    match style {
        Style::Full | Style::Tiles | Style::FullFields => {
            let stem = match random.below(4) {
                0 => beginning(random),
                _ => format!("/Tiles/L{}/t", number % 3).into_bytes(),
            };
            [stem, format!("{number}.tiff").into_bytes()].concat()
        }
        Style::Origins => typed_name(random),
        _ if random.once_in(4) => forked_name(random),
        _ if random.once_in(12) => {
            let length = 250 + random.below(7); // up to 256, one too long
            let mut name = b"/long".to_vec();
            name.resize(length, b'n');
            name
        }
        _ => random.name(SEGMENTS, 3),
    }
}

/// The number of the last piece, if a prefix comes in pieces.
fn random_last(random: &mut Random, style: Style) -> Option<usize> {
    match style {
        Style::Crowded | Style::Tight => random.once_in(2).then(|| random.below(4)),
        Style::Full => random.once_in(8).then(|| random.below(3)),
        Style::Pieces => (!random.once_in(8)).then(|| random.below(90)),
        Style::Tiles | Style::Cuts => random.once_in(3).then(|| random.below(6)),
        Style::Fields | Style::FullFields | Style::Origins | Style::Readings => {
            random.once_in(4).then(|| random.below(3))
        }
    }
}
