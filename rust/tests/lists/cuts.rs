//! Random cuts and joins, by themselves and with calls planned around them.

use crate::list::{List, Style};
use crate::support::calls::{Answer, Call};
use crate::support::pieces::{cost, piece};
use crate::support::Random;
use reference::ledger::Ledger;
use zombirels::package::ITEMS_MAX;
use zombirels::script::Code;

/// Numbers of pieces at the limits and beyond them.
const COUNTS: &[u64] = &[0, 1, 2, 3, 10, 11, 100, 101, 256];
const ODD_COUNTS: &[u64] = &[257, 1 << 16, 1 << 32, (1 << 32) + 2, 1 << 63, u64::MAX];

impl List {
    /// A cut or a join, or the first of calls that are planned around some.
    pub fn cut_call(&mut self, random: &mut Random, ledger: &Ledger) -> Call {
        let planned = match random.below(if self.style == Style::Cuts { 14 } else { 20 }) {
            0 => self.filled_cut(random, ledger),
            1 => self.alternating(random),
            2 => self.there_and_back(random, ledger),
            3 if self.style == Style::Cuts => self.alone(random),
            3..=7 => vec![join(&self.part(random, ledger, false).0)],
            _ => vec![self.cut(random, ledger)],
        };
        self.planned.extend(planned);
        self.planned.pop_front().expect("a call")
    }

    /// The name of a part in any case, and its length: most often of a whole
    /// part, or of one in pieces, as is asked.
    fn part(&self, random: &mut Random, ledger: &Ledger, whole: bool) -> (Vec<u8>, usize) {
        let any = random.once_in(10);
        let is_so = |name: &[u8]| any || ledger.find_item(name).is_ok() == whole;
        let parts = ledger.parts().filter(|part| is_so(part.name));
        let parts: Vec<_> = parts.map(|part| (part.name, part.bytes)).collect();
        if parts.is_empty() || random.once_in(10) {
            return (self.part_name(random), random.below(20));
        }
        let (name, length) = random.pick(&parts);
        (random.flip_case(name), length)
    }

    /// Into how many pieces a part is cut: few, as many as it has bytes, or as
    /// the set of items or the capacity takes, or one more.
    fn count(&self, random: &mut Random, ledger: &Ledger, name: usize, length: usize) -> u64 {
        let items = ledger.totals().items as usize;
        let fits = |count: &usize| cost(name, *count) as u64 <= ledger.room();
        let fitting = (1..=ITEMS_MAX).take_while(fits).count();
        let most = (ITEMS_MAX + 1).saturating_sub(items).min(fitting.max(1));
        let more = random.below(2);
        match random.below(12) {
            0 => random.pick(ODD_COUNTS),
            1 | 2 => random.pick(COUNTS),
            3 | 4 => (length + more) as u64,
            5 => (ITEMS_MAX + 1 - items + more) as u64,
            6 => (fitting + more) as u64,
            7 => 1 + random.below(ITEMS_MAX) as u64,
            _ => 1 + random.below(most.min(12)) as u64,
        }
    }

    fn cut(&self, random: &mut Random, ledger: &Ledger) -> Call {
        let (name, length) = self.part(random, ledger, true);
        cut(&name, self.count(random, ledger, name.len(), length))
    }

    /// A put that leaves just the room which a cut takes, or a byte less or
    /// more; the cut; a join where there is no room.
    fn filled_cut(&self, random: &mut Random, ledger: &Ledger) -> Vec<Call> {
        let (name, _) = self.part(random, ledger, true);
        let count = random.pick(&[1, 2, 2, 3, 5, 12]);
        let left = cost(name.len(), count) + random.pick(&[0, 1, 1, 2]);
        let filler = format!("/fill{}", random.below(10_000));
        let taken = filler.len() + left;
        let size = (ledger.room() as usize + 1).saturating_sub(taken);
        let bytes = random.bytes(size);
        let mut calls = vec![
            Call::new(Code::PutItem, &[filler.as_bytes(), &bytes]),
            cut(&name, count as u64),
        ];
        calls.extend(asked(random, &name, count));
        calls.push(join(&random.flip_case(&name)));
        if random.once_in(2) {
            calls.push(Call::new(Code::DropItem, &[filler.as_bytes()]));
        }
        calls
    }

    /// The pieces of two parts, put in turn or in any order; each is joined
    /// once before all are there, perhaps, and then.
    fn alternating(&self, random: &mut Random) -> Vec<Call> {
        let number = random.below(1000);
        let counts = [1 + random.below(6), 1 + random.below(12)];
        let names = ["/Left", "/right"].map(|name| format!("{name}{number}").into_bytes());
        let mut calls = Vec::new();
        for (name, count) in names.iter().zip(counts) {
            for k in 0..count {
                let name = random.flip_case(&piece(name, k, count));
                let size = random.pick(&[0, 1, 7, 30]);
                calls.push(Call::new(Code::PutItem, &[&name, &random.bytes(size)]));
            }
        }
        for i in (1..calls.len()).rev() {
            calls.swap(i, random.below(i + 1));
        }
        let early = random.below(calls.len() + 1);
        calls.insert(early, join(&names[random.below(2)]));
        for (name, count) in names.iter().zip(counts) {
            calls.push(join(&random.flip_case(name)));
            calls.extend(asked(random, name, count));
        }
        calls.push(cut(&names[0], random.below(6) as u64));
        calls
    }

    /// A new package with one item, which is cut into as many pieces as there
    /// can be; they just find room, or a byte is lacking, if the buffer allows.
    fn alone(&self, random: &mut Random) -> Vec<Call> {
        let name = b"/Alone";
        let size = random.pick(&[0, 1, 255, 256, 257, 700]);
        let exact = name.len() + size + cost(name.len(), ITEMS_MAX);
        let capacity = (exact - random.below(2)) as u64;
        let mut calls = vec![
            Call::new(Code::Start, &[]).with_number(capacity.min(self.lent)),
            Call::new(Code::PutItem, &[name, &random.bytes(size)]),
            cut(&random.flip_case(name), ITEMS_MAX as u64),
        ];
        calls.extend(asked(random, name, ITEMS_MAX));
        calls.push(join(&random.flip_case(name)));
        calls.extend(asked(random, name, ITEMS_MAX));
        calls
    }

    /// A part cut, joined and cut again, with questions in between.
    fn there_and_back(&self, random: &mut Random, ledger: &Ledger) -> Vec<Call> {
        let (name, length) = self.part(random, ledger, true);
        let count = self.count(random, ledger, name.len(), length);
        let pieces = count.clamp(1, ITEMS_MAX as u64) as usize;
        let mut calls = asked(random, &name, pieces);
        calls.push(cut(&random.flip_case(&name), count));
        calls.extend(asked(random, &name, pieces));
        calls.push(join(&random.flip_case(&name)));
        calls.extend(asked(random, &name, pieces));
        let again = self.count(random, ledger, name.len(), length);
        calls.push(cut(&name, again));
        calls
    }
}

fn cut(name: &[u8], count: u64) -> Call {
    Call::new(Code::CutPart, &[name]).with_number(count)
}

fn join(name: &[u8]) -> Call {
    Call::new(Code::JoinPart, &[name])
}

/// Questions about a part that may be in so many pieces.
fn asked(random: &mut Random, name: &[u8], count: usize) -> Vec<Call> {
    let k = random.below(count);
    let (offset, position) = (random.below(40) as u64, random.below(12) as u64);
    let mut names: Vec<Vec<u8>> = [0, k, count - 1].map(|k| piece(name, k, count)).into();
    names.push(name.to_vec());
    let items = names.iter().flat_map(|name| {
        let name = random.flip_case(name);
        [Code::FindItem, Code::ViewItem].map(|code| Call::new(code, &[&name]))
    });
    let mut calls: Vec<Call> = items.collect();
    calls.push(Call::new(Code::ReadPart, &[name]).with_output(8000));
    let read = Call::new(Code::ReadPart, &[name]).with_number(offset);
    calls.push(read.with_output(random.below(50)));
    calls.push(Call::new(Code::MediaType, &[name]).with_output(127));
    let at = Call::new(Code::PartAt, &[]).with_number(position);
    calls.push(at.with_output(255));
    calls.push(Call::new(Code::Totals, &[]));
    calls
}

/// What lists of cuts must show, as [`Before::kinds`] tells it.
pub const KINDS: [&str; 13] = [
    "cut into one",
    "cut into 256",
    "cut of no bytes",
    "cut into bytes",
    "cut into more",
    "256 items",
    "257 items",
    "all room",
    "a byte less",
    "joined one",
    "joined 256",
    "joined no bytes",
    "joined without room",
];

/// What there is before a cut or a join.
pub struct Before {
    /// The part's length, and in how many pieces it is; a whole one has none.
    part: Option<(usize, usize)>,
    items: usize,
    room: usize,
}

impl Before {
    pub fn new(call: &Call, ledger: &Ledger) -> Before {
        let name = &call.texts[0];
        let mut parts = ledger.parts();
        let part = parts.find(|part| part.name.eq_ignore_ascii_case(name));
        let whole = ledger.find_item(name).is_ok();
        Before {
            part: part.map(|part| (part.bytes, if whole { 0 } else { part.pieces })),
            items: ledger.totals().items as usize,
            room: ledger.room() as usize,
        }
    }

    /// What is remarkable about the call: at a limit, or one beyond it.
    pub fn kinds(&self, call: &Call, answer: Answer) -> Vec<&'static str> {
        let Some((length, pieces)) = self.part else {
            return Vec::new();
        };
        let count = call.number as usize;
        let accepted = answer.is_ok();
        let kinds = match (call.code, answer) {
            (Code::CutPart, Ok(_) | Err((15, _))) => {
                let cost = cost(call.texts[0].len(), count);
                let items = self.items - 1 + count;
                let fits = (items <= ITEMS_MAX, cost <= self.room);
                vec![
                    ("cut into one", accepted && count == 1),
                    ("cut into 256", accepted && count == 256),
                    ("cut of no bytes", accepted && length == 0),
                    ("cut into bytes", accepted && length > 0 && count == length),
                    (
                        "cut into more",
                        accepted && length > 0 && count == length + 1,
                    ),
                    ("256 items", accepted && items == ITEMS_MAX),
                    ("257 items", fits.1 && items == ITEMS_MAX + 1),
                    ("all room", accepted && cost == self.room),
                    ("a byte less", fits.0 && cost == self.room + 1),
                ]
            }
            (Code::JoinPart, Ok(_)) => vec![
                ("joined one", pieces == 1),
                ("joined 256", pieces == 256),
                ("joined no bytes", length == 0),
                ("joined without room", self.room == 0),
            ],
            _ => Vec::new(),
        };
        let kinds = kinds.into_iter().filter(|(_, is_so)| *is_so);
        kinds.map(|(kind, _)| kind).collect()
    }
}
