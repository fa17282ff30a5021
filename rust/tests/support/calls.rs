//! Calls on a package as values, and both sides that make them.

use super::{numbers, show};
use reference::ledger::Ledger;
use zombirels::package::{Mode, Package};
use zombirels::script::Code;

/// The values of an accepted call, or the number of the refusal and the length
/// that it carries.
pub type Answer = Result<[usize; 3], (u64, usize)>;

/// A call with all fields that it may have. It is lent an output of so many
/// bytes.
#[derive(Clone)]
pub struct Call {
    pub code: Code,
    pub lent: usize,
    pub texts: [Vec<u8>; 4],
    pub number: u64,
}

impl Call {
    /// A call with the number 0 and no output.
    pub fn new(code: Code, texts: &[&[u8]]) -> Call {
        let text = |i: usize| texts.get(i).map_or(Vec::new(), |text| text.to_vec());
        Call {
            code,
            lent: 0,
            texts: [text(0), text(1), text(2), text(3)],
            number: 0,
        }
    }

    pub fn with_number(self, number: u64) -> Call {
        Call { number, ..self }
    }

    pub fn with_output(self, lent: usize) -> Call {
        Call { lent, ..self }
    }

    /// Whether the call changes the package if it is accepted.
    pub fn changes(&self) -> bool {
        let late = [
            Code::CutPart,
            Code::JoinPart,
            Code::ReadTypes,
            Code::ReadRelationships,
        ];
        self.code < Code::FindItem || late.contains(&self.code)
    }

    /// How many of the lent bytes the call wrote if this is its answer.
    pub fn written(&self, answer: Answer) -> usize {
        let [first, second, _] = answer.unwrap_or_default();
        match self.code {
            Code::ViewItem => first.min(self.lent),
            Code::TypeOrigin => second,
            code if code.writes() => first,
            _ => 0,
        }
    }

    /// Whether the call puts a media type with parameters, well-formed or not.
    pub fn puts_parameters(&self) -> bool {
        let puts = matches!(self.code, Code::PutDefault | Code::PutOverride);
        puts && self.texts[1].contains(&b';')
    }

    pub fn show(&self) -> String {
        let texts: Vec<String> = self.texts.iter().map(|text| show(text)).collect();
        let (code, number, lent) = (self.code, self.number, self.lent);
        format!("{code:?} {} number {number}, lent {lent}", texts.join(" "))
    }

    /// Makes the call through its own method.
    pub fn by_archive(&self, package: &mut Package, out: &mut [u8]) -> Answer {
        let ([a, b, c, _], n) = (&self.texts, self.number);
        let done = |()| one(0);
        let answer = match self.code {
            Code::Start => package.restart(n).map(done),
            Code::PutItem => package.put_item(a, b).map(done),
            Code::DropItem => package.drop_item(a).map(done),
            Code::PutDefault => package.put_default(a, b).map(done),
            Code::DropDefault => package.drop_default(a).map(done),
            Code::PutOverride => package.put_override(a, b).map(done),
            Code::DropOverride => package.drop_override(a).map(done),
            Code::PutRelationship => return self.put_relationship(package),
            Code::DropRelationship => package.drop_relationship(a, b).map(done),
            Code::FindItem => package.find_item(a).map(one),
            Code::ViewItem => {
                let part = package.view_item(a).unwrap_or_default();
                let copied = part.len().min(out.len());
                out[..copied].copy_from_slice(&part[..copied]);
                Ok(one(part.len()))
            }
            Code::Totals => package.totals().map(|t| [t.items, t.parts, t.charge]),
            Code::ReadPart => package.read_part(a, n, out).map(one),
            Code::MediaType => package.media_type(a, out).map(one),
            Code::PartAt => package.part_at(n, out).map(one),
            Code::ResolveRelationship => package
                .resolve_relationship(a, b, c, out)
                .map(|r| [r.length, r.mode.number() as usize, usize::from(r.held)]),
            Code::WriteTypes => package.write_types(out).map(one),
            Code::WriteRelationships => package.write_relationships(a, out).map(one),
            Code::CutPart => package.cut_part(a, n).map(|cut| [cut.size, cut.longer, 0]),
            Code::JoinPart => package.join_part(a).map(done),
            Code::TypeOrigin => package.type_origin(a, out).map(|origin| {
                let length = origin.key().map_or(0, <[u8]>::len);
                [origin.number() as usize, length, 0]
            }),
            Code::ReadTypes => package.read_types(a).map(done),
            Code::ReadRelationships => package.read_relationships(a, b).map(done),
        };
        answer.map_err(numbers)
    }

    /// Puts a relationship; the method has two modes, the archive takes any
    /// number for one.
    fn put_relationship(&self, package: &mut Package) -> Answer {
        let [source, id, kind, target] = &self.texts;
        let mode = match self.number {
            0 => Mode::Internal,
            1 => Mode::External,
            mode => return put_by_number(package, [source, id, kind, target], mode),
        };
        let put = package.put_relationship(source, id, kind, mode, target);
        put.map(|()| one(0)).map_err(numbers)
    }

    /// Makes the call on the ledger of a package of `length` bytes.
    pub fn by_reference(&self, ledger: &mut Ledger, length: u64, out: &mut [u8]) -> Answer {
        let texts = [0, 1, 2, 3].map(|i| &self.texts[i][..]);
        let (code, number) = (self.code.number(), self.number);
        let answer = reference::script::make(ledger, length, code, texts, number, out);
        let values = answer.map(|values| values.map(|value| value as usize));
        values.map_err(|refusal| (refusal.number(), refusal.value()))
    }
}

fn one(length: usize) -> [usize; 3] {
    [length, 0, 0]
}

/// The archive's answer as its functions return it.
#[repr(C)]
struct Reply {
    number: u64,
    count: u64,
    values: [u64; 3],
}

extern "C" {
    fn opc_put_relationship(
        package: *mut u8,
        package_length: usize,
        source: *const u8,
        source_length: usize,
        id: *const u8,
        id_length: usize,
        kind: *const u8,
        kind_length: usize,
        mode: u64,
        target: *const u8,
        target_length: usize,
    ) -> Reply;
}

/// Puts a relationship with a number that is no mode.
fn put_by_number(package: &mut Package, texts: [&[u8]; 4], mode: u64) -> Answer {
    let [source, id, kind, target] = texts;
    let bytes = package.as_bytes_mut();
    // SAFETY: each pointer and its length come from one slice; the package's
    // is lent for writing.
    let reply = unsafe {
        opc_put_relationship(
            bytes.as_mut_ptr(),
            bytes.len(),
            source.as_ptr(),
            source.len(),
            id.as_ptr(),
            id.len(),
            kind.as_ptr(),
            kind.len(),
            mode,
            target.as_ptr(),
            target.len(),
        )
    };
    assert_eq!((reply.count, reply.values), (1, [0; 3]));
    match reply.number {
        0 => Ok(one(0)),
        number => Err((number, 0)),
    }
}
