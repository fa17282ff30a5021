//! The calls on relationships.

use super::{charge, Ledger, Resolved, RELATIONSHIPS_MAX};
use crate::iri::{is_iri, is_package_iri, resolve, target_part, target_path, without_fragment};
use crate::names::{check_source, fold, is_id};
use crate::pack::pack_iri;
use crate::xml::Xml;
use crate::{write_out, Refusal};

#[derive(Clone)]
pub(super) struct Relationship {
    source: Vec<u8>,
    id: Vec<u8>,
    kind: Vec<u8>,
    external: bool,
    target: Vec<u8>,
}

impl Relationship {
    pub(super) fn charge(&self) -> u64 {
        charge(&[&self.source, &self.id, &self.kind, &self.target])
    }

    /// Its source, id and type, its mode as one byte, and its target.
    fn fields(&self) -> [&[u8]; 5] {
        let mode: &[u8] = if self.external { &[1] } else { &[0] };
        [&self.source, &self.id, &self.kind, mode, &self.target]
    }
}

impl Ledger {
    pub fn put_relationship(
        &mut self,
        source: &[u8],
        id: &[u8],
        kind: &[u8],
        mode: u64,
        target: &[u8],
    ) -> Result<(), Refusal> {
        check_source(source)?;
        if !is_id(id) || !is_package_iri(kind) || mode > 1 {
            return Err(Refusal::BadRelationshipField);
        }
        check_target(source, mode, target)?;
        let key = (fold(source), id.to_vec());
        if self.relationships.contains_key(&key) {
            return Err(Refusal::Taken);
        }
        let entry = Relationship {
            source: source.to_vec(),
            id: id.to_vec(),
            kind: kind.to_vec(),
            external: mode == 1,
            target: target.to_vec(),
        };
        let charge = entry.charge();
        self.check_room(self.relationships.len(), RELATIONSHIPS_MAX, charge)?;
        self.charge += charge;
        self.relationships.insert(key, entry);
        Ok(())
    }

    pub fn drop_relationship(&mut self, source: &[u8], id: &[u8]) -> Result<(), Refusal> {
        check_source(source)?;
        if !is_id(id) {
            return Err(Refusal::BadRelationshipField);
        }
        let entry = self.relationships.remove(&(fold(source), id.to_vec()));
        self.charge -= entry.ok_or(Refusal::NotHeld)?.charge();
        Ok(())
    }

    /// The fields of all relationships, the mode as one byte.
    pub fn relationships(&self) -> impl Iterator<Item = [&[u8]; 5]> {
        self.relationships.values().map(Relationship::fields)
    }

    /// Writes the IRI that a relationship leads to.
    pub fn resolve_relationship(
        &self,
        source: &[u8],
        id: &[u8],
        package: &[u8],
        out: &mut [u8],
    ) -> Result<Resolved, Refusal> {
        check_source(source)?;
        if !is_id(id) {
            return Err(Refusal::BadRelationshipField);
        }
        if !is_package_iri(package) {
            return Err(Refusal::BadTarget);
        }
        let entry = self.relationships.get(&(fold(source), id.to_vec()));
        let entry = entry.ok_or(Refusal::NotHeld)?;
        let (text, held) = if entry.external {
            (resolve(without_fragment(package), &entry.target), false)
        } else {
            let path = target_path(&entry.source, &entry.target);
            (pack_iri(package, &path), self.part(&path).is_ok())
        };
        Ok(Resolved {
            length: write_out(out, &text)?,
            mode: u64::from(entry.external),
            held,
        })
    }

    /// Writes the Relationships part of a source.
    pub fn write_relationships(&self, source: &[u8], out: &mut [u8]) -> Result<usize, Refusal> {
        check_source(source)?;
        let source = fold(source);
        let first = (source.clone(), Vec::new());
        let entries = self.relationships.range(first..);
        let mut xml = Xml::start("Relationships", "relationships");
        for (_, entry) in entries.take_while(|(key, _)| key.0 == source) {
            let mut fields = vec![
                ("Id", &entry.id[..]),
                ("Type", &entry.kind),
                ("Target", &entry.target),
            ];
            if entry.external {
                fields.push(("TargetMode", b"External"));
            }
            xml.entry("Relationship", &fields);
        }
        write_out(out, &xml.end("Relationships"))
    }
}

/// Judges the target of a relationship with a well-formed source.
fn check_target(source: &[u8], mode: u64, target: &[u8]) -> Result<(), Refusal> {
    if mode == 0 {
        target_part(source, target).map(|_| ())
    } else if is_iri(target) {
        Ok(())
    } else {
        Err(Refusal::BadTarget)
    }
}
