//! Scripts built by their methods.

use crate::bytes::{output_of, script_of};
use crate::random::{random_call, taken_texts};
use crate::support::calls::Call;
use crate::support::Random;
use zombirels::package::Mode;
use zombirels::script::{Code, Script};

/// Adds a call to a script by its method. A put's mode is 0 or 1.
fn add(script: &mut Script, call: &Call) {
    let ([a, b, c, d], n, lent) = (&call.texts, call.number, call.lent);
    match call.code {
        Code::Start => script.start(n),
        Code::PutItem => script.put_item(a, b),
        Code::DropItem => script.drop_item(a),
        Code::PutDefault => script.put_default(a, b),
        Code::DropDefault => script.drop_default(a),
        Code::PutOverride => script.put_override(a, b),
        Code::DropOverride => script.drop_override(a),
        Code::PutRelationship => {
            let mode = [Mode::Internal, Mode::External][n as usize];
            script.put_relationship(a, b, c, mode, d)
        }
        Code::DropRelationship => script.drop_relationship(a, b),
        Code::FindItem => script.find_item(a),
        Code::ViewItem => script.view_item(a, lent),
        Code::Totals => script.totals(),
        Code::ReadPart => script.read_part(a, n, lent),
        Code::MediaType => script.media_type(a, lent),
        Code::PartAt => script.part_at(n, lent),
        Code::ResolveRelationship => script.resolve_relationship(a, b, c, lent),
        Code::WriteTypes => script.write_types(lent),
        Code::WriteRelationships => script.write_relationships(a, lent),
        Code::CutPart => script.cut_part(a, n),
        Code::JoinPart => script.join_part(a),
        Code::TypeOrigin => script.type_origin(a, lent),
        Code::ReadTypes => script.read_types(a),
        Code::ReadRelationships => script.read_relationships(a, b),
    };
}

/// The methods of a script give the bytes of the calls, without the fields
/// that they do not take.
#[test]
fn built_scripts() {
    let mut random = Random::new("built scripts");
    let mut script = Script::new();
    for _ in 0..200 {
        script.clear();
        assert_eq!((script.calls(), script.output_len()), (0, 0));
        let mut calls = Vec::new();
        for code in Code::ALL {
            let mut call = random_call(&mut random, 100);
            while call.code != code {
                call = random_call(&mut random, 100);
            }
            for text in &mut call.texts[taken_texts(code)..] {
                text.clear();
            }
            let takes_number = [
                Code::Start,
                Code::PutRelationship,
                Code::ReadPart,
                Code::PartAt,
                Code::CutPart,
            ];
            if !takes_number.contains(&code) {
                call.number = 0;
            }
            if code == Code::PutRelationship {
                call.number %= 2; // the method has two modes
            }
            if code.writes() {
                call.lent = random.below(300);
            }
            add(&mut script, &call);
            calls.push(call);
        }
        assert_eq!(script.as_bytes(), script_of(&calls));
        assert_eq!(script.calls(), calls.len());
        assert_eq!(script.output_len(), output_of(&calls));
    }
}

#[test]
fn codes() {
    for (i, code) in Code::ALL.into_iter().enumerate() {
        assert_eq!(code.number() as usize, i + 1);
        assert_eq!(Code::from_number(code.number()), Some(code));
    }
    assert_eq!(Code::from_number(0), None);
    assert_eq!(Code::from_number(24), None);
    assert_eq!(Code::from_number(u32::MAX), None);
}

#[test]
#[should_panic = "a length is at most 2^32 - 1"]
fn an_output_that_is_too_long() {
    Script::new().write_types(1 << 32);
}
