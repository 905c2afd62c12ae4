//! Fields that no rule looks at, filled with anything.

use gvrs_tests::build::{build, make_checksums_good, Built, Field, Role};
use gvrs_tests::prng::Prng;
use gvrs_tests::random_page::random_page;
use gvrs_tests::second::chain;

use crate::run::Run;

pub fn section(run: &mut Run, random: &mut Prng) {
    for _ in 0..run.times(500) {
        let built = build(&random_page(random));
        let mut sentences: Vec<&'static str> = Vec::new();
        for field in built.of_role(Role::Unjudged) {
            let sentence = sentence(&built, &field);
            if !sentences.contains(&sentence) {
                sentences.push(sentence);
            }
        }
        for sentence in sentences {
            junk(run, &built, sentence, random);
        }
        free_content_without_repair(run, &built, random);
    }
}

/// Fills every field that the sentence is about.
fn junk(run: &mut Run, good: &Built, wanted: &'static str, random: &mut Prng) {
    let mut built = good.clone();
    let ones = random.one_in(3);
    for field in good.of_role(Role::Unjudged) {
        if sentence(good, &field) == wanted {
            let junk = if ones { vec![0xff; field.width] } else { random.bytes(field.width) };
            built.bytes[field.at..field.at + field.width].copy_from_slice(&junk);
        }
    }
    make_checksums_good(&mut built.bytes);
    run.accept(wanted, &built.bytes);
}

/// The checksum of a free record does not cover its content.
fn free_content_without_repair(run: &mut Run, good: &Built, random: &mut Prng) {
    let mut built = good.clone();
    let fields = good.named("free content");
    for field in &fields {
        built.bytes[field.at..field.at + field.width].copy_from_slice(&random.bytes(field.width));
    }
    if !fields.is_empty() {
        run.accept("a free record's content may change under its checksum", &built.bytes);
    }
}

/// A field's name, and for reserved bytes and padding the kind of record.
fn sentence(built: &Built, field: &Field) -> &'static str {
    let record_type = match field.owner {
        Some(number) => built.bytes[built.starts[number] + 4],
        None => chain::HEADER,
    };
    match (field.name, record_type) {
        ("reserved", chain::FREE) => "junk in reserved bytes of a free record",
        ("reserved", chain::METADATA) => "junk in reserved bytes of a metadata record",
        ("reserved", chain::TILE) => "junk in reserved bytes of a tile record",
        ("reserved", chain::FILE_SPACE_DIRECTORY) => {
            "junk in reserved bytes of a file-space directory"
        }
        ("reserved", chain::METADATA_DIRECTORY) => "junk in reserved bytes of a metadata directory",
        ("reserved", chain::TILE_DIRECTORY) => "junk in reserved bytes of a tile directory",
        ("reserved", _) if field.at < 16 => "junk in reserved bytes of the first block",
        ("reserved", _) => "junk in reserved bytes of the header",
        ("padding", chain::METADATA) => "junk in padding of a metadata record",
        ("padding", chain::TILE) => "junk in padding of a tile record",
        ("padding", chain::FILE_SPACE_DIRECTORY) => "junk in padding of a file-space directory",
        ("padding", chain::METADATA_DIRECTORY) => "junk in padding of a metadata directory",
        ("padding", chain::TILE_DIRECTORY) => "junk in padding of a tile directory",
        ("padding", _) => "junk in padding of the header",
        (name, _) => anything(name),
    }
}

fn anything(name: &'static str) -> &'static str {
    match name {
        "element padding" => "junk in padding of an element entry",
        "content padding" => "junk in padding of an element's content",
        "UUID" => "UUID is anything",
        "time modified" => "time modified is anything",
        "levels" => "number of levels is anything",
        "coordinate" => "coordinates are anything",
        "continuous" => "'continuous' is anything",
        "range and fill" => "minimum, maximum and fill are anything",
        "method name" => "a method's name is anything",
        "free content" => "a free record's content is anything",
        "metadata content" => "metadata content is anything",
        "content" => "an element's content is anything",
        other => panic!("no sentence about the field {other}"),
    }
}
