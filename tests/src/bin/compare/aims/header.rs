//! Refusal 3: the header record.

use gvrs_tests::build::{Built, Field};
use gvrs_tests::page::{Element, Page};
use gvrs_tests::prng::Prng;
use gvrs_tests::random_page::name;

use super::bad_names::{bad_name, BadName};
use super::bad_texts::any_bad_text;
use super::changes;
use crate::damage::{Aim, At};

pub fn aims() -> Vec<Aim> {
    let mut aims = record_aims();
    aims.extend(value_aims());
    aims.extend(element_aims());
    aims.extend(name_aims());
    aims.extend(text_aims());
    aims.extend(rest_aims());
    aims.extend(many_element_aims());
    aims
}

// The record.

fn record_aims() -> Vec<Aim> {
    vec![
        Aim::length(3, "16 to 23 bytes with a good first block", no_header_at_all),
        Aim::length(3, "the header ends inside the file: cut", cut_in_header),
        Aim::bytes(3, "the header ends inside the file: length", length_past_the_end),
        Aim::bytes(3, "its length is a multiple of 8", length_not_a_multiple),
        Aim::bytes(3, "its length is not negative", length_negative),
        Aim::bytes(3, "its length holds its fixed fields", length_too_short),
        Aim::bytes(3, "its type is 6", type_not_6),
        Aim::bytes(3, "its fields fit: 1 to 8 bytes short", fields_short),
        Aim::description(3, "0 to 7 padding bytes: 8 or more", too_much_padding),
    ]
}

fn no_header_at_all(built: &mut Built, random: &mut Prng) -> Option<At> {
    built.bytes.truncate(random.between(16, 23));
    Some(At::Zero)
}

fn header_end(built: &Built) -> usize {
    built.starts[0]
}

fn cut_in_header(built: &mut Built, random: &mut Prng) -> Option<At> {
    let length = random.between(24, header_end(built) - 1);
    built.bytes.truncate(length);
    Some(At::Zero)
}

fn length_past_the_end(built: &mut Built, random: &mut Prng) -> Option<At> {
    let whole = (built.bytes.len() - 16) as u64;
    let length = random.pick(&[whole + 8, whole + 1024, 0x7fff_fff8]);
    set_length(built, length)
}

/// The padding bytes of the header.
fn header_padding(built: &Built) -> usize {
    let padding =
        built.fields.iter().find(|field| field.name == "padding" && field.owner.is_none());
    padding.map_or(0, |field| field.width)
}

fn set_length(built: &mut Built, length: u64) -> Option<At> {
    let field = built.only("header length");
    built.set(&field, length);
    Some(At::Zero)
}

/// Another number of padding bytes from 0 to 7: the fields still fit, the length is no multiple.
fn length_not_a_multiple(built: &mut Built, random: &mut Prng) -> Option<At> {
    let padding = header_padding(built);
    let other = (padding + random.between(1, 7)) % 8;
    let length = header_end(built) - 16 - padding + other;
    set_length(built, length as u64)
}

fn length_negative(built: &mut Built, random: &mut Prng) -> Option<At> {
    let length = (header_end(built) - 16) as u64;
    let negative = random.pick(&[length | 0x8000_0000, 0x8000_0000, 0xffff_fff8]);
    set_length(built, negative)
}

fn length_too_short(built: &mut Built, random: &mut Prng) -> Option<At> {
    let length = random.pick(&[0, 8, 16, 24, 120, 128, 256, 264, 272, 280]);
    set_length(built, length)
}

fn type_not_6(built: &mut Built, random: &mut Prng) -> Option<At> {
    let any = built.bytes[20] ^ random.between(1, 255) as u8;
    built.bytes[20] = random.pick(&[5, any, 7]);
    Some(At::Zero)
}

fn fields_short(built: &mut Built, _: &mut Prng) -> Option<At> {
    let length = header_end(built) - 16 - 8;
    set_length(built, length as u64)
}

fn too_much_padding(page: &mut Page, random: &mut Prng) -> Option<At> {
    page.surplus = 8 * random.between(1, 4);
    Some(At::Zero)
}

// Fields of fixed place.

fn value_aims() -> Vec<Aim> {
    vec![
        Aim::bytes(3, "grid rows at least 1", |built, random| side(built, "grid rows", random)),
        Aim::bytes(3, "grid columns at least 1", |built, random| {
            side(built, "grid columns", random)
        }),
        Aim::bytes(3, "tile rows at least 1", |built, random| side(built, "tile rows", random)),
        Aim::bytes(3, "tile columns at least 1", |built, random| {
            side(built, "tile columns", random)
        }),
        Aim::bytes(3, "checksum-enabled is 0 or 1", |built, random| {
            above(built, "checksum flag", 1, random)
        }),
        Aim::bytes(3, "raster space is 0 to 2", |built, random| {
            above(built, "raster space", 2, random)
        }),
        Aim::bytes(3, "coordinate system is 0 to 2", |built, random| {
            above(built, "coordinate system", 2, random)
        }),
    ]
}

fn negative(built: &mut Built, name: &str, random: &mut Prng) -> Option<At> {
    changes::negative(built, name, random)?;
    Some(At::Zero)
}

/// Zero or a negative number.
fn side(built: &mut Built, name: &str, random: &mut Prng) -> Option<At> {
    if random.one_in(3) {
        let field = built.only(name);
        built.set(&field, 0);
        return Some(At::Zero);
    }
    negative(built, name, random)
}

/// A byte above the highest printed value, often the next one.
fn above(built: &mut Built, name: &str, highest: usize, random: &mut Prng) -> Option<At> {
    let field = built.only(name);
    let any = random.between(highest + 1, 255);
    let value = random.pick(&[highest + 1, any, 255]);
    built.set(&field, value as u64);
    Some(At::Zero)
}

// Elements.

fn element_aims() -> Vec<Aim> {
    vec![
        Aim::description(3, "there is at least one element", no_element),
        Aim::bytes(3, "a negative count of elements", |built, random| {
            negative(built, "element count", random)
        }),
        Aim::bytes(3, "a negative count of elements, 16 good ones", negative_count_of_16),
        Aim::bytes(3, "each of a type of G's Table 2", element_type),
        Aim::bytes(3, "an element's strings fit", element_string_too_long),
        Aim::bytes(3, "an element's name fits", |built, random| {
            pass_the_record(built, "element name length", random)
        }),
    ]
}

fn no_element(page: &mut Page, _: &mut Prng) -> Option<At> {
    page.elements.clear();
    Some(At::Zero)
}

/// The first 16 entries fit, so no other rule refuses it.
fn negative_count_of_16(built: &mut Built, random: &mut Prng) -> Option<At> {
    if built.value(&built.only("element count")) != 16 {
        return None;
    }
    negative(built, "element count", random)
}

fn element_type(built: &mut Built, random: &mut Prng) -> Option<At> {
    let field = random.pick(&built.named("element type"));
    let value = random.between(4, 255);
    let value = random.pick(&[4, value, 255]);
    built.set(&field, value as u64);
    Some(At::Zero)
}

fn element_string_too_long(built: &mut Built, random: &mut Prng) -> Option<At> {
    let names = ["element label length", "element description length", "element unit length"];
    pass_the_record(built, random.pick(&names), random)
}

/// A string length with which the string ends behind the header record's fields.
fn pass_the_record(built: &mut Built, name: &str, random: &mut Prng) -> Option<At> {
    let field = random.pick_any(&built.named(name))?;
    let left = header_end(built) - 4 - (field.at + 2);
    let length = random.pick(&[left + 1, left + 5, 0xffff]);
    built.set(&field, length as u64);
    (length <= 0xffff).then_some(At::Zero)
}

// Names of elements.

fn name_aims() -> Vec<Aim> {
    vec![
        Aim::description(3, "a name of no character", |page, random| {
            spoil_name(page, BadName::Empty, random)
        }),
        Aim::description(3, "a name of more than 32 characters", |page, random| {
            spoil_name(page, BadName::TooLong, random)
        }),
        Aim::description(3, "a name that begins with no letter", |page, random| {
            spoil_name(page, BadName::Beginning, random)
        }),
        Aim::description(3, "a name with another ASCII character", |page, random| {
            spoil_name(page, BadName::Character, random)
        }),
        Aim::description(3, "a name with a byte that is not ASCII", |page, random| {
            spoil_name(page, BadName::NotAscii, random)
        }),
        Aim::description(3, "a name that ends in an underscore", |page, random| {
            spoil_name(page, BadName::Ending, random)
        }),
        Aim::description(3, "a name of one letter and 31 underscores", |page, random| {
            spoil_name(page, BadName::Underscores, random)
        }),
        Aim::description(3, "a name that is one underscore", |page, random| {
            spoil_name(page, BadName::Underscore, random)
        }),
        Aim::description(3, "no two names are equal", equal_names),
    ]
}

fn spoil_name(page: &mut Page, bad: BadName, random: &mut Prng) -> Option<At> {
    let element = random.below(page.elements.len());
    let name = &mut page.elements[element].name;
    *name = bad_name(bad, name, random);
    Some(At::Zero)
}

fn equal_names(page: &mut Page, random: &mut Prng) -> Option<At> {
    let from = random.below(page.elements.len());
    let to = random.below(page.elements.len());
    page.elements[to].name = page.elements[from].name.clone();
    (from != to).then_some(At::Zero)
}

// Texts.

fn text_aims() -> Vec<Aim> {
    vec![
        Aim::description(3, "an element's label is UTF-8", |page, random| {
            let element = random.below(page.elements.len());
            spoil_text(&mut page.elements[element].label, random)
        }),
        Aim::description(3, "an element's description is UTF-8", |page, random| {
            let element = random.below(page.elements.len());
            spoil_text(&mut page.elements[element].description, random)
        }),
        Aim::description(3, "an element's unit is UTF-8", |page, random| {
            let element = random.below(page.elements.len());
            spoil_text(&mut page.elements[element].unit, random)
        }),
        Aim::description(3, "the product label is UTF-8", |page, random| {
            spoil_text(&mut page.label, random)
        }),
    ]
}

fn spoil_text(text: &mut Vec<u8>, random: &mut Prng) -> Option<At> {
    *text = any_bad_text(text, random);
    Some(At::Zero)
}

/// The label, the description or the unit of an element.
pub fn spoil_text_of(element: &mut Element, random: &mut Prng) -> Option<At> {
    let text = match random.below(3) {
        0 => &mut element.label,
        1 => &mut element.description,
        _ => &mut element.unit,
    };
    spoil_text(text, random)
}

// What stands behind the elements.

fn rest_aims() -> Vec<Aim> {
    vec![
        Aim::bytes(3, "a negative count of methods", |built, random| {
            negative(built, "method count", random)
        }),
        Aim::bytes(3, "the methods fit: their count", too_many_methods),
        Aim::bytes(3, "the methods fit: a name", |built, random| {
            pass_the_record(built, "method name length", random)
        }),
        Aim::bytes(3, "the label fits", |built, random| {
            pass_the_record(built, "product label length", random)
        }),
        Aim::bytes(3, "the reserved bytes behind the label fit", label_into_reserved),
        Aim::bytes(3, "0 to 7 padding bytes: label 8 shorter", label_shorter),
    ]
}

/// More methods than two bytes each could fit.
fn too_many_methods(built: &mut Built, random: &mut Prng) -> Option<At> {
    let field = built.only("method count");
    let many = header_end(built) as u64;
    built.set(&field, random.pick(&[many, 0x1_0000, 0x7fff_ffff]));
    Some(At::Zero)
}

/// The label takes the padding and up to eight bytes more, which the reserved bytes lack. Zeros are
/// good text.
fn label_into_reserved(built: &mut Built, random: &mut Prng) -> Option<At> {
    let field = built.only("product label length");
    let longer = header_padding(built) + random.between(1, 8);
    let label_end = field.at + 2 + built.value(&field) as usize;
    let fields_end = header_end(built) - 4;
    built.bytes[label_end..fields_end].fill(0);
    built.set(&field, built.value(&field) + longer as u64);
    Some(At::Zero)
}

fn label_shorter(built: &mut Built, _: &mut Prng) -> Option<At> {
    let field = built.only("product label length");
    let length = built.value(&field).checked_sub(8)?;
    // No character is cut.
    built.bytes[field.at + 2..][..length as usize].fill(b'l');
    built.set(&field, length);
    Some(At::Zero)
}

// More than 16 elements.

fn many_element_aims() -> Vec<Aim> {
    vec![
        Aim::description(3, "17 elements, a bad type among the first 16", bad_type_of_many),
        Aim::description(3, "17 elements, a bad name among the first 16", bad_name_of_many),
        Aim::description(3, "17 elements, equal names among the first 16", equal_names_of_many),
        Aim::description(3, "17 elements, a text not UTF-8 among the first 16", bad_text_of_many),
        Aim::bytes(3, "17 elements said, the 16th does not fit", sixteenth_does_not_fit),
    ]
}

/// Adds elements until there are more than 16.
pub fn more_than_16(page: &mut Page, random: &mut Prng) {
    let count = random.between(17, 20);
    while page.elements.len() < count {
        let name = name(random);
        if page.elements.iter().all(|element| element.name != name) {
            page.elements.push(Element::new(random.below(4) as u8, &name));
        }
    }
}

/// The first element, the last that is judged, or one between.
fn one_of_16(random: &mut Prng) -> usize {
    let any = random.below(16);
    random.pick(&[0, any, 15])
}

fn bad_type_of_many(page: &mut Page, random: &mut Prng) -> Option<At> {
    more_than_16(page, random);
    page.elements[one_of_16(random)].type_code = random.between(4, 255) as u8;
    Some(At::Zero)
}

fn bad_name_of_many(page: &mut Page, random: &mut Prng) -> Option<At> {
    more_than_16(page, random);
    let bad = [BadName::TooLong, BadName::Beginning, BadName::Character, BadName::Ending];
    let name = &mut page.elements[one_of_16(random)].name;
    *name = bad_name(random.pick(&bad), name, random);
    Some(At::Zero)
}

fn equal_names_of_many(page: &mut Page, random: &mut Prng) -> Option<At> {
    more_than_16(page, random);
    let (from, to) = (one_of_16(random), one_of_16(random));
    page.elements[to].name = page.elements[from].name.clone();
    (from != to).then_some(At::Zero)
}

fn bad_text_of_many(page: &mut Page, random: &mut Prng) -> Option<At> {
    more_than_16(page, random);
    spoil_text_of(&mut page.elements[one_of_16(random)], random)
}

/// The record ends behind the elements that are there, fewer than 16, and the count says more.
fn sixteenth_does_not_fit(built: &mut Built, random: &mut Prng) -> Option<At> {
    let count: Field = built.only("element count");
    if built.value(&count) > 15 {
        return None;
    }
    let elements_end = built.only("method count").at;
    let length = (elements_end - 16 + 4).next_multiple_of(8);
    built.set(&count, random.pick(&[16, 17, 1000, 0x7fff_ffff]));
    set_length(built, length as u64)
}
