//! The lines, as the program `tests_relocations` writes them.

use reference::object::{Header, Object};
use reference::order::Order;
use reference::placement::{addresses, has_loaded_bytes};
use reference::Class;
use testing::numbers;

use crate::{Answer, Case, Laid, DONE};

/// The number and size of each loaded section of size above 0.
pub fn loaded_sections(object: &[u8]) -> Vec<(usize, usize)> {
    let header = Header::read(object).expect("check 4 has passed");
    let object = Object::read(object, header).expect("check 5 has passed");
    let allocated = object.allocated();
    let loaded = allocated.filter(|(_, section)| has_loaded_bytes(section));
    loaded
        .map(|(index, section)| (index, section.size as usize))
        .collect()
}

/// Those sections with their bytes after relocation, or number, place and reason
/// of the first broken check of 2 to 14.
pub fn relocate(case: &Case) -> Result<Vec<Laid>, Answer> {
    let plan = reference::judge(&case.object, &case.order, case.image_length).map_err(numbers)?;
    let numbers = loaded_sections(&case.object).into_iter();
    let pieces = plan.pieces.into_iter();
    Ok(numbers
        .zip(pieces)
        .map(|((index, _), piece)| (index, piece.bytes))
        .collect())
}

/// Where an order puts the loaded sections of an object in the image.
pub fn starts_in_image(object: &[u8], order: &[u8]) -> Vec<usize> {
    let class = Class::of(object).expect("check 4 has passed");
    let order = Order::read(order, class).expect("check 2 has passed");
    let addresses = addresses(&order);
    let start = |index: usize| (addresses[index].0 - order.base.0) as usize;
    let sections = loaded_sections(object).into_iter();
    sections.map(|(index, _)| start(index)).collect()
}

/// The same for a case; none where a check is broken.
pub fn starts(case: &Case) -> Vec<usize> {
    match relocate(case) {
        Ok(_) => starts_in_image(&case.object, &case.order),
        Err(_) => Vec::new(),
    }
}

pub fn answer(case: &Case) -> Answer {
    relocate(case).err().unwrap_or(DONE)
}

pub fn line(case: &Case) -> String {
    let digits = |bytes: &[u8]| -> String { bytes.iter().map(|b| format!("{b:02x}")).collect() };
    match relocate(case) {
        Err((number, place, reason)) => format!("{number} {place} {reason}"),
        Ok(sections) => {
            let words = sections.iter();
            let words = words.map(|(index, bytes)| format!(" {index} {}", digits(bytes)));
            format!("0 0 0{}", words.collect::<String>())
        }
    }
}
