//! The lines, as the program `tests_placings` writes them.

use reference::object::{Header, Object};
use reference::order::{Order, Window};
use reference::placement::{
    addresses, lowest_differing_section, lowest_misplaced, lowest_wrong_external,
};
use reference::symbol::{Reason, Symbols};

use crate::Case;

/// The address of each section, 0 where there is none, and the value of each
/// symbol and of three numbers past the table, or why it does not resolve.
pub struct Placed {
    pub addresses: Vec<u64>,
    pub values: Vec<Result<u64, Reason>>,
}

/// Checks 4, 2, 3 and 5 to 8: number and place of the first broken one, or what
/// follows from the pair.
pub fn place(case: &Case) -> Result<Placed, (u32, u32)> {
    let header = Header::read(&case.object).ok_or((4, 0))?;
    let class = header.class;
    let order = Order::read(&case.order, class).ok_or((2, 0))?;
    let window = Window::new(order.base, case.image_length, class).ok_or((3, 0))?;
    let object = Object::read(&case.object, header).map_err(|place| (5, place))?;
    broken_at(6, lowest_differing_section(&object, &order))?;
    broken_at(7, lowest_wrong_external(&object, &order))?;
    let addresses = addresses(&order);
    broken_at(8, lowest_misplaced(&object, addresses, window))?;
    let symbols = Symbols {
        object: &object,
        addresses,
        external_values: &order.external_values,
    };
    let end = (0..).find(|index| symbols.entry(*index).is_none());
    let value = |index| {
        let value = symbols.value(index)?;
        Ok(u64::try_from(value).expect("from 0 to 2^64 - 1"))
    };
    Ok(Placed {
        addresses: (0..object.sections().len())
            .map(|section| addresses[section].0)
            .collect(),
        values: (0..end.unwrap_or(0) + 3).map(value).collect(),
    })
}

fn broken_at(number: u32, place: Option<u32>) -> Result<(), (u32, u32)> {
    place.map_or(Ok(()), |place| Err((number, place)))
}

pub fn answer(case: &Case) -> (u32, u32) {
    place(case).err().unwrap_or((0, 0))
}

pub fn line(case: &Case) -> String {
    match place(case) {
        Err((number, place)) => format!("{number} {place}"),
        Ok(placed) => {
            let addresses = placed.addresses.into_iter().map(Ok);
            let numbers = addresses.chain(placed.values);
            let words = numbers.map(|number| match number {
                Ok(number) => format!(" {number:x}"),
                Err(reason) => format!(" -{}", reason as u32),
            });
            format!("0 0{}", words.collect::<String>())
        }
    }
}
