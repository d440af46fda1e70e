//! The comparison fitter: document 01 and Tickets 1, 3, 5, 7 and 9 written for
//! speed, in safe Rust, without a heap. The library's time is measured against it.
//!
//! It has two phases. The first makes every check in its order and writes
//! nothing. The second saves and lays, and cannot fail. Each phase reads a
//! relocation once. What a type asks for stands in a table (`types`), so that
//! relocations of different types take the same path through the code, and a
//! processor need not guess which one comes next. e_flags says which of two tables
//! it is, once for an object. All of this is built once for each class (`class`).
//!
//! The checks of a relocation are made in two steps. The first step asks
//! whether all rules hold, in any order (`relocations`). Only where it cannot
//! say yes, the second step goes through the rules in order and finds the first
//! broken one (`exact`).

mod bytes;
mod class;
mod exact;
mod forms;
mod journal;
mod lay;
mod object;
mod order;
mod pairs;
mod placing;
mod relocations;
mod symbols;
mod types;

use class::{Class, Elf32, Elf64};
use journal::Journal;
use lay::Plan;
use object::{Object, MAX_SYMBOLS};
use order::Order;
use placing::Addresses;
use symbols::Symbols;

/// The longest object or image.
const MAX_BYTES: usize = 1_048_576;

/// Document 01: number and place. Ticket 9: why a symbol does not resolve.
#[derive(Clone, Copy, PartialEq, Eq, Debug)]
pub struct Answer {
    pub number: u32,
    pub place: u32,
    /// 0 for every number but 10.
    pub reason: u32,
}

impl Answer {
    /// "done", place 0.
    pub const DONE: Answer = refusal(0, 0);

    /// Number, place and reason.
    pub fn numbers(self) -> (u32, u32, u32) {
        (self.number, self.place, self.reason)
    }
}

const fn refusal(number: u32, place: u32) -> Answer {
    Answer {
        number,
        place,
        reason: 0,
    }
}

/// Document 01: a fit. It is never inlined, so that a profiler finds it by its
/// name.
#[inline(never)]
pub fn comparison_fit(object: &[u8], order: &[u8], image: &mut [u8], journal: &mut [u8]) -> Answer {
    install(object, order, image, journal).map_or_else(|refused| refused, |()| Answer::DONE)
}

/// Document 01: a taking-back. It is never inlined either.
#[inline(never)]
pub fn comparison_take_back(image: &mut [u8], journal: &mut [u8]) -> Answer {
    rollback(image, journal).map_or_else(|refused| refused, |()| Answer::DONE)
}

fn install(
    object: &[u8],
    order: &[u8],
    image: &mut [u8],
    journal: &mut [u8],
) -> Result<(), Answer> {
    let standing = Journal::read(journal, image.len()).ok_or(refusal(1, 0))?;
    match object.get(4) {
        Some(1) => install_of::<Elf32>(object, order, image, journal, standing),
        Some(2) => install_of::<Elf64>(object, order, image, journal, standing),
        _ => Err(refusal(4, 0)),
    }
}

fn install_of<C: Class>(
    object: &[u8],
    order: &[u8],
    image: &mut [u8],
    journal: &mut [u8],
    standing: Journal,
) -> Result<(), Answer> {
    let header = object::read_header::<C>(object).ok_or(refusal(4, 0))?;
    let order = Order::<C>::read(order).ok_or(refusal(2, 0))?;
    if !order::is_allowed_window::<C>(order.base, image.len()) {
        return Err(refusal(3, 0));
    }
    let object = Object::<C>::read(object, &header).map_err(|place| refusal(5, place))?;
    let addresses = placing::addresses(&object, &order).map_err(|place| refusal(6, place))?;
    let fit = Fit {
        object: &object,
        order: &order,
        addresses: &addresses,
        standing,
    };
    match object.symbols().len() <= FEW_SYMBOLS {
        true => fit.install_with::<FEW_SYMBOLS>(image, journal),
        false => fit.install_with::<MAX_SYMBOLS>(image, journal),
    }
}

/// The most symbols of an object that has not many.
const FEW_SYMBOLS: usize = 1_024;

/// What is known after check 6.
struct Fit<'a, C: Class> {
    object: &'a Object<'a, C>,
    order: &'a Order<'a, C>,
    addresses: &'a Addresses,
    standing: Journal,
}

impl<C: Class> Fit<'_, C> {
    /// The other checks, and then the writing, with a memory for at most so many
    /// symbols. An object with few of them does not pay for a long one.
    #[inline(never)]
    fn install_with<const N: usize>(
        self,
        image: &mut [u8],
        journal: &mut [u8],
    ) -> Result<(), Answer> {
        let (object, addresses) = (self.object, self.addresses);
        let mut symbols = Symbols::<C, N>::new(object, addresses);
        symbols
            .take_external_values(self.order)
            .map_err(|place| refusal(7, place))?;
        let window = placing::Window {
            base: self.order.base,
            length: image.len() as u64,
        };
        let span = placing::check(object, addresses, window).map_err(|place| refusal(8, place))?;
        relocations::check(object, addresses, &mut symbols)?;
        if !self.standing.has_room_for(span, journal.len()) {
            return Err(refusal(15, 0));
        }
        self.standing.save(journal, span, image);
        let plan = Plan {
            object,
            addresses,
            symbols: &symbols,
            base: self.order.base,
        };
        plan.lay(image);
        Ok(())
    }
}

fn rollback(image: &mut [u8], journal: &mut [u8]) -> Result<(), Answer> {
    let standing = Journal::read(journal, image.len()).ok_or(refusal(1, 0))?;
    if image.len() > MAX_BYTES {
        return Err(refusal(3, 0));
    }
    let newest = standing.newest(journal).ok_or(refusal(16, 0))?;
    standing.undo(journal, newest, image);
    Ok(())
}
