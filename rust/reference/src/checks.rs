//! "When the fitter says no": the checks in their order, a line each, with the
//! number that a broken one gives.

use crate::journal::{self, Standing};
use crate::object::{Header, Object};
use crate::order::{is_allowed_length, Order, Window};
use crate::placement::{
    addresses, lowest_differing_section, lowest_misplaced, lowest_wrong_external,
};
use crate::plan::Plan;
use crate::relocate::{
    breaks_shape_rule, distance_is_wrong, has_not_one_pair, instruction_form_is_wrong,
    padding_misses_boundary, unresolved_symbol, RelaEntry,
};
use crate::symbol::{Reason, Symbols};
use crate::Answer;

/// Checks 2 to 14: everything that depends on object, order and image length
/// alone. Gives the first broken check, or what to lay. "the class is read
/// before the order, so the checks run 1, 4, 2, 3, 5 for both classes"
#[rustfmt::skip]
pub fn judge(object: &[u8], order: &[u8], image_length: usize) -> Result<Plan, Answer> {
    let header = read(4, Header::read(object))?;                    // header or file length
    let class = header.class;
    let order = read(2, Order::read(order, class))?;                // order bytes malformed
    let window = Window::new(order.base, image_length, class);
    let window = read(3, window)?;                                  // window rule broken
    let object = read_at(5, Object::read(object, header))?;         // row table or row rule
    broken_at(6, lowest_differing_section(&object, &order))?;       // placements differ
    broken_at(7, lowest_wrong_external(&object, &order))?;          // outside value, wrong symbol
    let addresses = addresses(&order);
    broken_at(8, lowest_misplaced(&object, addresses, window))?;    // placing
    let symbols = Symbols { object: &object, addresses, external_values: &order.external_values };
    let lists = object.relocation_sections();
    let relas = lists.iter().flat_map(|list| {
        (0..list.relocations.len()).map(|index| RelaEntry { symbols: &symbols, list, index })
    });
    first_broken_relocation(relas)?;                                // 9 to 14
    Ok(Plan::new(&symbols, window, &lists))
}

/// "Records go by RELA row, then file order, each through 9 to 14 before the
/// next." The place is the "record, counted from 0 over all".
fn first_broken_relocation<'a>(relas: impl Iterator<Item = RelaEntry<'a>>) -> Result<(), Answer> {
    for (place, rela) in relas.enumerate() {
        check_relocation(&rela, place as u32)?;
    }
    Ok(())
}

/// The checks of one relocation.
#[rustfmt::skip]
fn check_relocation(rela: &RelaEntry, place: u32) -> Result<(), Answer> {
    let broken = |number, is_broken: bool| broken_at(number, is_broken.then_some(place));
    broken(9, breaks_shape_rule(rela))?;            // type, offset, overlap, addend rule
    resolved_at(place, unresolved_symbol(rela))?;   // 10 (24, 25: or is not in the target row)
    broken(11, instruction_form_is_wrong(rela))?;   // instruction form
    broken(12, has_not_one_pair(rela))?;            // not exactly one partner
    broken(13, distance_is_wrong(rela))?;           // distance odd or too far; or no multiple of 4
    broken(14, padding_misses_boundary(rela))       // padding not on its boundary
}

/// The checks of an install, in order.
fn check_install(
    object: &[u8],
    order: &[u8],
    image_length: usize,
    journal: &[u8],
) -> Result<(Standing, Plan), Answer> {
    let standing = read(1, Standing::read(journal, image_length))?; // ledger unsound
    let plan = judge(object, order, image_length)?; // 2 to 14
    holds(15, standing.has_room_for(plan.span, journal.len()))?; // n is 16, or no room
    Ok((standing, plan))
}

/// The checks of a rollback, in order. "A taking-back checks 1, 3 (length
/// only), 16."
fn check_rollback(image_length: usize, journal: &[u8]) -> Result<Standing, Answer> {
    let standing = read(1, Standing::read(journal, image_length))?; // ledger unsound
    holds(3, is_allowed_length(image_length))?; // window rule broken
    holds(16, !standing.spans.is_empty())?; // no fit stands
    Ok(standing)
}

/// Document 01: a fit.
pub fn install(object: &[u8], order: &[u8], image: &mut [u8], journal: &mut [u8]) -> Answer {
    match check_install(object, order, image.len(), journal) {
        Err(refusal) => refusal,
        Ok((standing, plan)) => {
            journal::save(journal, &standing, plan.span, image);
            plan.lay(image);
            Answer::DONE
        }
    }
}

/// Document 01: a taking-back.
pub fn rollback(image: &mut [u8], journal: &mut [u8]) -> Answer {
    match check_rollback(image.len(), journal) {
        Err(refusal) => refusal,
        Ok(standing) => {
            journal::undo(journal, &standing, image);
            Answer::DONE
        }
    }
}

/// What was read, or the refusal with this number at place 0.
fn read<T>(number: u32, read: Option<T>) -> Result<T, Answer> {
    read.ok_or(Answer::new(number, 0))
}

/// What was read, or the refusal with this number at the place in the error.
fn read_at<T>(number: u32, read: Result<T, u32>) -> Result<T, Answer> {
    read.map_err(|place| Answer::new(number, place))
}

/// The refusal with this number at the broken place, if there is one.
fn broken_at(number: u32, broken: Option<u32>) -> Result<(), Answer> {
    broken.map_or(Ok(()), |place| Err(Answer::new(number, place)))
}

/// The refusal of check 10 at this place, if there is a reason.
fn resolved_at(place: u32, reason: Option<Reason>) -> Result<(), Answer> {
    reason.map_or(Ok(()), |reason| Err(Answer::unresolved(place, reason)))
}

/// The refusal with this number at place 0, unless the rule holds.
fn holds(number: u32, holds: bool) -> Result<(), Answer> {
    broken_at(number, (!holds).then_some(0))
}
