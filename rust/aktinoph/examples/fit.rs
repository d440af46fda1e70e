//! fit OBJECT ORDER IMAGE LEDGER: one fit over files. fit IMAGE LEDGER: takes
//! the newest fit back. Writes number, place and reason; a done call replaces
//! image and ledger.

use std::env;
use std::error::Error;
use std::fs;

use aktinoph::Answer;

fn main() -> Result<(), Box<dyn Error>> {
    let names: Vec<String> = env::args().skip(1).collect();
    match &names[..] {
        [object, order, image, ledger] => fit(object, order, image, ledger),
        [image, ledger] => take_back(image, ledger),
        _ => Err("usage: fit OBJECT ORDER IMAGE LEDGER, or fit IMAGE LEDGER".into()),
    }
}

/// While the image is written, the ledger's file has the old bytes: it is
/// written first after a fit, and last after a taking-back.
fn fit(object: &str, order: &str, image: &str, ledger: &str) -> Result<(), Box<dyn Error>> {
    let (object, order) = (fs::read(object)?, fs::read(order)?);
    let (mut new_image, mut new_ledger) = (fs::read(image)?, fs::read(ledger)?);
    let answer = aktinoph::fit(&object, &order, &mut new_image, &mut new_ledger);
    if report(answer) {
        fs::write(ledger, new_ledger)?;
        fs::write(image, new_image)?;
    }
    Ok(())
}

fn take_back(image: &str, ledger: &str) -> Result<(), Box<dyn Error>> {
    let (mut new_image, mut new_ledger) = (fs::read(image)?, fs::read(ledger)?);
    let answer = aktinoph::take_back(&mut new_image, &mut new_ledger);
    if report(answer) {
        fs::write(image, new_image)?;
        fs::write(ledger, new_ledger)?;
    }
    Ok(())
}

/// Writes number, place and reason, and in words why a call was refused. Gives
/// whether it was done.
fn report(answer: Answer) -> bool {
    let (number, place, reason) = answer.numbers();
    println!("{number} {place} {reason}");
    if let Err(refusal) = answer.check() {
        eprintln!("{refusal}");
    }
    answer.is_done()
}
