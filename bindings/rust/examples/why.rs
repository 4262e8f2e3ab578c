//! Prints how the goal leads to a fact: `why FILE FACT [POSITION]`, with the position of an ask or also line, 1 if none is named.
//!
//! Each line has a fact, its round, the name that was the last to come, and the record that supplied it.

use std::error::Error;
use std::process::ExitCode;

use wimplejade::Filter;

fn main() -> Result<ExitCode, Box<dyn Error>> {
    let mut args = std::env::args().skip(1);
    let (Some(path), Some(fact)) = (args.next(), args.next()) else {
        eprintln!("usage: why FILE FACT [POSITION]");
        return Ok(ExitCode::from(2));
    };
    let position = args.next().map_or(Ok(1), |position| position.parse())?;
    let file = std::fs::read(path)?;
    let reasons = Filter::new().why(&file, position)?;
    let Some(reason) = reasons.all().iter().find(|reason| reason.fact.name_str() == fact) else {
        println!("{fact} is not among the reached facts");
        return Ok(ExitCode::FAILURE);
    };
    for reason in reasons.chain(reason.fact.line) {
        let round = reasons.round(reason.fact.line).unwrap_or(0);
        println!("round {round}: {} waits for {}, from {}", reason.fact, reason.name_str(), reason.supplier);
    }
    Ok(ExitCode::SUCCESS)
}
