//! README's plan and its seven calls. It prints what each is answered.
mod nazgolv;
use nazgolv::{Link, Refusal};

/// F = 4, W = 2, N = 4; two flows to node 9, with share 2 and 2 cells each
const PLAN: [u8; 20] = [20, 0, 2, 0, 12, 0, 4, 0, 2, 0, 4, 0, 2, 2, 1, 9, 2, 2, 2, 9];

/// A flow asks for a slot for a tile that has come: its departure is CP.
fn request(link: &mut Link, flow: usize) -> Result<String, Refusal> {
    let word = link.word(flow).ok_or(Refusal::Flow)?;
    let position = link.request(word)?;
    Ok(format!("flow {flow}, number {}: position {position}", word >> 10 & 1023))
}

fn credit(link: &mut Link, flow: usize, position: usize) -> Result<String, Refusal> {
    link.credit(flow, position)?;
    Ok(format!("flow {flow}: a cell is free from position {position} on"))
}

fn tick(link: &mut Link) -> Result<String, Refusal> {
    let owner = link.tick()?.map_or("nobody's".to_string(), |flow| format!("flow {flow}'s"));
    Ok(format!("position {}: {owner}", link.current()))
}

fn say(answer: Result<String, Refusal>) {
    match answer {
        Ok(line) => println!("{line}"),
        Err(refusal) => println!("refused with {}: {refusal}", refusal.number()),
    }
}

fn main() -> Result<(), Refusal> {
    let mut link = Link::fresh(&PLAN)?;
    say(request(&mut link, 0));
    say(request(&mut link, 0));
    say(request(&mut link, 0));
    say(credit(&mut link, 0, 4));
    say(request(&mut link, 0));
    say(request(&mut link, 1));
    say(tick(&mut link));
    Ok(())
}
