//! Two wall posts and a phone. An envelope goes from its sender over post A and post B to the phone, and the news of its delivery
//! goes back the same way. A second envelope gets as far as post A, whose screen is shown at the end.
#![forbid(unsafe_code)]

mod meeting;
mod party;
mod sealing;

use goosetable::{Chain, ContactId, Direction, MessageKey, OwnMessage, Window, delivered};
use meeting::meet;
use party::{Party, Problem};
use sealing::{ROUTE_KEY, message_key, seal};
use std::process::ExitCode;

const SENDER: ContactId = ContactId(1);
const POST_A: ContactId = ContactId(2);
const POST_B: ContactId = ContactId(3);
const PHONE: ContactId = ContactId(4);

const FIRST_KEY: MessageKey = MessageKey {
    direction: Direction::Initiator,
    generation: 0,
    index: 0,
};

const SECOND_KEY: MessageKey = MessageKey {
    index: 1,
    ..FIRST_KEY
};

/// The phone awaits one skipped message and those of the sender's first chain. Skipped keys are listed first; the window
/// has its rows by generation and index.
fn awaited() -> Result<Window, Problem> {
    let skipped = MessageKey {
        generation: 1,
        ..FIRST_KEY
    };
    let chain = Chain {
        direction: FIRST_KEY.direction,
        generation: FIRST_KEY.generation,
        next: 0,
    };
    let mut window = Window::EMPTY;
    for key in goosetable::window(&[skipped], &[chain])? {
        window.push_route(SENDER, &ROUTE_KEY, key)?;
    }
    let first = window.rows().next().ok_or("nothing is awaited")?;
    println!(
        "phone awaits {} messages, the first has tag {}",
        window.len(),
        first.tag
    );
    Ok(window)
}

/// The sender queues a message for the phone, and makes its envelope.
fn send(sender: &mut Party, message: u32, place: MessageKey, text: &str) -> Result<(), Problem> {
    let key = message_key(place);
    let message = OwnMessage {
        contact: PHONE,
        message,
        route_key: &ROUTE_KEY,
        key: place,
        secret: delivered(&key),
        ciphertext: &seal(&key, text),
    };
    let row = sender.send(message)?;
    println!(
        "sender makes an envelope for the phone: tag {}, copies {}, until minute {}",
        row.tag, row.copies, row.expiry_min
    );
    Ok(())
}

fn tell() -> Result<(), Problem> {
    let mut sender = Party::new("sender", SENDER, &[POST_A, PHONE], Window::EMPTY)?;
    let mut a = Party::new("post A", POST_A, &[SENDER, POST_B], Window::EMPTY)?;
    let mut b = Party::new("post B", POST_B, &[POST_A, PHONE], Window::EMPTY)?;
    let mut phone = Party::new("phone", PHONE, &[SENDER, POST_B], awaited()?)?;

    send(&mut sender, 1, FIRST_KEY, "pump 3 is dry")?;
    meet(&mut sender, &mut a)?;
    sender.restart()?;
    meet(&mut a, &mut b)?;
    b.restart()?;
    meet(&mut b, &mut phone)?;
    meet(&mut a, &mut b)?;
    meet(&mut sender, &mut a)?;
    for party in [&mut sender, &mut a] {
        party.maintain(500)?;
    }
    send(&mut sender, 2, SECOND_KEY, "pump 3 runs again")?;
    meet(&mut sender, &mut a)?;
    a.show(1449);
    a.show(1450);
    for party in [&mut a, &mut b, &mut phone, &mut sender] {
        party.maintain(1450)?;
    }
    Ok(())
}

fn main() -> ExitCode {
    match tell() {
        Ok(()) => ExitCode::SUCCESS,
        Err(problem) => {
            eprintln!("goosetable-example: {problem}");
            ExitCode::FAILURE
        }
    }
}
