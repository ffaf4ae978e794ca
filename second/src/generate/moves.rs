//! Calls of the moves: texts of either form, and buffers of every kind of room.

use super::random::Random;
use super::room::room;
use super::{full, readings, Shape};
use crate::moves::moved;
use crate::text::readings::Form;
use crate::text::LONGEST_TEXT;

/// Readings to be written in this form to a buffer of so many bytes.
pub struct Move {
    pub to: Form,
    pub readings: Vec<u8>,
    pub room: usize,
}

pub fn any(random: &mut Random, shape: &Shape) -> Move {
    let to = random.pick(&[Form::Readings, Form::Spans]);
    let readings = if random.chance(50) {
        readings::faulty(random, shape.window, &shape.names)
    } else {
        readings::readings(random, shape.window, &shape.names)
    };
    with_room(random, shape, to, readings)
}

/// A move whose text has about as many bytes as are allowed.
pub fn full(random: &mut Random, shape: &Shape) -> Move {
    let to = random.pick(&[Form::Readings, Form::Spans]);
    let readings = full::readings(random, to, shape.window, &shape.names);
    with_room(random, shape, to, readings)
}

fn with_room(random: &mut Random, shape: &Shape, to: Form, readings: Vec<u8>) -> Move {
    let text = moved(to, &readings, shape.window, &shape.declared);
    let room = room(random, text.ok(), LONGEST_TEXT);
    Move { to, readings, room }
}
