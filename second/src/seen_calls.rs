//! What calls of several kinds meet alike: the refusals of their sheet, and the room of the buffer that a text is written to.

/// Something that may be met, and whether it was.
pub type Thing = (&'static str, bool);

/// Those of the things that were met.
pub fn holding(things: &[Thing]) -> Vec<String> {
    let met = things.iter().filter(|(_, holds)| *holds);
    met.map(|(thing, _)| thing.to_string()).collect()
}

/// The refusals of a sheet.
pub const SHEETS: [&str; 9] = [
    "the sheet: 1",
    "the sheet: 2",
    "the sheet: 3",
    "the sheet: 4",
    "the sheet: 5",
    "the sheet: 6",
    "the sheet: 7",
    "the sheet: 8",
    "the sheet: 9",
];

/// The refusal of a sheet by its number, from 1 to 9.
pub fn of_sheet(number: u64) -> &'static str {
    SHEETS[number as usize - 1]
}

/// The room for a text of at least one byte, and how many bytes that has beside the most that are allowed.
pub const ROOMS: [&str; 8] = [
    "room to the byte: 0",
    "room to spare: 0",
    "room for one byte too few: 20",
    "room for half or less: 20",
    "no room: 20",
    "the most bytes: 0",
    "one byte over the most: 20",
    "more bytes than that, and room for them: 20",
];

/// What a text of this length met in a buffer of this room.
pub fn of_room(length: usize, room: usize, most: usize) -> Vec<&'static str> {
    let (some_room, fits, short) = (room > 0, length <= room, length <= most);
    let met = [
        short && some_room && length == room,
        short && length < room,
        short && some_room && length == room + 1,
        short && some_room && 2 * room <= length,
        short && !some_room && !fits,
        length == most && fits,
        length == most + 1 && fits,
        length > most + 1 && fits,
    ];
    let places = (0..ROOMS.len()).filter(|&place| met[place]);
    places.map(|place| ROOMS[place]).collect()
}
