//! The inputs of the comparisons. Each is made anew from the same numbers each time, so it never
//! changes.

/// The text of the smallest draft that may be drawn.
pub const SMALLEST: &[u8] = b"labs 0 0 0\nhalt\n";

/// A small linear congruential generator (Knuth's MMIX constants), of which the high bits are used.
pub struct Random(pub u64);

impl Random {
    /// A number below `limit`.
    pub fn below(&mut self, limit: u16) -> u16 {
        self.0 = self
            .0
            .wrapping_mul(6364136223846793005)
            .wrapping_add(1442695040888963407);
        ((self.0 >> 33) % u64::from(limit)) as u16
    }

    /// True once in so many times.
    pub fn once_in(&mut self, times: u16) -> bool {
        self.below(times) == 0
    }
}

/// The bytes of so many random vectors. About one in six isn't canonical: it has bit 11 of a word
/// set, which is ignored, or a sign on a magnitude of zero.
pub fn vectors(count: usize) -> Vec<u8> {
    let mut random = Random(1979);
    let mut bytes = Vec::new();
    for _ in 0..count {
        // The first word's top four bits are the scale, 0 to 9; the second word's are the
        // intensity, 0 to 15.
        for tops in [10, 16] {
            let top = random.below(tops) << 12;
            let ignored = u16::from(random.once_in(16)) << 11;
            let sign = random.below(2) << 10;
            let magnitude = if random.once_in(16) {
                0
            } else {
                random.below(1024)
            };
            bytes.extend((top | ignored | sign | magnitude).to_le_bytes());
        }
    }
    bytes
}

/// The bytes of so many random words, which aren't cut. Each of the seven instructions comes about
/// equally often, and one in sixteen isn't canonical: ignored bits of it are set, or a magnitude of
/// zero has a sign.
pub fn instructions(words: usize) -> Vec<u8> {
    let mut random = Random(1979);
    let mut bytes = Vec::new();
    while bytes.len() < 2 * words {
        let opcode = match random.below(7) {
            0 => random.below(10),
            instruction => 9 + instruction,
        };
        // A last word alone stays alone: its opcode becomes B or F.
        let opcode = if bytes.len() + 2 == 2 * words {
            opcode | 0xB
        } else {
            opcode
        };
        let ignored = match opcode {
            0..=9 => 0x800,
            0xB | 0xD => 0xFFF,
            _ => 0,
        };
        let second = (opcode <= 0xA).then(|| random.below(16));
        for top in [Some(opcode), second].into_iter().flatten() {
            let cleared = if random.once_in(16) { 0 } else { ignored };
            bytes.extend((top << 12 | random.below(4096) & !cleared).to_le_bytes());
        }
    }
    bytes
}

/// The text of a draft of so many operations, with one word more: a LABS, short vectors, jumps to
/// the next operation, calls of a return at the end, and HALT before it.
pub fn operations(count: u16) -> Vec<u8> {
    let mut random = Random(1979);
    let mut text = String::from("labs 512 400 3\n");
    for i in 1..count - 3 {
        text += &match random.below(4) {
            0 => format!("jump {}\n", i + 1),
            1 => format!("call {}\n", count - 1),
            _ => format!(
                "svec {} {} -{} {}\n",
                2 + random.below(4),
                random.below(4),
                1 + random.below(3),
                random.below(16)
            ),
        };
    }
    text += "halt\nhalt\nreturn\n";
    text.into_bytes()
}

/// The text of a draft that comes to each of 1,024 ROM words at each depth, 0 to 4: the ROM's first
/// word is jumped to from each. The ROM holds blank SVECs, and a HALT as its last word.
pub fn nested_over_rom() -> Vec<u8> {
    let mut text = String::new();
    for line in 0..128 {
        let last = if line == 127 { "B000" } else { "F000" };
        text += &format!("rom {:03X}{} {last}\n", 0x800 + 8 * line, " F000".repeat(7));
    }
    text += "labs 0 0 0\n";
    for target in [3, 5, 7, 9] {
        text += &format!("call {target}\njumprom 800\n");
    }
    text += "jumprom 800\n";
    text.into_bytes()
}

/// The text of 65,536 random events, a line each but for offers. Most are ticks and fetches: a
/// fetch of a low byte is followed by one of a high byte, where there is room for both.
pub fn mixed_events() -> Vec<u8> {
    let mut random = Random(1979);
    let mut text = String::new();
    let mut events = 0;
    while events < 65_536 {
        events += 1;
        let line = match random.below(64) {
            0 => {
                let vectors = "svec 3 -3 -2 3\n".repeat(usize::from(1 + random.below(3)));
                text += &format!("offer\nlabs 512 400 3\n{vectors}halt\n");
                "end\n"
            }
            1 => "redraw\n",
            2..=41 => "tick\n",
            42..=44 => "strobe\n",
            45..=61 if events < 65_536 => {
                events += 1;
                "fetch\nfetch\n"
            }
            45..=61 => "fetch\n",
            62 => "resetgen\n",
            _ if random.once_in(16) => "resetall FF\n",
            _ => "resetcpu\n",
        };
        text += line;
    }
    text.into_bytes()
}

/// The text of 65,536 ticks. The driver is idle in all but the first two.
pub fn ticks() -> Vec<u8> {
    let mut text = "tick 9999\n".repeat(6);
    text += "tick 5542\n";
    text.into_bytes()
}

/// The text of 65,536 resets of the whole system, over all bytes in turn.
pub fn resets() -> Vec<u8> {
    let all: String = (0..=255u8)
        .map(|byte| format!("resetall {byte:02X}\n"))
        .collect();
    all.repeat(256).into_bytes()
}

/// The text of a frame of 254 vectors that are seen, which is drawn 62 times: 64,579 events.
pub fn pictures() -> Vec<u8> {
    let mut random = Random(1979);
    let mut text = String::from("tick 2\noffer\nlabs 512 400 0\n");
    for _ in 0..254 {
        text += &format!(
            "vctr {} {} -{} {}\n",
            random.below(10),
            random.below(1024),
            1 + random.below(1023),
            1 + random.below(15)
        );
    }
    text += "halt\nend\ntick 1026\n";
    text += &"strobe\nfetch 1024\n".repeat(62);
    text.into_bytes()
}

/// The text of a frame of one vector, which is drawn so many times, 5,900 at most: eleven events
/// each.
pub fn small_pictures(count: usize) -> Vec<u8> {
    let mut text =
        String::from("tick 2\noffer\nlabs 512 400 0\nsvec 5 3 -2 12\nhalt\nend\ntick 12\n");
    text += &"strobe\nfetch 10\n".repeat(count);
    text.into_bytes()
}

/// The text of a sketch of so many frames, each of which draws 50,625 strokes: it calls a part of
/// the ROM fifteen times, that calls another one as often, and so on, up to one of fifteen vectors.
pub fn dense_frames(frames: usize) -> Vec<u8> {
    let vectors = "svec 2 3 -1 12\n".repeat(15);
    let calls = |name: &str| format!("callrom {name}\n").repeat(15);
    let (of_dash, of_row) = (calls("dash"), calls("row"));
    let mut text = format!(".rom\ndash:\n{vectors}return\nrow:\n{of_dash}return\n");
    text += &format!("field:\n{of_row}return\n");
    for _ in 0..frames {
        text += &format!(".frame\nlabs 512 400 0\n{}halt\n", calls("field"));
    }
    text.into_bytes()
}

/// An image of vector memory whose RAM begins with these words and has zeros after them, with a ROM
/// of returns.
pub fn image(words: &[u16]) -> Vec<u8> {
    let zeros = [0; 0x400];
    let ram = words.iter().chain(&zeros[words.len()..]);
    ram.chain(&[0xD000; 0x400])
        .flat_map(|word| word.to_le_bytes())
        .collect()
}

/// The words of a jump, of the LABS that it leads to, and of vectors that are seen.
pub fn drawing(vectors: usize) -> Vec<u16> {
    let mut random = Random(1979);
    let mut words = vec![0xE001, 0xA190, 0x0200];
    for _ in 0..vectors {
        words.push((random.below(10) as u16) << 12 | 0x400 | (1 + random.below(1023)) as u16);
        words.push((1 + random.below(15) as u16) << 12 | random.below(1024) as u16);
    }
    words
}

/// An image of vectors that are seen, whose run has so many words, an even number. Where these are
/// more than 1,024, it has no end: 65,536 are fetched.
pub fn dump_of_words(count: usize) -> Vec<u8> {
    if count > 1024 {
        return image_without_end();
    }
    let mut words = drawing(count / 2 - 2);
    words.push(0xB000);
    image(&words)
}

/// An image of a frame of 254 vectors that are seen.
pub fn image_of_a_picture() -> Vec<u8> {
    let mut words = drawing(254);
    words.push(0xB000);
    image(&words)
}

/// An image of 63 vectors that are seen, which jumps back to the first: its run has no end.
pub fn image_without_end() -> Vec<u8> {
    let mut words = drawing(63);
    words.push(0xE003);
    image(&words)
}

/// As many offers of a draft as a text of 1,048,576 bytes has room for.
pub fn offers(draft: &[u8]) -> Vec<u8> {
    let offer = [b"offer\n", draft, b"end\n"].concat();
    offer.repeat(1_048_576 / offer.len())
}

/// The log of a game that draws frames of 300 words in turns from both halves, while it writes the
/// other half: of so many bytes, and up to a frame's end. Nothing is torn.
pub fn game_log(bytes: usize) -> Vec<u8> {
    let mut random = Random(1979);
    let mut text = String::new();
    let mut half = 0;
    while text.len() < bytes {
        let (drawn, written) = (0x201 * half + 1 - half, 0x402 - 0x400 * half);
        let jump = 0xE000 + drawn;
        text += &format!(
            "started\nlow 000 {:02X}\nfetched 000 {jump:04X}\n",
            jump % 256
        );
        for k in 0..300 {
            let (address, word) = (drawn + k, random.below(0xB000));
            text += &format!("low {address:03X} {:02X}\n", word % 256);
            text += &format!("wrote {:03X} {:02X}\n", written + 2 * k, random.below(256));
            text += &format!("fetched {address:03X} {word:04X}\n");
            text += &format!(
                "wrote {:03X} {:02X}\n",
                written + 2 * k + 1,
                random.below(256)
            );
        }
        text += &format!("halted\nwrote 001 {:02X}\n", 0xE2 - 2 * half);
        half = 1 - half;
    }
    text.into_bytes()
}

/// Comments of 63 bytes, each with its line end, of so many bytes in all.
pub fn comments(bytes: usize) -> Vec<u8> {
    let mut line = vec![b'#'; 63];
    line.push(b'\n');
    line.repeat(bytes / line.len())
}

/// So many random bytes.
pub fn random_bytes(count: usize) -> Vec<u8> {
    let mut random = Random(1979);
    (0..count).map(|_| random.below(256) as u8).collect()
}

// --- Sketches ---

/// How many frames the sketch of frames has.
pub const FRAMES: usize = 50;

/// How many operations each of them has.
pub const FRAME_OPERATIONS: usize = 2 * SHAPES_SHOWN + 2 * PARTS + 1 + PARTS * (PART_VECTORS + 1);

/// How many strokes each of them has.
pub const FRAME_STROKES: usize = SHAPES_SHOWN * SHAPE_VECTORS + PARTS * PART_VECTORS;

/// The shapes of its ROM, the vectors of each, and how many of them a frame shows.
const SHAPES: u16 = 32;
const SHAPE_VECTORS: usize = 8;
const SHAPES_SHOWN: usize = 24;

/// The parts of a frame, each of which it calls once, and the vectors of each.
const PARTS: usize = 8;
const PART_VECTORS: usize = 4;

/// How many names the sketch of names has in its ROM.
pub const ROM_NAMES: usize = 1000;

/// A short vector that is seen.
fn short_vector(random: &mut Random) -> String {
    let (scale, x, z) = (2 + random.below(4), random.below(4), 1 + random.below(15));
    let (sign, y) = (["", "-"][usize::from(random.below(2))], 1 + random.below(3));
    format!("svec {scale} {x} {sign}{y} {z}")
}

/// A place on the screen, and the global scale.
fn place(random: &mut Random) -> String {
    let (x, y, scale) = (random.below(1024), random.below(768), random.below(2));
    format!("labs {x} {y} {scale}")
}

/// The text of a sketch of one frame of so many short vectors, without names.
pub fn frame_of_vectors(count: usize) -> Vec<u8> {
    let mut random = Random(1979);
    let mut text = String::from("labs 512 400 0\n");
    for _ in 0..count {
        text += &short_vector(&mut random);
        text.push('\n');
    }
    text += "halt\n";
    text.into_bytes()
}

/// The lines of a frame that has a name: it calls shapes of the ROM and its own parts, each by its
/// name.
fn frame_with_names(number: usize, random: &mut Random) -> String {
    let mut text = format!("\n# Frame {number} of {FRAMES}.\n.frame scene_{number}\n");
    for _ in 0..SHAPES_SHOWN {
        let (place, shape) = (place(random), random.below(SHAPES));
        text += &format!("        {place}\n        callrom shape_{shape}\n");
    }
    for part in 0..PARTS {
        text += &format!("        {}\n        call part_{part}\n", place(random));
    }
    text += "        halt\n";
    for part in 0..PARTS {
        text += &format!("part_{part}:\n");
        for _ in 0..PART_VECTORS {
            let (scale, x) = (random.below(8), random.below(1024));
            let (y, z) = (1 + random.below(1023), 1 + random.below(15));
            text += &format!("        vctr {scale} {x} -{y} {z}\n");
        }
        text += "        return\n";
    }
    text
}

/// The text of a sketch of frames with names, over shapes in the ROM that have names, too: some 115
/// KB.
pub fn sketch_of_frames() -> Vec<u8> {
    let mut random = Random(1979);
    let mut text = String::from(".rom\n");
    for shape in 0..SHAPES {
        text += &format!("shape_{shape}:\n");
        for _ in 0..SHAPE_VECTORS {
            text += &format!("        {}\n", short_vector(&mut random));
        }
        text += "        return\n";
    }
    for number in 0..FRAMES {
        text += &frame_with_names(number, &mut random);
    }
    text.into_bytes()
}

/// The text of a sketch of many names in the larger ROM, of two words each. Two frames call all of
/// them, each once.
pub fn sketch_of_names() -> Vec<u8> {
    names_of_rom(ROM_NAMES)
}

/// The text of a sketch of so many such names, an even number.
pub fn names_of_rom(names: usize) -> Vec<u8> {
    let mut random = Random(1979);
    let mut text = String::from("map 4096\n.rom\n");
    for number in 0..names {
        let vector = short_vector(&mut random);
        text += &format!("dash_{number}: {vector}\n        return\n");
    }
    for first in [0, names / 2] {
        text += &format!(".frame dashes_{first}\nlabs 512 400 0\n");
        for number in first..first + names / 2 {
            text += &format!("callrom dash_{number}\n");
        }
        text += "halt\n";
    }
    text.into_bytes()
}

/// The text of a sketch of so many frames, of 30 short vectors each.
pub fn frames_of_vectors(frames: usize) -> Vec<u8> {
    let mut random = Random(1979);
    let mut text = String::new();
    for number in 0..frames {
        text += &format!(".frame scene_{number}\nlabs 512 400 0\n");
        for _ in 0..30 {
            text += &short_vector(&mut random);
            text.push('\n');
        }
        text += "halt\n";
    }
    text.into_bytes()
}

/// The most bytes of a sketch.
const MOST_SKETCH_BYTES: usize = 1_048_576;

/// Lines of six bytes that give a name each, of so many bytes. No name is given twice: each is the
/// one before it, counted on by one.
fn lines_of_names(bytes: usize) -> String {
    let digits: Vec<char> = ('a'..='z').chain('0'..='9').chain(['_']).collect();
    let name = |number: usize| -> String {
        let places = [37 * 37 * 37, 37 * 37, 37, 1].iter();
        places.map(|place| digits[number / place % 37]).collect()
    };
    (0..bytes / 6).map(|number| name(number) + ":\n").collect()
}

/// The text of a sketch of 1 MiB that gives as many names in one frame as have room.
pub fn names_alone() -> Vec<u8> {
    let (before, after) = ("labs 0 0 0\n", "halt\n");
    let room = MOST_SKETCH_BYTES - before.len() - after.len();
    [before, &lines_of_names(room), after].concat().into_bytes()
}

/// The text of a sketch of 1 MiB that gives so many names in its ROM, and calls the last of them
/// as often as there is room for.
pub fn names_called(count: usize) -> Vec<u8> {
    let names = lines_of_names(6 * (count - 1));
    let mut text = format!(".rom\n{names}z:\nreturn\n");
    let calls = "callrom z\n".repeat(508);
    let frame = format!(".frame\nlabs 0 0 0\n{calls}halt\n");
    while text.len() + frame.len() <= MOST_SKETCH_BYTES {
        text += &frame;
    }
    text.into_bytes()
}
