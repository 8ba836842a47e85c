//! One call of read_rules, compared in everything that it may change.

use super::calls::Guarded;
use reference::reader::{self, Reading, Refused, IMAGE_AREA, NAME_AREA};
use std::fmt::Write;
use watcher::raw;

/// What an area holds before a call: bytes that neither an image nor a name has.
fn pattern(length: usize) -> Vec<u8> {
    (0..length).map(|place| 0x80 | place as u8).collect()
}

/// The area after a call that wrote these bytes at its beginning.
fn written(length: usize, bytes: &[u8]) -> Vec<u8> {
    let mut area = pattern(length);
    area[..bytes.len()].copy_from_slice(bytes);
    area
}

/// What to say of a text that went wrong.
fn describe(text: &[u8], [image_area, name_area]: [usize; 2]) -> String {
    let mut shown = String::new();
    write!(shown, "areas {image_area} and {name_area}, ").unwrap();
    write!(shown, "text of {} bytes: ", text.len()).unwrap();
    write!(shown, "{}", text[..text.len().min(2_000)].escape_ascii()).unwrap();
    shown
}

/// Reads a text into areas of these lengths and expects this result: the refusal, both words of `out`,
/// every byte of both areas and of the margins around them and around the text.
#[track_caller]
pub fn expect(text: &[u8], areas: [usize; 2], wanted: &Result<Reading, Refused>) {
    // Bytes that would go on with the text's last token, or with its first.
    let mut lent_text = Guarded::new(text, b'x');
    let mut image = Guarded::new(&pattern(areas[0]), 0xe1);
    let mut names = Guarded::new(&pattern(areas[1]), 0xe2);
    let mut out = [u64::MAX; 2];
    let refusal = raw::read_rules(lent_text.area(), image.area(), names.area(), &mut out);
    let call = || describe(text, areas);

    let (wanted_refusal, wanted_out, wanted_image, wanted_names) = match wanted {
        Ok(reading) => {
            let image = reading.image();
            let length = image.len() as u64;
            (
                0,
                [length, 0],
                written(areas[0], &image),
                written(areas[1], &reading.slots()),
            )
        }
        Err(refused) => (
            refused.refusal,
            [0, refused.place as u64],
            pattern(areas[0]),
            pattern(areas[1]),
        ),
    };
    assert_eq!(
        (refusal, out),
        (wanted_refusal, wanted_out),
        "refusal and out; {}",
        call()
    );
    image.expect(&wanted_image, "image", &call);
    names.expect(&wanted_names, "names", &call);
    lent_text.expect(text, "text", &call);
}

/// Reads a text into areas of these lengths, compares with the reference, and returns what it says.
#[track_caller]
pub fn read_into(text: &[u8], areas: [usize; 2]) -> Result<Reading, Refused> {
    let wanted = reader::read_rules(text, areas[0], areas[1]);
    expect(text, areas, &wanted);
    wanted
}

/// The same with areas that are just long enough.
#[track_caller]
pub fn read(text: &[u8]) -> Result<Reading, Refused> {
    read_into(text, [IMAGE_AREA, NAME_AREA])
}

/// The same with areas just long enough, longer, and too short by one byte. Returns what the reference
/// says of those that are long enough.
#[track_caller]
pub fn read_into_all(text: &[u8]) -> Result<Reading, Refused> {
    let reading = read(text);
    for areas in [[IMAGE_AREA + 1, NAME_AREA], [IMAGE_AREA, NAME_AREA + 1]] {
        assert_eq!(read_into(text, areas), reading);
    }
    assert_eq!(read_into(text, [IMAGE_AREA + 300, NAME_AREA + 70]), reading);
    for areas in [
        [IMAGE_AREA - 1, NAME_AREA],
        [IMAGE_AREA, NAME_AREA - 1],
        [IMAGE_AREA - 1, NAME_AREA - 1],
        [IMAGE_AREA - 1, NAME_AREA + 1],
        [IMAGE_AREA + 1, NAME_AREA - 1],
    ] {
        let refused = read_into(text, areas).expect_err("an area is too short");
        assert!(refused.refusal <= reader::SHORT_TEXT_AREA);
    }
    reading
}

/// Expects that a text is refused with this number at this place, by the library and by the reference.
#[track_caller]
pub fn expect_refused(text: impl AsRef<[u8]>, refusal: u32, place: usize) {
    let text = text.as_ref();
    let refused = Err(Refused { refusal, place });
    expect(text, [IMAGE_AREA, NAME_AREA], &refused);
    assert_eq!(
        reader::read_rules(text, IMAGE_AREA, NAME_AREA),
        refused,
        "the reference; {}",
        describe(text, [IMAGE_AREA, NAME_AREA])
    );
}

/// How often each refusal was seen, 0 for none, so that a test that sees only some of them is noticed.
#[derive(Debug, Default)]
pub struct Tally {
    counts: [usize; 7],
}

impl Tally {
    /// Counts what the reference said.
    pub fn add(&mut self, result: &Result<Reading, Refused>) {
        let number = match result {
            Ok(_) => 0,
            Err(refused) => refused.refusal,
        };
        self.counts[number as usize] += 1;
    }

    /// Expects that no text was too long and no area too short, and that good texts and refusals 3 to 6
    /// were seen at least so often.
    #[track_caller]
    pub fn expect(&self, good: usize, refusals: [usize; 4]) {
        let [seen, 0, 0, others @ ..] = self.counts else {
            panic!("{self:?}");
        };
        assert!(seen >= good, "{self:?}");
        assert!((0..4).all(|i| others[i] >= refusals[i]), "{self:?}");
    }
}
