/*!
The program `watch`, computed naively.

[`watch`] gives all that the program writes to standard output for an input. The input is cut at its first
`%`. What stands before is read by the [`reader`](crate::reader); each run behind is a name, offered to a
[`State`] of the [`monitor`](crate::monitor). A line is a list of parts, joined by spaces at the end.
*/

use crate::monitor::{Answer, State, NO_EVENT};
use crate::reader::{read_rules, runs, Name, Reading, Refused, IMAGE_AREA, NAME_AREA};

/// The most bytes of an input.
pub const MAX_INPUT_BYTES: usize = 20_480;
/// The fuel of each offer.
pub const FUEL: u32 = 1_000;

/// What the program writes to standard output for this input.
pub fn watch(input: &[u8]) -> Vec<u8> {
    if input.len() > MAX_INPUT_BYTES {
        return b"input too long\n".to_vec();
    }
    let (text, behind) = cut(input);
    // The program's areas are long enough, so 2 is never its refusal.
    match read_rules(text, IMAGE_AREA, NAME_AREA) {
        Ok(reading) => lines(&reading, behind),
        Err(Refused { refusal, place }) => {
            format!("rules refused {refusal} {place}\n").into_bytes()
        }
    }
}

/// What stands before the first `%` and what stands behind it; without one, all and nothing.
fn cut(input: &[u8]) -> (&[u8], &[u8]) {
    match input.iter().position(|&byte| byte == b'%') {
        Some(place) => (&input[..place], &input[place + 1..]),
        None => (input, &[]),
    }
}

/// The lines of the names behind the `%`, in order, each offered to what the ones before left.
fn lines(reading: &Reading, behind: &[u8]) -> Vec<u8> {
    let mut state = State::default();
    let mut lines = Vec::new();
    for (_, name) in runs(behind) {
        let parts = match offer(reading, &mut state, name) {
            Ok((answer, steps, rewrites)) => vec![
                name.to_vec(),
                answer,
                steps.to_string().into_bytes(),
                rewrites.to_string().into_bytes(),
                string(reading, &state),
            ],
            Err(refusal) => vec![
                name.to_vec(),
                b"refused".to_vec(),
                refusal.to_string().into_bytes(),
            ],
        };
        lines.extend(parts.join(&b' '));
        lines.push(b'\n');
    }
    lines
}

/// Offers a name: the answer's word, the steps and the rewrites, or a refusal.
fn offer(reading: &Reading, state: &mut State, name: &[u8]) -> Result<(Vec<u8>, u64, u64), u32> {
    // A name that no symbol has is no event either.
    let symbol = reading.symbols.iter().position(|other| other == name);
    let event = symbol.ok_or(NO_EVENT)? as u8;
    if let Some(refusal) = state.refuses(&reading.set, event) {
        return Err(refusal);
    }
    state.waiting.push(event);
    let (answer, counts) = state.run(&reading.set, FUEL);
    let word = match answer {
        Answer::Quiet => b"quiet".to_vec(),
        Answer::Spent => b"spent".to_vec(),
        Answer::Full => b"full".to_vec(),
        Answer::Verdict(verdict) => [b"#", &reading.verdicts[usize::from(verdict)][..]].concat(),
    };
    Ok((word, counts.steps, counts.rewrites))
}

/// The names of the symbols held, settled and then waiting, joined by commas; `-` for none.
fn string(reading: &Reading, state: &State) -> Vec<u8> {
    let names: Vec<Name> = state
        .string()
        .iter()
        .map(|&symbol| reading.symbols[usize::from(symbol)].clone())
        .collect();
    if names.is_empty() {
        b"-".to_vec()
    } else {
        names.join(&b',')
    }
}

#[cfg(test)]
mod tests {
    use super::*;
    use crate::monitor::{self, Lent, Memory};
    use crate::random::{Habit, Random};
    use crate::texts::{self, Naming, Spacing};

    fn written(input: &str) -> String {
        String::from_utf8(watch(input.as_bytes())).unwrap()
    }

    #[test]
    fn sample() {
        assert_eq!(
            written(
                "events lock take free . lock take -> held . held free -> #epsilon . \
                 take -> #fail . % lock take free take"
            ),
            "lock quiet 1 0 lock\n\
             take quiet 2 1 held\n\
             free quiet 1 1 -\n\
             take #fail 1 1 -\n"
        );
    }

    /// A marked rule, and a `^` behind the `%`, which is an unknown name.
    #[test]
    fn marks() {
        assert_eq!(
            written("events lock take . ^ take -> #fail . lock lock -> #epsilon . % lock take ^ ^take lock"),
            "lock quiet 1 0 lock\n\
             take quiet 1 0 lock,take\n\
             ^ refused 12\n\
             ^take refused 12\n\
             lock quiet 1 0 lock,take,lock\n"
        );
        assert_eq!(
            written(
                "events lock take . ^ take -> #fail . lock lock -> #epsilon . % lock lock take"
            ),
            "lock quiet 1 0 lock\nlock quiet 1 1 -\ntake #fail 1 1 -\n"
        );
        assert_eq!(written("events a . a ^ -> a . % a"), "rules refused 4 13\n");
    }

    #[test]
    fn cuts() {
        assert_eq!(cut(b""), (&b""[..], &b""[..]));
        assert_eq!(cut(b"a b"), (&b"a b"[..], &b""[..]));
        assert_eq!(cut(b"%"), (&b""[..], &b""[..]));
        assert_eq!(cut(b"a%b%c"), (&b"a"[..], &b"b%c"[..]));
    }

    #[test]
    fn refusals() {
        assert_eq!(written(""), "rules refused 4 0\n");
        assert_eq!(written("events a . a% a"), "rules refused 4 12\n");
        assert_eq!(written("events a . a -> b #x .% a"), "rules refused 4 18\n");
        assert_eq!(written(&" ".repeat(16_385)), "rules refused 1 0\n");
        assert_eq!(written(&"%".repeat(20_481)), "input too long\n");
        assert_eq!(
            written("events a . a -> #x . b -> b .% a a b c"),
            "a #x 1 1 -\na refused 14\nb refused 12\nc refused 12\n"
        );
    }

    /// The lines are those of the monitor's offers with all their checks.
    #[test]
    fn lines_of_offers() {
        let mut random = Random::new(3);
        for habit in Habit::ALL {
            for _ in 0..20 {
                let set = habit.either(&mut random);
                let text = texts::write(&mut random, &set, Naming::Short, Spacing::One);
                let (mut input, reading) = (text.text, text.reading);
                let lent = Lent::of(&reading.set);
                let mut memory = Memory::empty();
                let mut expected = Vec::new();
                input.extend(b"%");
                for _ in 0..10 {
                    let symbol = random.below(reading.symbols.len());
                    let name = reading.symbols[symbol].clone();
                    input.extend([&name[..], b" "].concat());
                    let outcome = monitor::offer(&lent, &memory, symbol as u8, 1_000);
                    memory = outcome.memory;
                    let [answer, steps, rewrites, _] = outcome.out;
                    let answer = match answer {
                        0 => "quiet".to_string(),
                        1 => "spent".to_string(),
                        2 => "full".to_string(),
                        _ => {
                            let verdict = &reading.verdicts[answer as usize - 16];
                            format!("#{}", String::from_utf8_lossy(verdict))
                        }
                    };
                    let (a, w) = (memory.head[0] as usize, memory.head[1] as usize);
                    let held = [&memory.bytes[..a], &memory.bytes[2_048 - w..]].concat();
                    let held: Vec<String> = held
                        .iter()
                        .map(|&symbol| &reading.symbols[usize::from(symbol)])
                        .map(|name| String::from_utf8_lossy(name).into_owned())
                        .collect();
                    let held = match held.len() {
                        0 => "-".to_string(),
                        _ => held.join(","),
                    };
                    let name = String::from_utf8_lossy(&name);
                    expected.push(match outcome.refusal {
                        0 => format!("{name} {answer} {steps} {rewrites} {held}\n"),
                        refusal => format!("{name} refused {refusal}\n"),
                    });
                }
                assert_eq!(String::from_utf8(watch(&input)).unwrap(), expected.concat());
            }
        }
    }
}
