//! The two directions, and the line in a history. Only the form of fields is tested here: what a name
//! may be, and that names stand first, is for `replay` to judge, so that a broken list can be tried
//! too.

const FIELD_MAX: usize = 4096;
const NAME: u8 = 1;
const RECEIVED: u8 = 2;
const TICK: u8 = 3;

pub fn to_history(text: &[u8]) -> Result<Vec<u8>, String> {
    let text = std::str::from_utf8(text).map_err(|_| "the text is not UTF-8".to_string())?;
    let mut history = Vec::new();
    for (number, line) in text.lines().enumerate() {
        let line = line.split('#').next().unwrap_or_default();
        write_line(line, &mut history).map_err(|fault| format!("line {}: {fault}", number + 1))?;
    }
    Ok(history)
}

fn write_line(line: &str, history: &mut Vec<u8>) -> Result<(), String> {
    let words: Vec<&str> = line.split_whitespace().collect();
    match words.as_slice() {
        [] => Ok(()),
        ["name", name] => write_field(NAME, name.as_bytes(), history),
        ["bytes", digits @ ..] => write_bytes(&digits.concat(), history),
        ["tick"] => write_field(TICK, &[], history),
        ["tick", count] => {
            let count: u32 = count.parse().map_err(|_| format!("no number of ticks: {count}"))?;
            (0..count).try_for_each(|_| write_field(TICK, &[], history))
        }
        [word, ..] => Err(format!("neither a name nor bytes nor a tick: {word}")),
    }
}

/// More bytes than a field holds go into several: the cuts do not matter.
fn write_bytes(digits: &str, history: &mut Vec<u8>) -> Result<(), String> {
    let digit = |place: usize| {
        let found = digits.as_bytes().get(place).copied().map(char::from);
        let value = found.and_then(|digit| digit.to_digit(16));
        value.map(|value| value as u8).ok_or("bytes are pairs of hexadecimal digits".to_string())
    };
    let bytes: Vec<u8> = (0..digits.len())
        .step_by(2)
        .map(|place| Ok(digit(place)? * 16 + digit(place + 1)?))
        .collect::<Result<_, String>>()?;
    if bytes.is_empty() {
        return write_field(RECEIVED, &[], history);
    }
    let mut pieces = bytes.chunks(FIELD_MAX);
    pieces.try_for_each(|piece| write_field(RECEIVED, piece, history))
}

fn write_field(tag: u8, value: &[u8], history: &mut Vec<u8>) -> Result<(), String> {
    let length = u16::try_from(value.len()).map_err(|_| "too long for a field".to_string())?;
    history.push(tag);
    history.extend(length.to_be_bytes());
    history.extend(value);
    Ok(())
}

/// A good field.
enum Field<'a> {
    Name(&'a str),
    Received(&'a [u8]),
    Tick,
}

pub fn from_history(history: &[u8]) -> Result<Vec<u8>, String> {
    let mut text = String::new();
    let mut ticks = 0;
    for field in fields(history)? {
        match field {
            Field::Tick => ticks += 1,
            Field::Name(name) => {
                write_ticks(&mut text, &mut ticks);
                text.push_str(&format!("name {name}\n"));
            }
            Field::Received(bytes) => {
                write_ticks(&mut text, &mut ticks);
                let digits: String = bytes.iter().map(|byte| format!(" {byte:02x}")).collect();
                text.push_str(&format!("bytes{digits}\n"));
            }
        }
    }
    write_ticks(&mut text, &mut ticks);
    Ok(text.into_bytes())
}

/// The bytes of the line, from the first piece to the last.
pub fn line_in(history: &[u8]) -> Result<Vec<u8>, String> {
    let pieces = fields(history)?.into_iter().map(|field| match field {
        Field::Received(bytes) => bytes,
        Field::Name(_) | Field::Tick => &[],
    });
    Ok(pieces.collect::<Vec<_>>().concat())
}

fn fields(history: &[u8]) -> Result<Vec<Field<'_>>, String> {
    let mut fields = Vec::new();
    let mut at = 0;
    while at < history.len() {
        let broken = || format!("the field at byte {at} is broken");
        let (tag, value) = read_field(&history[at..]).ok_or_else(broken)?;
        fields.push(field_of(tag, value).ok_or_else(broken)?);
        at += 3 + value.len();
    }
    Ok(fields)
}

fn read_field(bytes: &[u8]) -> Option<(u8, &[u8])> {
    let (head, rest) = bytes.split_at_checked(3)?;
    let length = usize::from(u16::from_be_bytes([head[1], head[2]]));
    Some((head[0], rest.get(..length)?))
}

fn field_of(tag: u8, value: &[u8]) -> Option<Field<'_>> {
    match tag {
        NAME if !value.is_empty() && value.iter().all(|&byte| is_word_byte(byte)) => {
            std::str::from_utf8(value).ok().map(Field::Name)
        }
        RECEIVED if value.len() <= FIELD_MAX => Some(Field::Received(value)),
        TICK if value.is_empty() => Some(Field::Tick),
        _ => None,
    }
}

/// A name of other bytes would not be read back from its line.
fn is_word_byte(byte: u8) -> bool {
    byte.is_ascii_graphic() && byte != b'#'
}

fn write_ticks(text: &mut String, ticks: &mut u32) {
    match *ticks {
        0 => {}
        1 => text.push_str("tick\n"),
        count => text.push_str(&format!("tick {count}\n")),
    }
    *ticks = 0;
}

#[cfg(test)]
mod both_directions {
    use super::{from_history, line_in, to_history};

    #[test]
    fn a_text_gives_its_fields() {
        let text = b"# two hives\nname h1\n\nbytes 7e 01ff # a start\ntick\ntick 2\n";
        let history = b"\x01\x00\x02h1\x02\x00\x03\x7e\x01\xff\x03\x00\x00\x03\x00\x00\x03\x00\x00";
        assert_eq!(to_history(text).unwrap(), history);
        assert_eq!(from_history(history).unwrap(), b"name h1\nbytes 7e 01 ff\ntick 3\n");
    }

    #[test]
    fn a_history_read_and_written_is_the_same() {
        for count in [0, 1, 2, 4095, 4096] {
            let value: Vec<u8> = (0..count).map(|place| place as u8).collect();
            let mut history = b"\x01\x00\x03h-1".to_vec();
            history.push(2);
            history.extend((count as u16).to_be_bytes());
            history.extend(value);
            history.extend(b"\x03\x00\x00");
            assert_eq!(to_history(&from_history(&history).unwrap()).unwrap(), history);
        }
    }

    #[test]
    fn the_line_is_the_received_bytes() {
        let history = b"\x01\x00\x02h1\x02\x00\x02\x7e\x7d\x03\x00\x00\x02\x00\x00\x02\x00\x01\x7e";
        assert_eq!(line_in(history).unwrap(), b"\x7e\x7d\x7e");
        assert_eq!(line_in(b"").unwrap(), b"");
    }

    #[test]
    fn long_lines_go_into_several_fields() {
        let text = format!("bytes {}", "5a".repeat(4097));
        let history = to_history(text.as_bytes()).unwrap();
        assert_eq!(history.len(), 3 + 4096 + 3 + 1);
        assert_eq!(history[..3], [2, 0x10, 0]);
        assert_eq!(history[4099..], [2, 0, 1, 0x5a]);
    }

    #[test]
    fn faults_are_named_by_their_place() {
        for (text, fault) in [
            ("name h1\nbytes 7", "line 2: bytes are pairs of hexadecimal digits"),
            ("bytes 7g", "line 1: bytes are pairs of hexadecimal digits"),
            ("tick soon", "line 1: no number of ticks: soon"),
            ("hive h1", "line 1: neither a name nor bytes nor a tick: hive"),
        ] {
            assert_eq!(to_history(text.as_bytes()).unwrap_err(), fault);
        }
        for (history, at) in [
            (&b"\x03\x00\x00\x02\x00\x05\x7e"[..], 3),
            (b"\x04\x00\x00", 0),
            (b"\x03\x00\x01\x00", 0),
            (b"\x01\x00", 0),
        ] {
            let fault = format!("the field at byte {at} is broken");
            assert_eq!(from_history(history).unwrap_err(), fault);
            assert_eq!(line_in(history).unwrap_err(), fault);
        }
    }
}
