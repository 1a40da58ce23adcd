//! The text format, as requests are read. Only what cannot be a request is refused here: whether
//! pm-remez takes it is for pm-remez to say.

use pm_remez::Symmetry;

use crate::design::Request;
use crate::plan::{Band, Value};

/// The words of one line, taken one after another.
struct Words<'a>(std::str::Split<'a, char>);

type Read<A> = Result<A, String>;

impl<'a> Words<'a> {
    fn of(line: &'a str) -> Words<'a> {
        Words(line.split(' '))
    }

    fn word(&mut self, what: &str) -> Read<&'a str> {
        self.0.next().ok_or(format!("{what} is missing"))
    }

    fn end(mut self) -> Read<()> {
        match self.0.next() {
            None => Ok(()),
            Some(word) => Err(format!("one word too many: '{word}'")),
        }
    }

    /// A whole number in decimal, with no sign and no leading zero, at most `most`.
    fn whole(&mut self, what: &str, most: usize) -> Read<usize> {
        let word = self.word(what)?;
        let digits = !word.is_empty() && word.bytes().all(|byte| byte.is_ascii_digit());
        let plain = word == "0" || !word.starts_with('0');
        match word.parse() {
            Ok(n) if digits && plain && n <= most => Ok(n),
            _ => Err(format!(
                "{what} must be a whole number from 0 to {most}, not '{word}'"
            )),
        }
    }

    /// A number by the 16 lowercase hex digits of its bits.
    fn number(&mut self, what: &str) -> Read<f64> {
        let word = self.word(what)?;
        let digits = word.len() == 16
            && word
                .bytes()
                .all(|byte| matches!(byte, b'0'..=b'9' | b'a'..=b'f'));
        match u64::from_str_radix(word, 16) {
            Ok(bits) if digits => Ok(f64::from_bits(bits)),
            _ => Err(format!(
                "{what} must be 16 lowercase hex digits, not '{word}'"
            )),
        }
    }
}

/// The sizes that an image's fields have bound these numbers too.
const WORD: usize = 65535;
const BYTE: usize = 255;

/// A request line; the second number is how many band lines follow.
fn request(mut words: Words) -> Read<(Request, usize)> {
    let request = Request {
        taps: words.whole("TAPS", WORD)?,
        symmetry: match words.whole("SYMMETRY", 1)? {
            0 => Symmetry::Even,
            _ => Symmetry::Odd,
        },
        degree: words.whole("DEGREE", BYTE)?,
        allowed: words.whole("ALLOWED", BYTE)?,
        threshold: words.number("THRESHOLD")?,
        bands: Vec::new(),
    };
    let bands = words.whole("BANDS", BYTE)?;
    words.end()?;
    Ok((request, bands))
}

fn value(kind: usize, v0: f64, v1: f64, what: &str) -> Read<Value> {
    if kind == 1 {
        Ok(Value::Linear(v0, v1))
    } else if v0.to_bits() == v1.to_bits() {
        Ok(Value::Constant(v0))
    } else {
        Err(format!("a constant {what} must repeat its number"))
    }
}

fn band(mut words: Words) -> Read<Band> {
    let desired_kind = words.whole("DKIND", 1)?;
    let weight_kind = words.whole("WKIND", 1)?;
    let mut next = |what| words.number(what);
    let (begin, end) = (next("BEGIN")?, next("END")?);
    let (d0, d1) = (next("D0")?, next("D1")?);
    let (w0, w1) = (next("W0")?, next("W1")?);
    words.end()?;
    Ok(Band {
        begin,
        end,
        desired: value(desired_kind, d0, d1, "desired value")?,
        weight: value(weight_kind, w0, w1, "weight")?,
    })
}

/// Reads requests. Comments, empty lines and answers between them are passed over, so a list that
/// this program wrote can be asked again.
pub fn requests(text: &str) -> Result<Vec<Request>, String> {
    let mut read: Vec<Request> = Vec::new();
    let mut owed = 0;
    let mut last = 0;
    for (place, line) in text.lines().enumerate() {
        last = place + 1;
        let at = |message: String| format!("line {last}: {message}");
        if line.is_empty() || line.starts_with('#') {
            continue;
        }
        let mut words = Words::of(line);
        let keyword = words.word("the keyword").map_err(at)?;
        match (keyword, read.last_mut()) {
            ("band", Some(under)) if owed > 0 => {
                under.bands.push(band(words).map_err(at)?);
                owed -= 1;
            }
            (_, _) if owed > 0 => {
                return Err(at(format!("a band line is owed here ({owed} to come)")));
            }
            ("band", _) => return Err(at("no band line is owed here".to_string())),
            ("request", _) => {
                let (request, bands) = request(words).map_err(at)?;
                read.push(request);
                owed = bands;
            }
            ("answer" | "taps" | "frequencies", Some(_)) => (),
            _ => return Err(at(format!("unknown keyword '{keyword}'"))),
        }
    }
    if owed > 0 {
        return Err(format!(
            "line {}: the text ends where a band line is owed ({owed} to come)",
            last + 1
        ));
    }
    Ok(read)
}
