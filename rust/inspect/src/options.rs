//! The arguments.
use crate::{LARGEST, TABLES, rows::Asked};
use std::{
    ffi::{OsStr, OsString},
    os::unix::ffi::OsStringExt,
};

pub const HELP: &str = "\
inspect [options] IMAGE

Says what is in a board's two timetable banks: each bank's header, or why it is
refused and what happened to it; the bank that load gives, its key and sources.

  IMAGE                the region of 983040 bytes, or a whole flash dump with
                       the region at 3145728 (0x300000): 4194304, 8388608 or
                       16777216 bytes; - for standard input. It is only read
  --offset BYTES       where the region starts in a dump, in decimal
  --sample             samples/two-good.img below the current folder
  --                   what follows is an image
  --bank N             ask of bank 0 or 1, also one that load doesn't give
  --now SECONDS        the time to ask freshness at, signed
  --days D1,D2,D3      three days to ask freshness for, each as year x 10000 +
                       month x 100 + day; needs --now
  --wanted F,F,F       which of the three days are wanted: y or n; default y,y,y
  --identity TEXT      the identity of the selection to match
  --pick LINE ROUTE CODE STOP NAME
                       one pick of the selection, '' for an empty field; may be
                       repeated
  --match              match the selection, also one without identity and picks
  --rows SOURCE TABLE  the stored rows of a table of a source: SOURCE is 0, 1, 2
                       or all, TABLE a table's name or all
  --help               this text

With wrong arguments, an image of another size or one that can't be read, one
line is on standard error and nothing on standard output.
";

#[derive(Default)]
pub struct Selection {
    pub identity: Vec<u8>,
    /// Line, route, stop code, stop, stop name.
    pub picks: Vec<[String; 5]>,
}

#[derive(Default)]
pub struct Options {
    pub image: Option<OsString>,
    pub sample: bool,
    pub offset: Option<usize>,
    pub bank: Option<u32>,
    pub now: Option<i64>,
    pub days: Option<[u32; 3]>,
    pub wanted: [bool; 3],
    pub selection: Option<Selection>,
    pub rows: Option<Asked>,
}

/// What is there, or a message that says what is needed.
fn needed<T>(what: &str, found: Option<T>) -> Result<T, String> {
    found.ok_or(format!("{what}; see inspect --help"))
}

fn digits(text: &str) -> bool {
    !text.is_empty() && text.bytes().all(|b| b.is_ascii_digit())
}

fn seconds(text: &OsStr) -> Option<i64> {
    let text = text.to_str()?;
    text.parse().ok().filter(|_| digits(text.strip_prefix('-').unwrap_or(text)))
}

fn day(text: &str) -> Option<u32> {
    text.parse().ok().filter(|_| digits(text))
}

fn flag(text: &str) -> Option<bool> {
    match text {
        "y" => Some(true),
        "n" => Some(false),
        _ => None,
    }
}

fn three<T>(text: &OsStr, part: impl Fn(&str) -> Option<T>) -> Option<[T; 3]> {
    let parts: Option<Vec<T>> = text.to_str()?.split(',').map(part).collect();
    parts?.try_into().ok()
}

/// A pick from five arguments.
fn pick(mut value: impl FnMut(&str) -> Result<OsString, String>) -> Result<[String; 5], String> {
    let mut pick: [String; 5] = Default::default();
    for field in &mut pick {
        let text = value("--pick needs five texts: line, route, stop code, stop, stop name")?;
        *field = text
            .into_string()
            .map_err(|text| format!("--pick: {} isn't UTF-8", text.to_string_lossy()))?;
    }
    Ok(pick)
}

/// The rows asked for; none if the words mean none.
fn asked(source: &OsStr, table: &OsStr) -> Option<Asked> {
    let source = match source.to_str()? {
        "all" => None,
        digit @ ("0" | "1" | "2") => digit.parse().ok(),
        _ => return None,
    };
    let table = match table.to_str()? {
        "all" => None,
        name => Some(TABLES.iter().position(|t| *t == name)?),
    };
    Some(Asked { source, table })
}

impl Options {
    /// Sets what an option says; `value` gives the arguments after it.
    fn set(
        &mut self,
        option: &str,
        mut value: impl FnMut(&str) -> Result<OsString, String>,
    ) -> Result<(), String> {
        match option {
            "--sample" => self.sample = true,
            "--offset" => {
                let what = "--offset needs a number of bytes, at most 16777216";
                let bytes = value(what)?;
                let bytes = bytes.to_str().filter(|text| digits(text));
                let bytes = bytes.and_then(|text| text.parse().ok());
                self.offset = Some(needed(what, bytes.filter(|n| *n <= LARGEST))?);
            }
            "--bank" => {
                let what = "--bank needs 0 or 1";
                self.bank = Some(match value(what)?.to_str() {
                    Some("0") => 0,
                    Some("1") => 1,
                    _ => return needed(what, None),
                });
            }
            "--now" => {
                let what = "--now needs a number of seconds";
                self.now = Some(needed(what, seconds(&value(what)?))?);
            }
            "--days" => {
                let what = "--days needs three numbers as D1,D2,D3";
                self.days = Some(needed(what, three(&value(what)?, day))?);
            }
            "--wanted" => {
                let what = "--wanted needs y or n three times, as y,y,n";
                self.wanted = needed(what, three(&value(what)?, flag))?;
            }
            "--identity" => {
                let text = value("--identity needs a text")?;
                self.selection.get_or_insert_default().identity = text.into_vec();
            }
            "--pick" => self.selection.get_or_insert_default().picks.push(pick(value)?),
            "--match" => {
                self.selection.get_or_insert_default();
            }
            "--rows" => {
                let what = "--rows needs a source (0, 1, 2 or all) and a table's name or all";
                let words = [value(what)?, value(what)?];
                self.rows = Some(needed(what, asked(&words[0], &words[1]))?);
            }
            _ => return Err(format!("there is no option {option}; see inspect --help")),
        }
        Ok(())
    }
}

const NO_IMAGE: &str = "no image is named; usage: inspect [options] IMAGE, or inspect --sample for the one in samples/";

/// The arguments as options; none if help is asked for.
pub fn read(mut arguments: impl Iterator<Item = OsString>) -> Result<Option<Options>, String> {
    let mut options = Options { wanted: [true; 3], ..Options::default() };
    let mut images_only = false;
    while let Some(argument) = arguments.next() {
        match argument.to_str() {
            Some("") => return needed(NO_IMAGE, None),
            Some("--help" | "-h") if !images_only => return Ok(None),
            Some("--") if !images_only => images_only = true,
            Some(option) if option.starts_with('-') && option != "-" && !images_only => {
                options.set(option, |what| needed(what, arguments.next()))?;
            }
            _ if options.image.is_some() => return needed("one image at a time", None),
            _ => options.image = Some(argument),
        }
    }
    if options.days.is_some() && options.now.is_none() {
        return needed("--days needs --now", None);
    }
    match (&options.image, options.sample) {
        (None, false) => needed(NO_IMAGE, None),
        (Some(_), true) => needed("one image at a time", None),
        _ => Ok(Some(options)),
    }
}
