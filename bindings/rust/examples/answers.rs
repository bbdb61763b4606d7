//! What the crate answers of each of the cases of `bindings/together`, in lines like those of `bindings/together/answers.c`: `answers FILE [CALLS]`.

use borsh_proved::{compare, Answer, Error, ErrorKind, Schema, Style};
use std::fs::File;
use std::io::{self, BufRead, BufReader, BufWriter, Write};

/// What `mallinfo2` of the GNU C library returns.
#[repr(C)]
struct Heap {
    fields: [usize; 7],
    taken: usize,
    others: [usize; 2],
}

extern "C" {
    fn mallinfo2() -> Heap;
}

/// How many bytes are taken of the heap.
fn taken() -> usize {
    // SAFETY: it has no argument, and returns ten numbers.
    unsafe { mallinfo2() }.taken
}

fn bytes_of(digits: &str) -> Vec<u8> {
    let pairs = digits.as_bytes().chunks_exact(2);
    pairs
        .filter_map(|pair| u8::from_str_radix(std::str::from_utf8(pair).ok()?, 16).ok())
        .collect()
}

/// Names that were changed may have characters that end a line, or part what is in it.
fn plain(text: &str) -> String {
    text.replace(|it: char| it < ' ', "?")
}

/// The answers, and how many calls were made for them.
struct Answers<W> {
    to: W,
    calls: usize,
}

impl<W: Write> Answers<W> {
    fn refusal(&mut self, error: &Error) -> io::Result<()> {
        let code = match error.kind() {
            ErrorKind::No => 1,
            _ => error.code(),
        };
        let offset = error.offset().map(|it| it.to_string());
        let path = error.path().unwrap_or_default();
        let told = format!("{code}|{path}|{}|{error}", offset.unwrap_or_default());
        write!(self.to, "{}", plain(&told))
    }

    /// A yes, with what is written behind it, or the refusal.
    fn answer(&mut self, answer: Result<String, Error>) -> io::Result<()> {
        self.calls += 1;
        match answer {
            Ok(text) => write!(self.to, "0{text}"),
            Err(error) => self.refusal(&error),
        }
    }

    fn schema(&mut self, encoding: &[u8]) -> io::Result<Result<Schema, Error>> {
        let made = Schema::new(encoding);
        self.answer(
            made.clone()
                .and_then(|it| it.validate())
                .map(|()| String::new()),
        )?;
        write!(self.to, " ; ")?;
        self.answer(
            made.clone()
                .and_then(|it| it.max_size())
                .map(|size| format!(" {size}")),
        )?;
        writeln!(self.to)?;
        Ok(made)
    }

    fn types(&mut self, items: &str, name: &str, old: &Schema, new: &Schema) -> io::Result<()> {
        let digits = |it: Schema| {
            it.as_bytes()
                .iter()
                .map(|byte| format!("{byte:02x}"))
                .collect::<String>()
        };
        self.answer(Schema::parse(items, name).map(|it| format!(" {}", digits(it))))?;
        let compared = compare(old, new).map_err(io::Error::other)?;
        self.calls += 1;
        let code = match compared.answer() {
            Answer::Same | Answer::Compatible => 0,
            Answer::Incompatible => 1,
            Answer::NotKnown => 5,
        };
        writeln!(self.to, " ; {code} {}", plain(&compared.to_string()))
    }

    fn value(&mut self, schema: &Schema, value: &[u8]) -> io::Result<()> {
        self.answer(schema.check(value).map(|()| String::new()))?;
        write!(self.to, " ; ")?;
        self.calls += 1;
        match schema.to_json(value, Style::COMPACT) {
            Ok(json) => {
                write!(self.to, "{json} ; ")?;
                let again = schema.from_json(&json);
                let rest = |again: Vec<u8>| {
                    if again == value {
                        String::new()
                    } else {
                        format!(" {again:x?}")
                    }
                };
                self.answer(again.map(rest))?;
            }
            Err(error) => self.refusal(&error)?,
        }
        writeln!(self.to)
    }

    fn case(&mut self, line: &str) -> io::Result<()> {
        let words: Vec<&str> = line.split(' ').collect();
        let number = |text: &str| text.parse::<usize>().map_err(io::Error::other);
        let mut encoding = bytes_of(words[0]);
        let (at, mask) = (number(words[1])?, number(words[2])? as u8);
        let (mut value, masks) = (bytes_of(words[3]), bytes_of(words[4]));
        let schema = self.schema(&encoding)?.map_err(io::Error::other)?;
        encoding[at] ^= mask;
        let other = self.schema(&encoding)?.unwrap_or_else(|_| schema.clone());
        let text = |word| String::from_utf8(bytes_of(word)).map_err(io::Error::other);
        self.types(&text(words[5])?, &text(words[6])?, &schema, &other)?;
        self.value(&schema, &value)?;
        for at in 0..value.len() {
            value[at] ^= masks[at];
            self.value(&schema, &value)?;
            value[at] ^= masks[at];
        }
        Ok(())
    }
}

fn main() -> io::Result<()> {
    let mut words = std::env::args().skip(1);
    let file = File::open(words.next().unwrap_or_default())?;
    let most: usize = words.next().and_then(|it| it.parse().ok()).unwrap_or(0);
    if most == 0 {
        let to = BufWriter::new(io::stdout().lock());
        let mut answers = Answers { to, calls: 0 };
        for line in BufReader::new(file).lines() {
            answers.case(&line?)?;
        }
        return answers.to.flush();
    }
    // Lines are read before, so that nothing but the calls takes memory.
    let lines: Vec<String> = BufReader::new(file).lines().collect::<Result<_, _>>()?;
    let mut answers = Answers {
        to: io::sink(),
        calls: 0,
    };
    let mut before = None;
    for line in lines.iter().cycle() {
        answers.case(line)?;
        if before.is_none() && answers.calls >= most / 10 {
            answers.calls = 0;
            before = Some(taken());
        }
        if let (Some(before), true) = (before, answers.calls >= most) {
            println!("{before} {}", taken());
            return Ok(());
        }
    }
    Ok(())
}
