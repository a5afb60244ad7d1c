//! The bench program, from docs/BENCH.md: a line is read loosely into a command, and is that command where the text of
//! the command is the line again.

use crate::aes::{Aes, Cascade};
use crate::hex;
use crate::mode::{Bench, Block, Cipher};
use crate::record::Sheet;
use crate::skinny::Skinny;
use crate::store::{Geometry, Refusal, Store};
use std::io::{BufRead, Result as Io, Write};

/// One of the three ciphers.
enum Any {
    Skinny(Skinny),
    Cascade(Cascade),
    Bench(Bench),
}

impl Any {
    fn new(letter: char, key: Block) -> Option<Any> {
        match letter {
            's' => Some(Any::Skinny(Skinny::new(key))),
            'a' => Some(Any::Cascade(Cascade(Aes::new(key)))),
            'x' => Some(Any::Bench(Bench)),
            _ => None,
        }
    }

    /// The same cipher under another key.
    fn with_key(&self, key: Block) -> Any {
        match self {
            Any::Skinny(_) => Any::Skinny(Skinny::new(key)),
            Any::Cascade(_) => Any::Cascade(Cascade(Aes::new(key))),
            Any::Bench(_) => Any::Bench(Bench),
        }
    }
}

impl Cipher for Any {
    fn encrypt(&self, head: &Block, body: &Block, block: &Block) -> Block {
        match self {
            Any::Skinny(c) => c.encrypt(head, body, block),
            Any::Cascade(c) => c.encrypt(head, body, block),
            Any::Bench(c) => c.encrypt(head, body, block),
        }
    }

    fn decrypt(&self, head: &Block, body: &Block, block: &Block) -> Block {
        match self {
            Any::Skinny(c) => c.decrypt(head, body, block),
            Any::Cascade(c) => c.decrypt(head, body, block),
            Any::Bench(c) => c.decrypt(head, body, block),
        }
    }
}

enum Command {
    Form(char, usize, usize),
    Put(usize, [i64; 7]),
    Get(usize),
    Clear(usize),
    Page(usize),
    Change(Block),
}

impl Command {
    fn text(&self) -> String {
        match self {
            Command::Form(letter, slots, size) => format!("form,{letter},{slots},{size}"),
            Command::Put(slot, numbers) => format!("put,{slot},{}", joined(numbers)),
            Command::Get(slot) => format!("get,{slot}"),
            Command::Clear(slot) => format!("clear,{slot}"),
            Command::Page(slot) => format!("page,{slot}"),
            Command::Change(key) => format!("change,{}", hex(key)),
        }
    }
}

fn joined<T: ToString>(values: &[T]) -> String {
    values.iter().map(T::to_string).collect::<Vec<_>>().join(",")
}

/// A number that has at most five digits; signs and needless zeros are let through here.
fn number(field: &str) -> Option<usize> {
    field.parse().ok().filter(|n| *n <= 99999)
}

/// A key; digits of either case are let through here.
fn key(field: &str) -> Option<Block> {
    u128::from_str_radix(field, 16).ok().map(u128::to_be_bytes)
}

/// The command that a line may be the text of.
fn guess(line: &[u8]) -> Option<Command> {
    let fields: Vec<&str> = std::str::from_utf8(line).ok()?.split(',').collect();
    Some(match fields[..] {
        ["form", letter, slots, size] => Command::Form(letter.parse().ok()?, number(slots)?, number(size)?),
        ["put", slot, ref given @ ..] => {
            let numbers: Vec<i64> = given.iter().map(|f| Some(number(f)? as i64)).collect::<Option<_>>()?;
            Command::Put(number(slot)?, numbers.try_into().ok()?)
        }
        ["get", slot] => Command::Get(number(slot)?),
        ["clear", slot] => Command::Clear(number(slot)?),
        ["page", slot] => Command::Page(number(slot)?),
        ["change", digits] => Command::Change(key(digits)?),
        _ => return None,
    })
}

/// The command whose text is the line.
fn command(line: &[u8]) -> Option<Command> {
    guess(line).filter(|c| line.len() <= 256 && c.text().as_bytes() == line)
}

/// What the program holds.
pub struct Program {
    memory: Vec<u8>,
    buffer: Vec<u8>,
    store: Option<Store<Any>>,
}

impl Program {
    pub fn new() -> Program {
        Program { memory: vec![0; 32768], buffer: vec![0; 4096], store: None }
    }

    fn form(&mut self, cipher: Any, slots: usize, size: usize) -> Result<String, Refusal> {
        let geometry = Geometry::make(slots, size)?;
        let store = Store::new(cipher, geometry);
        let memory = self.memory.get_mut(..geometry.bytes()).ok_or(vec![3])?;
        store.form::<Sheet>(memory)?;
        self.store = Some(store);
        Ok("ok".to_string())
    }

    fn run(&mut self, command: Command) -> Result<String, Refusal> {
        if let Command::Form(letter, slots, size) = command {
            let cipher = Any::new(letter, [0; 16]).ok_or(vec![9])?;
            return self.form(cipher, slots, size);
        }
        let store = self.store.as_mut().ok_or(vec![9])?;
        let memory = &mut self.memory[..store.geometry().bytes()];
        match command {
            Command::Put(slot, numbers) => store.put(memory, slot, &Sheet::make(numbers)?)?,
            Command::Clear(slot) => store.clear::<Sheet>(memory, slot)?,
            Command::Page(slot) => return store.page(memory, slot).map(hex),
            Command::Get(slot) => {
                let said = store.get::<Sheet>(memory, slot, &mut self.buffer)?;
                return Ok(said.map_or("none".to_string(), |sheet| joined(&sheet.numbers())));
            }
            Command::Change(key) => {
                let next = store.cipher().with_key(key);
                store.change::<Sheet>(memory, next, &mut self.buffer)?;
            }
            Command::Form(..) => unreachable!("answered above"),
        }
        Ok("ok".to_string())
    }

    /// The answer to one line, of any length; neither has its line feed.
    pub fn answer(&mut self, line: &[u8]) -> String {
        let told = match command(line) {
            Some(command) => self.run(command),
            None => Err(vec![9]),
        };
        told.unwrap_or_else(|refusal| format!("no,{}", joined(&refusal)))
    }
}

/// Answers every line of the input as soon as it has come.
pub fn run(mut input: impl BufRead, mut output: impl Write) -> Io<()> {
    let mut program = Program::new();
    let mut line = Vec::new();
    while input.read_until(b'\n', &mut line)? > 0 {
        if line.last() == Some(&b'\n') {
            line.pop();
        }
        writeln!(output, "{}", program.answer(&line))?;
        output.flush()?;
        line.clear();
    }
    Ok(())
}
