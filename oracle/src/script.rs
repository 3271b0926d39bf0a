//! The lines of a script.
use crate::probe::{Entry, Record};

/// Fabric, endpoint, group and scene.
#[derive(Clone, Copy)]
pub struct Address {
    pub fab: u8,
    pub ep: u16,
    pub group: u16,
    pub scene: u8,
}

pub struct Add {
    pub at: Address,
    pub time: u32,
    pub member: u8,
    pub pairs: Vec<u8>,
    pub fields: Vec<u8>,
    /// Whether the pairs are found in the fields by the published code.
    pub walked: bool,
}

pub struct Copy {
    pub fab: u8,
    pub ep: u16,
    pub mode: u8,
    pub from: (u16, u8),
    pub to: (u16, u8),
    pub members: (u8, u8),
}

#[derive(Clone, Copy)]
pub enum Override {
    Absent,
    Null,
    Time(u32),
}

pub struct Recall {
    pub at: Address,
    pub member: u8,
    pub time: Override,
    pub applied: bool,
}

pub enum Call {
    Add(Add),
    Store(Address, u8, Vec<u8>),
    View(Address, u8),
    Remove(Address, u8),
    RemoveAll(Address, u8),
    Membership(Address, u8),
    Copy(Copy),
    Recall(Recall),
    Info { fab: u8, ep: u16, kind: u8 },
    Notice(u16),
    FabricRemoval(u8),
    FactoryReset,
    Startup,
    FailSafeCommit,
    FailSafeExpiry,
    Dump,
    SetVersion(u32),
    PushEntry(Entry),
    PushRecord(Record),
    Save,
    /// An image, or the one that was saved last.
    Load(Option<Vec<u8>>),
}

/// The words behind a letter, taken one by one.
struct Words<'a>(std::str::SplitAsciiWhitespace<'a>);

type Read<T> = Result<T, String>;

impl Words<'_> {
    fn word(&mut self) -> Read<&str> {
        self.0.next().ok_or("missing word".into())
    }

    fn number<T: TryFrom<u64>>(&mut self) -> Read<T> {
        let word = self.word()?;
        let value = word.parse::<u64>().ok().and_then(|v| T::try_from(v).ok());
        value.ok_or_else(|| format!("number {word:?}"))
    }

    fn bytes(&mut self) -> Read<Vec<u8>> {
        let word = self.word()?;
        if word == "-" {
            return Ok(Vec::new());
        }
        let digit = |b: u8| (b as char).to_digit(16).map(|d| d as u8).ok_or("hexadecimal digit".to_string());
        if word.len() % 2 != 0 {
            return Err("odd count of hexadecimal digits".into());
        }
        word.as_bytes().chunks(2).map(|p| Ok(digit(p[0])? * 16 + digit(p[1])?)).collect()
    }

    fn digits(&mut self) -> Read<Vec<u8>> {
        let word = self.word()?;
        if word == "-" {
            return Ok(Vec::new());
        }
        let digit = |c: char| c.to_digit(10).map(|d| d as u8).ok_or("pair digit".to_string());
        word.chars().map(digit).collect()
    }

    fn address(&mut self) -> Read<Address> {
        let group = self.group()?;
        Ok(Address { scene: self.number()?, ..group })
    }

    fn group(&mut self) -> Read<Address> {
        Ok(Address { fab: self.number()?, ep: self.number()?, group: self.number()?, scene: 0 })
    }

    fn add(&mut self, walked: bool) -> Read<Add> {
        Ok(Add {
            at: self.address()?,
            time: self.number()?,
            member: self.number()?,
            pairs: self.digits()?,
            fields: self.bytes()?,
            walked,
        })
    }

    fn copy(&mut self) -> Read<Copy> {
        Ok(Copy {
            fab: self.number()?,
            ep: self.number()?,
            mode: self.number()?,
            from: (self.number()?, self.number()?),
            to: (self.number()?, self.number()?),
            members: (self.number()?, self.number()?),
        })
    }

    fn recall(&mut self) -> Read<Recall> {
        let (at, member) = (self.address()?, self.number()?);
        let time = match self.word()? {
            "-" => Override::Absent,
            "null" => Override::Null,
            word => Override::Time(word.parse().map_err(|_| format!("override {word:?}"))?),
        };
        Ok(Recall { at, member, time, applied: self.number::<u8>()? != 0 })
    }

    fn image(&mut self) -> Read<Option<Vec<u8>>> {
        if self.0.clone().next() == Some("!") {
            return self.word().map(|_| None);
        }
        self.bytes().map(Some)
    }

    fn entry(&mut self) -> Read<Entry> {
        let Address { fab, ep, group, scene } = self.address()?;
        Ok(Entry { fab, ep, group, scene, time: self.number()?, fields: self.bytes()? })
    }

    fn record(&mut self) -> Read<Record> {
        let Address { fab, ep, group, scene } = self.address()?;
        Ok(Record { fab, ep, group, scene, valid: self.number::<u8>()? != 0 })
    }
}

/// Reads a line other than N. The first word is the letter.
pub fn read(line: &str) -> Read<Call> {
    let mut words = Words(line.split_ascii_whitespace());
    let letter = words.word()?.to_string();
    let w = &mut words;
    let call = match letter.as_str() {
        "A" => Call::Add(w.add(false)?),
        "B" => Call::Add(w.add(true)?),
        "S" => Call::Store(w.address()?, w.number()?, w.bytes()?),
        "V" => Call::View(w.address()?, w.number()?),
        "R" => Call::Remove(w.address()?, w.number()?),
        "X" => Call::RemoveAll(w.group()?, w.number()?),
        "M" => Call::Membership(w.group()?, w.number()?),
        "C" => Call::Copy(w.copy()?),
        "L" => Call::Recall(w.recall()?),
        "I" => Call::Info { fab: w.number()?, ep: w.number()?, kind: w.number()? },
        "T" => Call::Notice(w.number()?),
        "F" => Call::FabricRemoval(w.number()?),
        "Z" => Call::FactoryReset,
        "U" => Call::Startup,
        "W" => Call::FailSafeCommit,
        "E" => Call::FailSafeExpiry,
        "D" => Call::Dump,
        "K" => Call::SetVersion(w.number()?),
        "e" => Call::PushEntry(w.entry()?),
        "r" => Call::PushRecord(w.record()?),
        "P" => Call::Save,
        "G" => Call::Load(w.image()?),
        other => return Err(format!("command {other:?}")),
    };
    match words.word() {
        Ok(word) => Err(format!("one word too many {word:?}")),
        Err(_) => Ok(call),
    }
}
