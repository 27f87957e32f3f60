//! The stored list of replays: whole calls of solve, show, read and write, with every word before them.

pub mod boundaries;
mod documents;
mod files;
mod large;
mod lengths;
mod refusals;
mod room;
mod shows;
mod steps;
mod writes;

use crate::reply::Reply;
pub use room::Room;

/// A call of solve and a call of show, both on these words.
#[derive(Clone, Debug)]
pub struct Replay {
    pub name: String,
    pub n: u32,
    pub hole: u32,
    pub table: Vec<u32>,
    pub solutions: Vec<u32>,
    pub queue: Vec<u32>,
    pub output: Vec<u32>,
}

/// A call of read.
#[derive(Clone, Debug)]
pub struct FileReplay {
    pub name: String,
    pub file: Vec<u8>,
    pub table: Vec<u32>,
}

/// A call of write: the file is the first bytes of words that hold four each, the lowest first.
#[derive(Clone, Debug)]
pub struct WriteReplay {
    pub name: String,
    pub n: u32,
    pub table: Vec<u32>,
    /// How many bytes the file has; those after it in the last word are not lent.
    pub bytes: usize,
    pub words: Vec<u32>,
}

impl WriteReplay {
    /// What a writer replies, and the words that it leaves.
    pub fn left(&self, writer: impl Fn(&[u32], usize, &mut [u8]) -> Reply) -> (Reply, Vec<u32>) {
        let mut bytes: Vec<u8> = self.words.iter().flat_map(|word| word.to_le_bytes()).collect();
        let reply = writer(&self.table, self.n as usize, &mut bytes[..self.bytes]);
        let word = |four: &[u8]| four.iter().rev().fold(0, |word, &byte| word << 8 | u32::from(byte));
        (reply, bytes.chunks(4).map(word).collect())
    }
}

/// One entry of the list.
#[derive(Clone, Debug)]
pub enum Stored {
    Problem(Replay),
    File(FileReplay),
    Table(WriteReplay),
}

/// The problems of the list.
pub fn problems() -> Vec<Replay> {
    let parts = [
        documents::all(),
        boundaries::all(),
        steps::all(),
        shows::all(),
        refusals::all(),
        lengths::all(),
        large::all(),
    ];
    parts.into_iter().flatten().collect()
}

/// The files of the list.
pub fn file_replays() -> Vec<FileReplay> {
    files::all()
}

/// The tables of the list that are written.
pub fn write_replays() -> Vec<WriteReplay> {
    writes::all()
}

/// The whole list, always the same.
pub fn replays() -> Vec<Stored> {
    let problems = problems().into_iter().map(Stored::Problem);
    let files = file_replays().into_iter().map(Stored::File);
    problems.chain(files).chain(write_replays().into_iter().map(Stored::Table)).collect()
}
