//! The binary: reads the command line and hands over to the command asked for.

use independent::commands::check_seeds::check_seeds;
use independent::commands::expected::write_expected;
use independent::commands::files::write_files;
use independent::commands::words::write_words;
use independent::commands::writes::write_writes;
use independent::generate::Scale;
use independent::stored::stream;
use independent::text::{assemble, disassemble};
use std::io::{self, BufWriter, Read, Write};
use std::path::Path;
use std::process::ExitCode;

const USAGE: &str = "usage:
  independent run                               problem file on standard input, the program's print out
  independent asm [FILE]                        text form to a problem file, on standard output
  independent disasm [FILE]                     problem file to text form, on standard output
  independent check-seeds SEED COUNT [--small]  solve, show, write and self-check generated problems
  independent words SEED COUNT [--small]        generated problems and what solve and show leave
  independent files SEED COUNT [--small]        generated files and what read leaves
  independent writes SEED COUNT [--small]       generated tables and the file that write leaves
  independent expected EXAMPLES OUT             the program's print for each example of a folder
  independent checks-in | checks-out            the stored checks, and answer and place of each
  independent replay-in | replay-out            the stored calls, and what each leaves
";

fn main() -> ExitCode {
    let arguments: Vec<String> =
        std::env::args_os().skip(1).map(|a| a.to_string_lossy().into_owned()).collect();
    match command(&arguments) {
        Ok(code) => code,
        Err(error) => {
            let _ = writeln!(io::stderr(), "independent: {error}");
            ExitCode::from(2)
        }
    }
}

fn command(arguments: &[String]) -> Result<ExitCode, String> {
    let words: Vec<&str> = arguments.iter().map(String::as_str).collect();
    match words.as_slice() {
        ["run"] => print(&independent::program(&input(None)?)),
        ["asm"] => print(&assemble(&text(input(None)?))?),
        ["asm", file] => print(&assemble(&text(input(Some(file))?))?),
        ["disasm"] => print(disassemble(&input(None)?)?.as_bytes()),
        ["disasm", file] => print(disassemble(&input(Some(file))?)?.as_bytes()),
        ["words", rest @ ..] => {
            let (seed, count, scale) = seeds(rest)?;
            to_output(|out| write_words(out, seed, count, scale))
        }
        ["files", rest @ ..] => {
            let (seed, count, scale) = seeds(rest)?;
            to_output(|out| write_files(out, seed, count, scale))
        }
        ["writes", rest @ ..] => {
            let (seed, count, scale) = seeds(rest)?;
            to_output(|out| write_writes(out, seed, count, scale))
        }
        ["check-seeds", rest @ ..] => {
            let (seed, count, scale) = seeds(rest)?;
            let mut faults = 0;
            to_output(|out| {
                faults = check_seeds(out, seed, count, scale)?;
                Ok(())
            })?;
            Ok(if faults == 0 { ExitCode::SUCCESS } else { ExitCode::from(1) })
        }
        ["expected", examples, out] => {
            let count = write_expected(Path::new(examples), Path::new(out))?;
            print(format!("{count} written\n").as_bytes())
        }
        ["checks-in"] => to_output(stream::write_checks_in),
        ["checks-out"] => to_output(stream::write_checks_out),
        ["replay-in"] => to_output(stream::write_replay_in),
        ["replay-out"] => to_output(stream::write_replay_out),
        ["help"] | ["--help"] => print(USAGE.as_bytes()),
        _ => Err(format!("no such command\n{USAGE}")),
    }
}

fn seeds(rest: &[&str]) -> Result<(u64, u64, Scale), String> {
    let number = |word: &str| word.parse::<u64>().map_err(|_| format!("{word} is not a number that fits"));
    match rest {
        [seed, count] => Ok((number(seed)?, number(count)?, Scale::Usual)),
        [seed, count, "--small"] => Ok((number(seed)?, number(count)?, Scale::Small)),
        _ => Err(format!("a seed and a count are asked\n{USAGE}")),
    }
}

fn input(file: Option<&str>) -> Result<Vec<u8>, String> {
    match file {
        Some(path) => std::fs::read(path).map_err(|error| format!("{path}: {error}")),
        None => {
            let mut bytes = Vec::new();
            io::stdin().read_to_end(&mut bytes).map_err(|error| format!("standard input: {error}"))?;
            Ok(bytes)
        }
    }
}

fn text(bytes: Vec<u8>) -> String {
    String::from_utf8_lossy(&bytes).into_owned()
}

fn print(bytes: &[u8]) -> Result<ExitCode, String> {
    to_output(|out| out.write_all(bytes))
}

fn to_output(write: impl FnOnce(&mut dyn Write) -> io::Result<()>) -> Result<ExitCode, String> {
    let mut out = BufWriter::new(io::stdout().lock());
    let done = write(&mut out).and_then(|()| out.flush());
    done.map_err(|error| format!("standard output: {error}"))?;
    Ok(ExitCode::SUCCESS)
}
