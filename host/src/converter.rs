//! Runs a converter of Netpbm's: a picture's file goes to its standard input, and what it writes is
//! read as a picture. What it says, and how it ends, is heeded.

use crate::kinds::MORE;
use crate::netpbm::{self, Fault, Image};
use std::io::{self, BufRead, BufReader, ErrorKind, Read, Write};
use std::process::{Child, Command, ExitStatus, Stdio};
use std::thread::{self, Builder};

/// A picture as a converter delivers it.
pub(crate) struct Delivered {
    pub image: Image,
    /// The MAXVAL from which its numbers were scaled to 255.
    pub most: usize,
    /// What the converter had to say of it, a line each.
    pub remarks: Vec<String>,
}

/// A process that is ended and awaited wherever it is left.
struct Running(Child);

impl Drop for Running {
    fn drop(&mut self) {
        // Both do nothing where it was awaited before.
        let _ = self.0.kill();
        let _ = self.0.wait();
    }
}

/// How a converter ended.
struct Ended {
    /// The first picture that it wrote, with its MAXVAL.
    picture: Result<(Image, usize), Fault>,
    /// Whether it had more to write, and was stopped.
    stopped: bool,
    status: ExitStatus,
    said: String,
}

/// The picture of a file of this kind, as the converter `program` delivers it.
pub(crate) fn deliver(
    kind: &str,
    program: &str,
    words: &[&str],
    file: &[u8],
) -> Result<Delivered, Fault> {
    let ended = run(program, words, file).map_err(|why| match why.kind() {
        ErrorKind::NotFound => Fault::Form(format!(
            "it is a {kind} picture, and {program}, which decodes it, is not installed; install \
             Netpbm (Debian package netpbm)"
        )),
        _ => Fault::Form(format!(
            "{program}, which decodes it, could not be run ({why}); try again, or install Netpbm \
             (Debian package netpbm) anew"
        )),
    })?;
    let first = lines(program, &ended.said).next();
    let because = first.map_or(String::new(), |(_, line)| format!(" ({line})"));
    match ended.picture {
        Ok(_) if ended.stopped => form(MORE),
        Err(why @ Fault::Sides(..)) => Err(why),
        _ if !ended.stopped && ended.status.code().is_none() => form(format!(
            "{program} was stopped while it decoded it{because}; try again, with more memory free"
        )),
        _ if !ended.stopped && !ended.status.success() => form(format!(
            "it is damaged, or of a kind that {program} does not decode{because}; copy the picture \
             again, or save it anew as a JPEG or a PNG"
        )),
        Err(Fault::Form(why)) => {
            let why = why.split(';').next().unwrap_or_default();
            form(format!(
                "{program} makes no picture of it ({why}); save it anew as a JPEG or a PNG"
            ))
        }
        Err(why) => Err(why),
        Ok((image, most)) => Ok(Delivered {
            image,
            most,
            remarks: remarks(program, &ended.said)?,
        }),
    }
}

fn form<T>(sentence: impl Into<String>) -> Result<T, Fault> {
    Err(Fault::Form(sentence.into()))
}

/// Runs a converter on a file, to its end or to the end of its first picture.
fn run(program: &str, words: &[&str], file: &[u8]) -> io::Result<Ended> {
    let mut command = Command::new(program);
    // Its messages in English, since they are looked through.
    command.args(words).env("LC_ALL", "C");
    command.stdin(Stdio::piped());
    command.stdout(Stdio::piped()).stderr(Stdio::piped());
    let mut child = Running(command.spawn()?);
    let pipes = (
        child.0.stdin.take(),
        child.0.stdout.take(),
        child.0.stderr.take(),
    );
    let (Some(mut input), Some(output), Some(errors)) = pipes else {
        return Err(io::Error::other("it has no pipes"));
    };
    thread::scope(move |scope| {
        // A converter that ends early does not take all of the file; how it ends says why.
        let feed = move || drop(input.write_all(file));
        Builder::new().spawn_scoped(scope, feed)?;
        let hearing = Builder::new().spawn_scoped(scope, move || heard(errors))?;
        let mut output = BufReader::with_capacity(1 << 16, output);
        let picture = netpbm::converted(&mut output);
        let stopped = !output.fill_buf()?.is_empty();
        drop(output);
        if stopped {
            child.0.kill()?;
        }
        let status = child.0.wait()?;
        let said = hearing.join().unwrap_or_default();
        Ok(Ended {
            picture,
            stopped,
            status,
            said,
        })
    })
}

/// What a converter says, in whole lines of plain ASCII. What goes beyond 1 MiB is taken, so that the
/// converter can go on, and forgotten.
fn heard(mut errors: impl Read) -> String {
    let mut first = Vec::new();
    let _ = errors.by_ref().take(1 << 20).read_to_end(&mut first);
    if io::copy(&mut errors, &mut io::sink()).is_ok_and(|more| more > 0) {
        let line = first.iter().rposition(|&byte| byte == b'\n');
        first.truncate(line.unwrap_or(0));
    }
    let plain = |&byte: &u8| match byte {
        b'\n' | b' '..=b'~' => byte.into(),
        _ => '?',
    };
    first.iter().map(plain).collect()
}

/// The lines that a converter said, as far as they are shown, each with whether it is the converter's
/// own, which has its name before it, or one of a library that decodes. The one in which it says
/// what it writes is left out.
fn lines<'a>(program: &'a str, said: &'a str) -> impl Iterator<Item = (bool, &'a str)> {
    said.lines().filter_map(move |line| {
        let own = line.strip_prefix(program);
        let own = own.and_then(|line| line.strip_prefix(": "));
        let text = own.unwrap_or(line).trim();
        let writing = own.is_some() && text.to_ascii_lowercase().starts_with("writing ");
        let shown = text.get(..200).unwrap_or(text);
        (!text.is_empty() && !writing).then_some((own.is_some(), shown))
    })
}

/// What a converter that ended well had to say. What a library says of the pixels is a damage.
fn remarks(program: &str, said: &str) -> Result<Vec<String>, Fault> {
    // A TIFF may have tags that not every program knows.
    let unknown_tag = |line: &str| line.contains("Unknown field with tag");
    // Of a PNG, chunks that have no pixels.
    let beside = |line: &str| line.starts_with("libpng warning: ") && !line.contains("IDAT");
    let mut remarks = Vec::new();
    for (own, line) in lines(program, said) {
        if !own && !unknown_tag(line) && !beside(line) {
            return form(format!(
                "{program} warns of it ({line}), so it may be damaged; copy the picture again, or \
                 save it anew as a JPEG or a PNG"
            ));
        }
        if !unknown_tag(line) && remarks.len() < 10 {
            remarks.push(format!("{program} says: {line}"));
        }
    }
    Ok(remarks)
}

#[cfg(test)]
mod tests {
    use super::*;

    #[test]
    fn heeded() {
        let said = "tool: WRITING PPM FILE\n\ntool: hm\nTIFFReadDirectory: Warning, Unknown field \
                    with tag 37724 (0x935c) encountered.\nlibpng warning: iCCP: too short\n";
        let remarks = |said: &str| remarks("tool", said).map_err(|why| why.to_string());
        let want = [
            "tool says: hm",
            "tool says: libpng warning: iCCP: too short",
        ];
        assert_eq!(remarks(said).unwrap(), want);
        for damage in [
            "Corrupt JPEG data: bad Huffman code",
            "libpng warning: IDAT: Too much image data",
            "ZIPDecode: Decoding error at scanline 0.",
            "writing",
            "toolbox: hm",
        ] {
            let why = remarks(&format!("{said}{damage}\n")).unwrap_err();
            assert!(why.contains(damage), "{why}");
        }
        assert_eq!(remarks(&"tool: hm\n".repeat(1000)).unwrap().len(), 10);
        let long = remarks(&"x".repeat(1000)).unwrap_err();
        assert!(long.len() < 400, "{long}");
    }

    /// What is heard ends with a whole line, and has no control characters.
    #[test]
    fn heard_in_lines() {
        assert_eq!(heard(&b"a\x1b[31m\xff\nb"[..]), "a?[31m?\nb");
        let much = "abcdefg\n".repeat(200_000);
        let much = heard(much.as_bytes());
        assert!(much.len() <= 1 << 20 && much.lines().all(|line| line == "abcdefg"));
        assert_eq!(heard(io::repeat(b'a').take(2 << 20)), "");
    }
}
