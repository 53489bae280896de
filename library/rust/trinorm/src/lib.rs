//! The program `trinorm` as a library: [`run`] takes the arguments of a command line and an input.
//!
//! The results are computed by a static library that is proved. This crate, which calls the library and allocates its
//! memory, is tested, not proved.
#![deny(unsafe_op_in_unsafe_fn)]

mod heap;
mod room;

use room::Room;

extern "C" {
    fn trinorm_answer(
        words: *const u8,
        words_length: usize,
        input: *const u8,
        input_length: usize,
        answer: *mut u8,
        room: usize,
        needed: *mut usize,
    ) -> u8;
}

/// The status of the program.
#[derive(Clone, Copy, Debug, PartialEq, Eq)]
pub enum Status {
    /// 0: the text is the output.
    Done,
    /// 2: invalid command line. For this status and the next ones the text is an error line.
    Usage,
    /// 3: invalid input.
    Input,
    /// 4: the input is valid, but the command cannot answer it.
    Refused,
    /// 5: a number exceeds the limit.
    Large,
}

/// The exit status and the output that the program has for the same arguments and input.
#[derive(Clone, Debug, PartialEq, Eq)]
pub struct Answer {
    pub status: Status,
    pub text: Vec<u8>,
}

/// The reason for which there is no answer.
#[derive(Clone, Copy, Debug, PartialEq, Eq)]
pub enum Fault {
    /// Memory ran out.
    NoMemory,
    /// An argument contains a zero byte.
    ZeroByte,
}

impl std::fmt::Display for Fault {
    fn fmt(&self, to: &mut std::fmt::Formatter<'_>) -> std::fmt::Result {
        to.write_str(match self {
            Fault::NoMemory => "out of memory",
            Fault::ZeroByte => "an argument contains a zero byte",
        })
    }
}

impl std::error::Error for Fault {}

/// How large the buffer for an answer is at first. The system gives its pages as an answer reaches them, so a buffer that
/// holds nearly every answer costs no more than a small one, and spares a second computation.
const ROOM: usize = 1 << 26;

/// Runs a command, such as `["surfaces", "--coords", "quad"]`, on an input, such as `b"sig cPcbbbiht\n"`.
///
/// Fails with [`Fault::ZeroByte`] if an argument contains a zero byte, and with [`Fault::NoMemory`] if memory runs out, also
/// for the buffer of the answer. An answer of more than 64 MiB is computed twice, since only the first run shows its length.
pub fn run(words: &[&str], input: &[u8]) -> Result<Answer, Fault> {
    run_with_room(ROOM, words, input)
}

/// As `run`, with a first buffer of `size` bytes.
fn run_with_room(size: usize, words: &[&str], input: &[u8]) -> Result<Answer, Fault> {
    let words = joined(words)?;
    let mut room = Room::new(size).ok_or(Fault::NoMemory)?;
    loop {
        let (code, needed) = answer_into(room.bytes(), &words, input);
        let status = match code {
            0 => Status::Done,
            2 => Status::Usage,
            3 => Status::Input,
            4 => Status::Refused,
            5 => Status::Large,
            7 => {
                room = Room::new(needed).ok_or(Fault::NoMemory)?;
                continue;
            }
            _ => return Err(Fault::NoMemory),
        };
        let text = copied(&room.bytes()[..needed]).ok_or(Fault::NoMemory)?;
        return Ok(Answer { status, text });
    }
}

/// The arguments with a zero byte between each two.
fn joined(words: &[&str]) -> Result<Vec<u8>, Fault> {
    if words.iter().any(|word| word.contains('\0')) {
        return Err(Fault::ZeroByte);
    }
    let length = words.iter().map(|word| word.len() + 1).sum();
    let mut text = Vec::new();
    text.try_reserve_exact(length)
        .map_err(|_| Fault::NoMemory)?;
    for (at, word) in words.iter().enumerate() {
        if at > 0 {
            text.push(0);
        }
        text.extend_from_slice(word.as_bytes());
    }
    Ok(text)
}

/// A copy of some bytes, or `None` if memory runs out.
fn copied(bytes: &[u8]) -> Option<Vec<u8>> {
    let mut copy = Vec::new();
    copy.try_reserve_exact(bytes.len()).ok()?;
    copy.extend_from_slice(bytes);
    Some(copy)
}

/// The status of the call, and how long its answer is, which is at the start of the buffer if it fits.
fn answer_into(room: &mut [u8], words: &[u8], input: &[u8]) -> (u8, usize) {
    let mut needed = 0;
    // SAFETY: a slice's pointer is never null, all bytes of the room are initialized, and what is borrowed for writing
    // overlaps nothing else
    let code = unsafe {
        trinorm_answer(
            words.as_ptr(),
            words.len(),
            input.as_ptr(),
            input.len(),
            room.as_mut_ptr(),
            room.len(),
            &mut needed,
        )
    };
    (code, needed)
}

#[cfg(test)]
mod tests {
    use super::{run, run_with_room, Fault};

    #[test]
    fn a_room_of_any_size_gives_the_same_answer() {
        let whole = run(&["surfaces"], b"sig cPcbbbiht\n");
        for size in [0, 1, 7, 40, 41, 42, 43, 44, 1000] {
            assert_eq!(
                run_with_room(size, &["surfaces"], b"sig cPcbbbiht\n"),
                whole
            );
        }
    }

    #[test]
    fn a_room_that_memory_cannot_hold_is_an_error() {
        for size in [usize::MAX, isize::MAX as usize, isize::MAX as usize - 100] {
            assert_eq!(
                run_with_room(size, &["sig"], b"sig bkaagj\n"),
                Err(Fault::NoMemory)
            );
        }
    }
}
