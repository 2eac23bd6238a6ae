//! A row of the table: one input, and what both sides do with it, over and over. A row is neither timed nor counted before both
//! sides have answered the same.
use std::fmt::Debug;
use std::hint::black_box;
use std::rc::Rc;

/// Makes one side's call so many times; a call that writes has the room to write into.
pub type Repeated = Box<dyn Fn(u64, &mut [u8])>;

#[derive(Clone, Copy)]
pub enum Side {
    Original,
    Port,
}

/// The same call of both sides.
pub struct Sides {
    original: Repeated,
    port: Repeated,
}

impl Sides {
    fn new<A, B>(
        original: impl Fn(u64, &mut [u8]) -> A + 'static,
        port: impl Fn(u64, &mut [u8]) -> B + 'static,
    ) -> Self {
        Self {
            original: Box::new(move |times, room| drop(original(times, room))),
            port: Box::new(move |times, room| drop(port(times, room))),
        }
    }

    pub fn of(&self, side: Side) -> &Repeated {
        match side {
            Side::Original => &self.original,
            Side::Port => &self.port,
        }
    }
}

#[derive(Clone, Copy, PartialEq, Eq)]
pub enum Way {
    Reading,
    Writing,
}

impl Way {
    pub const BOTH: [Self; 2] = [Self::Reading, Self::Writing];
}

/// `bytes` is the length of the input, and of the room as well; `same` asks both sides once, and says whether they answer the same.
pub struct Row {
    pub what: String,
    pub bytes: usize,
    same: Box<dyn Fn() -> bool>,
    reading: Sides,
    writing: Option<Sides>,
}

impl Row {
    /// Stops the program where the two sides differ.
    pub fn must_agree(&self) {
        must_agree(&self.what, (self.same)());
    }

    pub fn sides(&self, way: Way) -> Option<&Sides> {
        match way {
            Way::Reading => Some(&self.reading),
            Way::Writing => self.writing.as_ref(),
        }
    }
}

/// How one side reads a message, and how it writes what was read.
pub struct Codec<R, W> {
    pub read: R,
    pub write: W,
}

/// The loop that is timed: makes the call so many times, once at least, and answers what the last one answered. Each answer is
/// left in memory as if someone looked at it there.
///
/// What a call is handed is hidden from the compiler behind a reference. A slice that is hidden itself is stored as two words and
/// fetched as one wide one, which stalls the side that takes its arguments from the stack.
fn repeat<A>(times: u64, mut call: impl FnMut() -> A) -> A {
    let mut left = times;
    loop {
        let answer = call();
        black_box(&answer);
        if left <= 1 {
            return answer;
        }
        left -= 1;
    }
}

fn reading<I: Copy, A>(input: I, read: impl Fn(I) -> A) -> impl Fn(u64, &mut [u8]) -> A {
    move |times, _| repeat(times, || read(*black_box(&input)))
}

fn writing<V, A>(value: V, write: impl Fn(&V, &mut [u8]) -> A) -> impl Fn(u64, &mut [u8]) -> A {
    move |times, mut room| repeat(times, || write(black_box(&value), black_box(&mut room)))
}

fn must_agree(what: &str, same: bool) {
    assert!(
        same,
        "{what}: this port reads something else than the original"
    );
}

fn accepted<A, E: Debug>(what: &str, answer: Result<A, E>) -> A {
    answer.unwrap_or_else(|refusal| panic!("{what}: one side refuses with {refusal:?}"))
}

/// A row of an input that is only read; `same` says whether both answers say the same.
pub fn read_only<I: Copy + 'static, A: 'static, B: 'static>(
    what: &str,
    bytes: usize,
    input: I,
    (original, port): (impl Fn(I) -> A + 'static, impl Fn(I) -> B + 'static),
    same: impl Fn(&A, &B) -> bool + 'static,
) -> Row {
    let original = Rc::new(reading(input, original));
    let port = Rc::new(reading(input, port));
    let asked = (Rc::clone(&original), Rc::clone(&port));
    Row {
        what: what.to_owned(),
        bytes,
        same: Box::new(move || same(&(asked.0)(1, &mut []), &(asked.1)(1, &mut []))),
        reading: Sides::new(
            move |times, room| original(times, room),
            move |times, room| port(times, room),
        ),
        writing: None,
    }
}

/// A row of an input from which both sides make the same bytes, in a room as long as the input.
pub fn made_of<I: Copy + 'static>(
    what: &str,
    bytes: usize,
    input: I,
    (original, port): (
        impl Fn(&I, &mut [u8]) -> Option<usize> + 'static,
        impl Fn(&I, &mut [u8]) -> Option<usize> + 'static,
    ),
) -> Row {
    let original = Rc::new(writing(input, original));
    let port = Rc::new(writing(input, port));
    let asked = (Rc::clone(&original), Rc::clone(&port));
    let made = move |call: &dyn Fn(u64, &mut [u8]) -> Option<usize>, filler| {
        let mut room = vec![filler; bytes];
        let count = call(1, &mut room)?;
        Some(room[..count].to_vec())
    };
    Row {
        what: what.to_owned(),
        bytes,
        same: Box::new(move || {
            let (a, b) = (made(&*asked.0, 0), made(&*asked.1, 0xFF));
            a.is_some() && a == b
        }),
        reading: Sides::new(
            move |times, room| original(times, room),
            move |times, room| port(times, room),
        ),
        writing: None,
    }
}

/// A row of a message that is read, and of which each side writes anew what it has read.
pub fn read_and_written<A: 'static, B: 'static, E: Debug + 'static, F: Debug + 'static>(
    what: &str,
    message: Vec<u8>,
    original: Codec<
        impl Fn(&'static [u8]) -> Result<A, E> + 'static,
        impl Fn(&A, &mut [u8]) -> Result<usize, E> + 'static,
    >,
    port: Codec<
        impl Fn(&'static [u8]) -> Result<B, F> + 'static,
        impl Fn(&B, &mut [u8]) -> Result<usize, F> + 'static,
    >,
    same: impl Fn(&A, &B) -> bool,
) -> Row {
    let message: &'static [u8] = message.leak();
    let reads = (reading(message, original.read), reading(message, port.read));
    let a = accepted(what, reads.0(1, &mut []));
    let b = accepted(what, reads.1(1, &mut []));
    let agreed = same(&a, &b);
    Row {
        what: what.to_owned(),
        bytes: message.len(),
        same: Box::new(move || agreed),
        reading: Sides::new(reads.0, reads.1),
        writing: Some(Sides::new(
            written(what, message, writing(a, original.write)),
            written(what, message, writing(b, port.write)),
        )),
    }
}

/// The writing of what a message says, once it has been seen to write that very message.
fn written<E: Debug, W: Fn(u64, &mut [u8]) -> Result<usize, E>>(
    what: &str,
    message: &[u8],
    write: W,
) -> W {
    let mut room: Vec<u8> = message.iter().map(|byte| !byte).collect();
    let count = accepted(what, write(1, &mut room));
    assert!(
        count == message.len() && room == message,
        "{what}: what was read is written as another message"
    );
    write
}
