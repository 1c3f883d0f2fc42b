// Loads two matrices, multiplies them, prints the product's factors and its bytes; then shows refusals, in words.
use std::process::exit;

// Private to the library; size and alignment are those of `tnb_shelf` in include/beechcrib.h.
#[repr(C)]
#[derive(Clone, Copy)]
pub struct Shelf {
    private: [u64; 1025],
}

#[repr(C)]
pub struct Answer {
    pub number: u8,
    pub bound: u32,
    pub offset: usize,
    pub steps: usize,
    pub shelf: Shelf,
}

#[repr(C)]
pub struct Length {
    pub number: u8,
    pub offset: usize,
    pub length: usize,
}

#[repr(C)]
pub struct Value {
    pub number: u8,
    pub offset: usize,
    pub mantissa: u64,
    pub exponent: i64,
}

// A slice crosses the border as a pointer and a length.
extern "C" {
    fn tnb_new() -> Shelf;
    fn tnb_load(shelf: Shelf, place: usize, bytes: *const u8, count: usize) -> Answer;
    fn tnb_product(shelf: Shelf, left: usize, right: usize, target: usize) -> Answer;
    fn tnb_write(shelf: Shelf, place: usize, out: *mut u8, room: usize) -> Length;
    fn tnb_rows(shelf: Shelf, place: usize) -> Length;
    fn tnb_factor(shelf: Shelf, place: usize, i: usize, j: usize) -> Value;
    fn tnb_sentence(number: u64, offset: u64, places: *const u64, count: usize, out: *mut u8, room: usize) -> Length;
}

// What is always enough to lend for a sentence.
const SENTENCE_ROOM: usize = 220;

// What turned a call down.
pub struct Refusal {
    pub number: u8,
    pub offset: usize,
}

fn checked(a: Answer) -> Result<(Shelf, u32), Refusal> {
    match a.number {
        0 => Ok((a.shelf, a.bound)),
        number => Err(Refusal { number, offset: a.offset }),
    }
}

fn new() -> Shelf {
    unsafe { tnb_new() }
}

fn load(shelf: Shelf, place: usize, bytes: &[u8]) -> Result<Shelf, Refusal> {
    checked(unsafe { tnb_load(shelf, place, bytes.as_ptr(), bytes.len()) }).map(|r| r.0)
}

fn product(shelf: Shelf, left: usize, right: usize, target: usize) -> Result<(Shelf, u32), Refusal> {
    checked(unsafe { tnb_product(shelf, left, right, target) })
}

fn write(shelf: Shelf, place: usize, out: &mut [u8]) -> Result<usize, Refusal> {
    let w = unsafe { tnb_write(shelf, place, out.as_mut_ptr(), out.len()) };
    match w.number {
        0 => Ok(w.length),
        number => Err(Refusal { number, offset: w.offset }),
    }
}

// The rows of a place, 0 where it is empty.
fn rows(shelf: Shelf, place: usize) -> usize {
    unsafe { tnb_rows(shelf, place) }.length
}

// Mantissa and exponent of the factor of row i and column j.
fn factor(shelf: Shelf, place: usize, i: usize, j: usize) -> (u64, i64) {
    let b = unsafe { tnb_factor(shelf, place, i, j) };
    (b.mantissa, b.exponent)
}

// A refusal in words, told with some places; a foreign shelf (255) has no sentence.
fn say_with(why: &Refusal, places: &[u64]) {
    let mut text = [0u8; SENTENCE_ROOM];
    let s = unsafe { tnb_sentence(why.number.into(), why.offset as u64, places.as_ptr(), places.len(), text.as_mut_ptr(), text.len()) };
    match s.number {
        0 => println!("{}", String::from_utf8_lossy(&text[..s.length])),
        _ => println!("refused {} at {}", why.number, why.offset),
    }
}

fn say(why: &Refusal) {
    say_with(why, &[]);
}

fn multiplied(ones: &[u8]) -> Result<(Shelf, u32), Refusal> {
    let shelf = load(new(), 0, ones)?;
    let shelf = load(shelf, 1, ones)?;
    product(shelf, 0, 1, 2)
}

fn main() {
    // n = 2, all factors one
    let ones = [0x02, 0xca, 0x07, 0x00, 0xca, 0x07, 0x00, 0xca, 0x07, 0x00, 0xca, 0x07, 0x00];
    let (shelf, bound) = match multiplied(&ones) {
        Ok(r) => r,
        Err(why) => {
            say(&why);
            exit(1)
        }
    };

    let n = rows(shelf, 2);
    println!("{} rows, within {} unit roundings", n, bound);
    for i in 1..=n {
        for j in 1..=n {
            let (mantissa, exponent) = factor(shelf, 2, i, j);
            println!("{} {} {} {}", i, j, mantissa, exponent);
        }
    }

    let mut bytes = [0u8; 449];
    match write(shelf, 2, &mut bytes) {
        Ok(length) => {
            print!("{} bytes:", length);
            for b in &bytes[..length] {
                print!(" {:02X}", b);
            }
            println!();
        }
        Err(why) => say(&why),
    }

    // a refusal: the last byte is missing, and the shelf stays as it was
    if let Err(why) = load(shelf, 3, &ones[..ones.len() - 1]) {
        say(&why);
    }
    println!("place 3 holds {} rows", rows(shelf, 3));

    // another, told with the places that were named: places 3 and 2 are multiplied, and place 3 is empty
    if let Err(why) = product(shelf, 3, 2, 4) {
        say_with(&why, &[3, 2, 4]);
    }

    // a shelf that this library did not make
    let foreign = Shelf { private: [u64::MAX; 1025] };
    if let Err(why) = write(foreign, 2, &mut bytes) {
        say(&why);
    }
}
