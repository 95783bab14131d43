//! If the crate is refused memory, a call returns an error of that kind, and the process goes on.
use goblin_pe::{Budget, Error, ErrorKind, Image, Options, Pe, Text};
use std::alloc::{GlobalAlloc, Layout, System};
use std::cell::Cell;
use std::io::Write;

thread_local! {
    static ASKED: Cell<usize> = const { Cell::new(0) };
    // From which request on, and up to which, memory is refused.
    static REFUSED: Cell<(usize, usize)> = const { Cell::new((0, 0)) };
}

struct Refusing;

// SAFETY: it is the allocator of the system, or answers that there is no memory.
unsafe impl GlobalAlloc for Refusing {
    unsafe fn alloc(&self, layout: Layout) -> *mut u8 {
        let (asked, (from, to)) = (ASKED.replace(ASKED.get() + 1), REFUSED.get());
        if (from..to).contains(&asked) {
            return std::ptr::null_mut();
        }
        unsafe { System.alloc(layout) }
    }

    unsafe fn dealloc(&self, block: *mut u8, layout: Layout) {
        unsafe { System.dealloc(block, layout) }
    }
}

#[global_allocator]
static ALLOCATOR: Refusing = Refusing;

fn sample(name: &str) -> Vec<u8> {
    let beside = concat!(env!("CARGO_MANIFEST_DIR"), "/../../samples");
    let folder = std::env::var("GOBLIN_PE_SAMPLES").unwrap_or(beside.into());
    std::fs::read(format!("{folder}/{name}")).expect("a sample")
}

// What a call returns without memory.
fn starved<T>(call: impl FnOnce() -> T) -> T {
    REFUSED.set((0, usize::MAX));
    let answer = call();
    REFUSED.set((0, 0));
    answer
}

// How often a call asks for memory. Each request is refused alone: that is an error.
fn requests<T>(call: impl Fn() -> Result<T, Error>) -> usize {
    let asked = ASKED.get();
    assert!(call().is_ok());
    let count = ASKED.get() - asked;
    for request in 0..count {
        REFUSED.set((ASKED.get() + request, ASKED.get() + request + 1));
        let answer = call().err().map(|it| it.kind());
        REFUSED.set((0, 0));
        assert_eq!(answer, Some(ErrorKind::Memory));
    }
    count
}

#[test]
fn each_refused_request_is_an_error() -> Result<(), Error> {
    let (bytes, budget) = (sample("imports_by_name_x64.dll"), &Budget::default());
    let image = Image::parse(&bytes)?;
    assert!(requests(|| Pe::parse(&bytes)) > 4);
    assert!(requests(|| image.imphash_text(budget)) > 0);
    assert!(requests(|| image.patched(&image.header(), &[])) > 0);
    assert!(requests(|| image.memory_at(0x1000, 0x1000).to_vec()) > 0);
    assert!(requests(|| image.imports(budget).try_for_each(|it| it.map(drop))) > 0);
    Ok(())
}

#[test]
fn an_image_and_its_look_ups_take_no_memory() -> Result<(), Error> {
    let bytes = sample("forwarders_x64.dll");
    let image = Image::parse(&bytes)?;
    assert_eq!(requests(|| Image::parse(&bytes)), 0);
    assert_eq!(requests(|| Ok(Image::read_partial(&bytes, Options::default()))), 0);
    assert_eq!(requests(|| image.export_directory()), 0);
    assert_eq!(requests(|| image.find_export_by_ordinal(1)), 0);
    assert_eq!(requests(|| Ok(image.sections().rev().count())), 0);
    let (object, te) = (sample("object_x64.obj"), sample("firmware_x64.te"));
    assert_eq!(requests(|| Image::read_object(&object, Options::default())), 0);
    assert_eq!(requests(|| Image::read_te(&te, Options::default())), 0);
    Ok(())
}

// The PE signature lies in the DOS header.
#[test]
fn the_stub_in_place_of_an_unreadable_one_takes_no_memory() -> Result<(), Error> {
    let mut bytes = vec![0; 0x60];
    bytes[..2].copy_from_slice(b"MZ");
    bytes[0x38..0x3D].copy_from_slice(b"PE\0\08");
    let image = Image::read(&bytes, Options::permissive())?;
    let stub = starved(|| image.header().dos_stub);
    assert_eq!((stub.len(), &stub[14..20]), (64, &b"This p"[..]));
    Ok(())
}

#[test]
fn a_walk_without_memory_ends_with_the_error() -> Result<(), Error> {
    let (bytes, budget) = (sample("forwarders_x64.dll"), Budget::default());
    let mut walk = Image::parse(&bytes)?.exports(&budget);
    let found = starved(|| (walk.next(), walk.next()));
    let kind = found.0.and_then(Result::err).map(|it| it.kind());
    assert_eq!((kind, found.1.is_none()), (Some(ErrorKind::Memory), true));
    // (one that has begun needs no more for what it has read)
    let mut walk = Image::parse(&bytes)?.exports(&budget);
    assert!(walk.next().is_some() && starved(|| walk.next().is_some_and(|it| it.is_ok())));
    Ok(())
}

#[test]
fn a_walk_over_many_rows_takes_memory_as_it_begins() -> Result<(), Error> {
    let count = 600_u32;
    let mut bytes = vec![0; 20 + 18 * count as usize];
    bytes[8] = 20;
    bytes[12..16].copy_from_slice(&count.to_le_bytes());
    bytes.extend([4, 0, 0, 0]);
    let object = Image::read_object(&bytes, Options::default())?;
    let asked = ASKED.get();
    assert!(object.symbols(&Budget::default()).map(|it| it.expect("a symbol").index).eq(0..count));
    assert!(ASKED.get() - asked <= 3);
    Ok(())
}

#[test]
fn errors_and_texts_are_printed_without_memory() {
    let error = starved(|| Image::parse(b"MZ").expect_err("no image"));
    let mut text = [0; 80];
    starved(|| write!(&mut text[..], "{error:>60}|{:>4}|", Text(b"a"))).expect("room");
    let text = String::from_utf8_lossy(&text);
    let text = text.trim_end_matches('\0').trim_start();
    assert_eq!(text, "header: the file is too short for the DOS header|   a|");
    let none = starved(|| Pe::parse(&[])).err().map(|it| it.kind());
    assert!(matches!(none, Some(ErrorKind::Malformed(_))));
}
