//! Ten idioms that a newcomer writes, each as short as it comes to mind. The tests of the repository count them, and build
//! them in the editions 2021 and 2024.
use goblin_pe::{
    Budget, Error, ErrorKind, Export, Image, Import, Imported, Kind, Options, Pe, Section,
};
use std::collections::{BTreeMap, HashMap, HashSet};
use std::sync::{Arc, OnceLock};
use std::{fs, io, thread};

fn path(name: &str) -> String {
    let folder = std::env::var("GOBLIN_PE_SAMPLES");
    let beside = concat!(env!("CARGO_MANIFEST_DIR"), "/../../samples");
    format!("{}/{name}", folder.unwrap_or(beside.into()))
}

fn sample() -> Vec<u8> {
    fs::read(path("imports_by_name_x64.dll")).expect("the sample is there")
}

#[test]
#[allow(clippy::needless_late_init)]
fn an_image_is_declared_before_its_bytes() {
    let pe;
    let bytes = sample();
    pe = Pe::read(&bytes, Options::default(), &Budget::steps(1000)).unwrap();
    assert_eq!(pe.imports.len(), 1);
}

#[test]
fn a_main_that_returns_any_error() {
    fn main() -> Result<(), Box<dyn std::error::Error + Send + Sync>> {
        let bytes = fs::read(path("imports_by_name_x64.dll"))?;
        let image = Image::parse(&bytes)?;
        let entry = image
            .memory_at(image.entry(), 0)
            .section
            .ok_or("no section")?;
        let section = image.sections().nth(entry).ok_or("no such section")?;
        println!("{} {:?}", section.name, image.export_directory()?);
        Ok(())
    }
    main().unwrap();
}

#[test]
fn a_loop_over_rows_pushes_strings() {
    let (bytes, mut names) = (sample(), Vec::new());
    let image = Image::parse(&bytes).unwrap();
    for import in image.imports(&Budget::default()) {
        let import = import.unwrap();
        if let Imported::Name { name, .. } = import.name {
            names.push(format!("{}!{name}", import.dll));
        }
    }
    for (i, export) in image.exports(&Budget::default()).flatten().enumerate() {
        assert_eq!(export.hint, i);
    }
    assert_eq!(names, ["KERNEL32.dll!GetTickCount"]);
}

#[test]
fn rows_are_collected_and_gone_through_again() {
    let bytes = sample();
    let pe = Pe::parse(&bytes).unwrap();
    let from_kernel = |x: &&Import| x.dll.eq_ignore_ascii_case(b"kernel32.dll");
    assert_eq!(pe.imports.iter().filter(from_kernel).count(), 1);
    let mut exports: Vec<Export> = pe.exports;
    exports.sort_by_key(|x| x.rva);
    exports.dedup_by_key(|x| x.ordinal);
    assert_eq!((exports.len(), &exports[..1]), (2, &exports[0..1]));
}

#[test]
fn a_map_by_library() {
    let bytes = sample();
    let pe = Pe::parse(&bytes).unwrap();
    let mut by_library: HashMap<_, Vec<_>> = HashMap::new();
    for import in &pe.imports {
        by_library.entry(import.dll).or_default().push(import.name);
    }
    let lower = |dll: &goblin_pe::Text| dll.to_string().to_lowercase();
    let counts: BTreeMap<String, usize> = by_library
        .iter()
        .map(|(dll, names)| (lower(dll), names.len()))
        .collect();
    assert_eq!(
        counts["kernel32.dll"],
        by_library["KERNEL32.dll".as_bytes()].len()
    );
    let set: HashSet<Import> = pe.imports.iter().copied().collect();
    assert!(set.contains(&pe.imports[0]));
}

#[test]
fn threads_share_an_image() {
    let bytes = sample();
    let image = Image::parse(&bytes).unwrap();
    let (imports, exports) = thread::scope(|scope| {
        let imports = scope.spawn(|| image.imports(&Budget::default()).count());
        let exports = scope.spawn(|| image.exports(&Budget::default()).count());
        (imports.join().unwrap(), exports.join().unwrap())
    });
    assert_eq!((imports, exports), (1, 2));
    let shared: Arc<[u8]> = bytes.into();
    let thread = thread::spawn(move || Image::parse(&shared).map(|image| image.sections().len()));
    assert_eq!(thread.join().unwrap(), Ok(4));
}

#[test]
fn a_struct_keeps_an_image() {
    #[derive(Clone, Debug)]
    struct Scanned<'a> {
        image: Image<'a>,
        first: Option<Section<'a>>,
    }
    fn scanned(bytes: &[u8]) -> Option<Scanned<'_>> {
        let image = Image::parse(bytes).ok()?;
        let first = image.sections().next();
        Some(Scanned { image, first })
    }
    let bytes = sample();
    let it = scanned(&bytes).expect("it is read");
    assert_eq!(it.first.unwrap().name, ".text");
    assert!(format!("{it:?}").starts_with("Scanned { image: Image") && it.clone().image.is_64());
    static IMAGE: OnceLock<Pe> = OnceLock::new();
    let kept = IMAGE.get_or_init(|| Pe::parse(sample().leak()).unwrap());
    assert_eq!(kept.imports.iter().map(|x| x.thunk_index).sum::<usize>(), 0);
}

#[test]
fn an_error_of_ones_own() {
    #[derive(Debug)]
    enum Failed {
        Io(io::ErrorKind),
        Refused(Error),
    }
    impl From<Error> for Failed {
        fn from(error: Error) -> Self {
            Failed::Refused(error)
        }
    }
    impl From<io::Error> for Failed {
        fn from(error: io::Error) -> Self {
            Failed::Io(error.kind())
        }
    }
    fn count(path: &str) -> Result<usize, Failed> {
        Ok(Pe::parse(&fs::read(path)?)?.imports.len())
    }
    assert!(matches!(
        count("nowhere"),
        Err(Failed::Io(io::ErrorKind::NotFound))
    ));
    match count(&path("object_x64.obj")) {
        Err(Failed::Refused(error)) if matches!(error.kind(), ErrorKind::Malformed(_)) => {}
        other => panic!("{other:?}"),
    }
}

#[test]
fn an_iterator_is_returned() {
    fn libraries<'p>(pe: &'p Pe<'_>) -> impl Iterator<Item = String> + 'p {
        pe.imports.iter().map(|x| x.dll.to_string())
    }
    type Boxed<'a, 'b> = Box<dyn Iterator<Item = Result<Import<'a>, Error>> + 'b>;
    fn boxed<'a: 'b, 'b>(image: &Image<'a>, budget: &'b Budget) -> Boxed<'a, 'b> {
        Box::new(image.imports(budget).take(10))
    }
    let bytes = sample();
    let pe = Pe::parse(&bytes).unwrap();
    let walked: Result<Vec<_>, _> = boxed(&pe.image, &Budget::default()).collect();
    assert_eq!(libraries(&pe).count(), walked.unwrap().len());
}

#[test]
fn files_of_a_folder_are_sorted_out() {
    let mut images = 0;
    for entry in fs::read_dir(path("")).unwrap() {
        let bytes = fs::read(entry.unwrap().path()).unwrap();
        if Kind::of(&bytes) == Kind::Image {
            images += usize::from(Image::read(&bytes, Options::permissive()).is_ok());
        }
    }
    assert!(images > 5);
}
