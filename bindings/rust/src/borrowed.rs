//! What borrows the bytes of a file can't outlive them. Each program here compiles, and does not if
//! the bytes are dropped before the last use.

macro_rules! borrow {
    ($($name:ident: $made:literal;)*) => {$(
        #[doc = concat!("```no_run\n", program!($made, "", "drop(bytes);"), "```")]
        #[doc = concat!("```compile_fail\n", program!($made, "drop(bytes);", ""), "```")]
        struct $name;
    )*};
}
macro_rules! program {
    ($made:literal, $before:literal, $after:literal) => {
        concat!(
            "let bytes = vec![0_u8];\n",
            "let image = goblin_pe::Image::parse(&bytes).unwrap();\n",
            "let budget = goblin_pe::Budget::default();\n",
            "let it = ", $made, ";\n", $before, "\nprintln!(\"{it:?}\");\n", $after, "\n"
        )
    };
}

borrow! {
    Image: "image";
    Pe: "goblin_pe::Pe::parse(&bytes)";
    Header: "image.header()";
    RichHeader: "image.rich_header()";
    Section: "image.sections().next()";
    Rows: "image.sections()";
    Walk: "image.imports(&budget)";
    Import: "image.imports(&budget).next()";
    Imported: "image.imports(&budget).next().unwrap().unwrap().name";
    Library: "image.libraries(&budget).next()";
    Export: "image.exports(&budget).next()";
    ExportDirectory: "image.export_directory()";
    Forwarder: "image.forwarder_at(0)";
    RelocationBlock: "image.relocation_blocks(&budget).next()";
    Symbol: "image.symbols(&budget).next()";
    Auxiliary: "image.symbol_at(0).unwrap().unwrap().auxiliary(&image)";
    Memory: "image.memory_at(0, 1)";
    Text: "image.text_at(0)";
}
