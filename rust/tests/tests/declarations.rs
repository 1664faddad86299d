//! The C header and the Rust crate declare the functions that the Rattle source exports, parameter
//! by parameter. No compiler compares the three.

const RATTLE: &str = concat!(
    include_str!("../../../crates/table/src/lib.rt"),
    include_str!("../../../crates/table/src/trapping.rt"),
);
const HEADER: &str = include_str!("../../../include/surface_table.h");
const CRATE: &str = include_str!("../../table/src/exported.rs");

/// A function's name, and its parameters as Rattle writes them.
type Function = (String, Vec<String>);

/// The functions of a source in which each begins with `start`.
fn functions(source: &str, start: &str, parameter: fn(&str) -> String) -> Vec<Function> {
    let function = |rest: &str| {
        let (name, rest) = rest.split_once('(').expect("a list of parameters");
        let (list, _) = rest.split_once(')').expect("the end of the list");
        let parameters = list.split(',').map(str::trim).filter(|text| !text.is_empty());
        (name.to_string(), slices(parameters.map(parameter).collect()))
    };
    source.split(start).skip(1).map(function).collect()
}

/// A parameter of the Rattle source as it stands there, but for the open bytes and the words of a
/// packed sheet, which it calls `opened`, `lit` and `lost`.
fn in_rattle(parameter: &str) -> String {
    let (name, kind) = parameter.split_once(": ").expect("a name and a type");
    let name = match name {
        "opened" => "open",
        "lit" => "syndrome_words",
        "lost" => "loss_words",
        other => other,
    };
    format!("{name}: {kind}")
}

/// A parameter of C as Rust writes it: `const uint8_t *loss` is `loss: *const u8`.
fn in_rust(parameter: &str) -> String {
    let (kind, name) = parameter.rsplit_once([' ', '*']).expect("a type and a name");
    let number = match kind.trim_start_matches("const ").trim() {
        "size_t" => "usize",
        "uint8_t" => "u8",
        "uint16_t" => "u16",
        "uint32_t" => "u32",
        "uint64_t" => "u64",
        other => panic!("{other} is no type of a parameter"),
    };
    match (parameter.contains('*'), parameter.starts_with("const ")) {
        (false, false) => format!("{name}: {number}"),
        (true, true) => format!("{name}: *const {number}"),
        (true, false) => format!("{name}: *mut {number}"),
        (false, true) => panic!("a number that may not change: {parameter}"),
    }
}

/// The parameters with each pointer and its count as one slice, as Rattle writes it.
fn slices(parameters: Vec<String>) -> Vec<String> {
    let mut slices = Vec::new();
    let mut rest = parameters.into_iter();
    while let Some(parameter) = rest.next() {
        let (name, kind) = parameter.split_once(": ").expect("a name and a type");
        let (start, element) = match kind.split_once(' ') {
            Some(("*const", element)) => ("&", element),
            Some(("*mut", element)) => ("&mut ", element),
            _ => {
                slices.push(parameter);
                continue;
            }
        };
        assert_eq!(rest.next(), Some(format!("{name}_count: usize")), "the count of {name}");
        slices.push(format!("{name}: {start}[{element}]"));
    }
    slices
}

/// Parameters with words in the place of the bytes of syndrome and loss.
fn in_words(parameters: &[String]) -> Vec<String> {
    let words = |parameter: &String| match parameter.as_str() {
        "syndrome: &[u8]" => "syndrome_words: &[u64]".to_string(),
        "loss: &[u8]" => "loss_words: &[u64]".to_string(),
        other => other.to_string(),
    };
    parameters.iter().map(words).collect()
}

#[test]
fn declared_as_exported() {
    let exported = functions(RATTLE, "pub extern \"C\" fn ", in_rattle);
    assert_eq!(exported.len(), 17);
    let [decode, rounds, packed] = [&exported[0], &exported[1], &exported[2]];
    assert_eq!((decode.0.as_str(), decode.1.len()), ("surface_decode", 8));
    assert_eq!((rounds.0.as_str(), &rounds.1), ("surface_decode_rounds", &decode.1));
    assert_eq!((packed.0.as_str(), &packed.1), ("surface_decode_packed", &in_words(&decode.1)));
    assert_eq!(functions(HEADER, "\nuint64_t ", in_rust), exported, "the header");
    assert_eq!(functions(CRATE, "pub fn ", str::to_string), exported, "the crate");
}

/// The calls that are lent no board, and what they are lent first.
const BOARDLESS: [(&str, &str); 5] = [
    ("surface_faces", "side: u32"),
    ("surface_pack", "vertices: usize"),
    ("surface_unpack", "vertices: usize"),
    ("surface_lit_total", "vertices: usize"),
    ("surface_list_lit", "vertices: usize"),
];

/// Open bytes stand right after the marks in every call, filled where the marks are; but the torus and
/// the stack have no open vertex, so that their builders are lent none, and some calls are lent a side
/// or counts in place of a board.
#[test]
fn open_bytes_after_the_marks() {
    for (name, parameters) in functions(HEADER, "\nuint64_t ", in_rust) {
        let Some(marks) = parameters.iter().position(|text| text.starts_with("marks: ")) else {
            assert!(BOARDLESS.contains(&(&name, &parameters[0])), "{name}");
            continue;
        };
        let open = parameters.get(marks + 1).map(String::as_str);
        match name.as_str() {
            "surface_torus" => assert_eq!(open, None),
            "surface_stack" => assert_eq!(open, Some("syndrome: &mut [u8]")),
            _ => assert_eq!(
                open,
                Some(parameters[marks].replace("marks", "open").as_str()),
                "{name}"
            ),
        }
    }
}
