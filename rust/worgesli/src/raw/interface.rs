//! This crate's side of the C interface, held to the Rattle source as tools/interface reads it.
use super::*;
use crate::session::answer;
use crate::{Backend, Command, Mode, Phase, Width};
use std::fmt::Debug;

const SOURCE: &str = include_str!("../raw.rs");

/// What a tool of the repository prints.
pub(crate) fn tool(name: &str) -> String {
    let path = format!("{}/../../tools/{name}", env!("CARGO_MANIFEST_DIR"));
    let said = std::process::Command::new(path).output().unwrap();
    assert!(said.status.success(), "{name}: {}", String::from_utf8_lossy(&said.stderr));
    String::from_utf8(said.stdout).unwrap()
}

/// The words of the lines that begin with `kind`, without it.
fn lines(kind: &str) -> Vec<Vec<String>> {
    let words = |l: &str| l.split(' ').map(String::from).collect::<Vec<_>>();
    let found: Vec<_> = tool("interface").lines().map(words).filter(|l| l[0] == kind).map(|l| l[1..].to_vec()).collect();
    assert!(!found.is_empty(), "{kind}");
    found
}

/// Each #[repr(C)] struct of raw.rs, and each of its fields in order: struct, field, type.
fn our_structs() -> (Vec<String>, Vec<[String; 3]>) {
    let (mut structs, mut fields) = (Vec::new(), Vec::new());
    for text in SOURCE.split("#[repr(C)]\n").skip(1) {
        let (head, rest) = text.split_once(" {\n").unwrap();
        let name = head.rsplit_once("pub struct ").unwrap().1.to_string();
        for line in rest.split_once("\n}\n").unwrap().0.lines().map(str::trim).filter(|l| !l.starts_with("//")) {
            let (field, type_) = line.strip_prefix("pub ").and_then(|l| l.strip_suffix(',')?.split_once(": ")).unwrap();
            fields.push([name.clone(), field.into(), type_.replace(' ', "")]);
        }
        structs.push(name);
    }
    structs.sort();
    fields.sort_by(|a, b| a[0].cmp(&b[0]));
    (structs, fields)
}

#[test]
fn structs_are_those_of_the_source() {
    let (mut structs, mut fields) = (lines("struct"), lines("field"));
    structs.sort();
    fields.sort_by(|a, b| a[0].cmp(&b[0]));
    let (our, ours) = our_structs();
    assert_eq!(structs.iter().map(|s| &s[0]).collect::<Vec<_>>(), our.iter().collect::<Vec<_>>());
    assert_eq!(fields.iter().map(|f| &f[..3]).collect::<Vec<_>>(), ours.iter().map(|f| &f[..]).collect::<Vec<_>>());
    for s in structs {
        assert!(SOURCE.contains(&format!("    assert!(size_of::<{}>() == {});\n", s[0], s[1])), "the size of {}", s[0]);
    }
}

/// A parameter as it stands in raw.rs: a slice is a pointer and a length, an array behind a reference a pointer.
fn parameter(name: &str, type_: &str) -> String {
    let Some(lent) = type_.strip_prefix('&') else {
        return format!("{name}: {type_}");
    };
    let (pointer, lent) = match lent.strip_prefix("mut") {
        Some(lent) => ("*mut", lent),
        None => ("*const", lent),
    };
    let lent = lent.trim_matches(['[', ']']);
    match lent.split_once(';') {
        Some((element, _)) => format!("{name}: {pointer} {element}"),
        None => format!("{name}: {pointer} {lent}, {name}_len: usize"),
    }
}

#[test]
fn functions_are_those_of_the_source() {
    let block = SOURCE.split_once("unsafe extern \"C\" {\n").unwrap().1.split_once("\n}\n").unwrap().0;
    let line = |f: &str| {
        f.split_whitespace().collect::<Vec<_>>().join(" ").replace("( ", "(").replace(", )", ")").replace("pub safe fn", "pub fn")
    };
    let ours: Vec<String> = block.split(';').map(line).filter(|f| !f.is_empty()).collect();
    let theirs = lines("function").into_iter().map(|f| {
        let parameters: Vec<String> = f[2..].iter().map(|p| p.split_once(':').unwrap()).map(|(n, t)| parameter(n, t)).collect();
        format!("pub fn {}({}) -> {}", f[0], parameters.join(", "), f[1])
    });
    assert_eq!(ours, theirs.collect::<Vec<_>>());
}

/// The arrays that are lent to a step in place, or to what it wants, are the session's parts, no longer than they are.
#[test]
fn parts_of_a_session() {
    let ends = [0, offset_of!(Session, reads), offset_of!(Session, window), size_of::<Session>()];
    let lent: Vec<_> = lines("function").into_iter().filter(|f| f[0].ends_with("_in_place")).collect();
    assert_eq!(lent.len(), 2);
    for f in lent {
        for (i, (name, element, size)) in [("head", "u32", 4), ("numbers", "u64", 8), ("window", "u8", 1)].into_iter().enumerate()
        {
            let array = format!("[{element};{}]", (ends[i + 1] - ends[i]) / size);
            assert!([format!("{name}:&mut{array}"), format!("{name}:&{array}")].contains(&f[2 + i]), "{f:?}: {array}");
        }
    }
}

#[test]
fn number_of_the_interface() {
    assert_eq!(lines("abi"), [[ABI.to_string()]]);
    assert_eq!([worgesli_abi(), worgesli_abi_2()], [ABI; 2]);
    assert!(SOURCE.contains(&format!("= worgesli_abi_{ABI};")));
}

/// The name of an enum's case.
fn case(value: impl Debug) -> String {
    format!("{value:?}").chars().take_while(|c| c.is_alphanumeric()).collect()
}

/// Names and numbers of a group.
fn numbers(group: &str) -> Vec<(String, u32)> {
    let number = |n: &str| n.strip_prefix("0x").map_or_else(|| n.parse().unwrap(), |n| u32::from_str_radix(n, 16).unwrap());
    lines("number").iter().filter(|l| l[0] == group).map(|l| (l[1].clone(), number(&l[2]))).collect()
}

fn named<T: Debug>(of: impl Fn(u32) -> Option<T>) -> Vec<(String, u32)> {
    (0..100).filter_map(|n| Some((case(of(n)?), n))).collect()
}

#[test]
fn numbers_are_those_of_the_source() {
    assert_eq!(numbers("mode"), named(Mode::from_number));
    let mut commands = named(Command::from_number);
    commands.push(("None".into(), NO_COMMAND));
    assert_eq!(numbers("command"), commands);
    assert_eq!(numbers("backend"), [Backend::Serial, Backend::Usb].map(|b| (case(b), b as u32)));
    assert_eq!(numbers("width"), Width::BOTH.map(|w| (case(w), w as u32)));
    // a session in each phase, all its other numbers 0
    let phase = |n| crate::Session::from_raw(Session { phase: n, ..worgesli_open(0, NO_COMMAND, 0) }).map(|s| s.phase());
    assert_eq!(numbers("phase"), named(phase));
    for (name, n) in numbers("phase") {
        let phases = [Phase::Packet, Phase::Response, Phase::Switched, Phase::Table, Phase::Between, Phase::Region, Phase::Ended];
        assert_eq!(phases.iter().find(|p| case(p) == name).map(|p| *p as u32), Some(n));
    }
    // of 48 bytes that are 0 but for the command, just the kinds are packets
    let is_kind = |n: &u32| crate::parse_packet(&[&n.to_le_bytes()[..], &[0; 44]].concat()).is_ok();
    assert_eq!(numbers("kind").into_iter().map(|k| k.1).collect::<Vec<_>>(), (0..100).filter(is_kind).collect::<Vec<_>>());
    let answers = numbers("answer");
    assert_eq!(answers, (0..answers.len() as u32).map(|n| (case(answer(n, 0, 0)), n)).collect::<Vec<_>>());
}
