//! What the demonstration shows of either board: its region sheet, the forecast beside what came, and each region as it is in the device's memory. And two image
//! sets with the same images, and their tidy form.
use std::fs;
use std::process::Command;

/// Regions, bytes and memory reads of the sheet's lines that have a star.
fn counted(sheet: &[&str]) -> [u64; 3] {
    let stars = sheet.iter().filter(|line| line.ends_with('*'));
    let lens: Vec<u64> = stars.map(|line| u64::from_str_radix(line.split_whitespace().nth(2).unwrap(), 16).unwrap()).collect();
    [lens.len() as u64, lens.iter().sum(), 1 + lens.iter().map(|len| len.div_ceil(4096)).sum::<u64>()]
}

#[test]
fn both_boards() {
    let folder = std::env::temp_dir().join(format!("worgesli-demo-{}", std::process::id()));
    let shown = Command::new(env!("CARGO_BIN_EXE_demo")).arg(&folder).arg("7").output().unwrap();
    let said = String::from_utf8(shown.stdout).unwrap();
    let file = |name: &str| fs::read(folder.join("run-1").join(name)).unwrap_or_default();
    let [first, second, tidy, other] = ["first.set", "second.set", "first.tidy", "second.tidy"].map(file);
    fs::remove_dir_all(&folder).unwrap();
    assert!(shown.status.success(), "{said}{}", String::from_utf8_lossy(&shown.stderr));
    let times = |line: &str| said.lines().filter(|l| *l == line).count();
    // regions at the same place of both, and at places that go by the width
    assert_eq!(times("    DDRCS0_0.BIN         0000000080000000 0000000000300000 *"), 2, "{said}");
    assert_eq!(times("    EMPTY.BIN            0000000000000010 0000000000000000 *"), 2, "{said}");
    for line in [
        "    SCRATCH.BIN          8000000001000000 0000000000100000  ",
        "    SCRATCH.BIN          0000000081000000 0000000000100000  ",
        "    TOP.BIN              FFFFFFFFFFFEEE8F 0000000000011171 *",
        "    TOP.BIN              00000000FFFEEE8F 0000000000011171 *",
    ] {
        assert_eq!(times(line), 1, "{said}");
    }
    for board in ["64-bit", "32-bit"] {
        assert_eq!(times(&format!("{} says:", folder.join("run-1").join(board).join("regions~1.txt").display())), 1, "{said}");
    }
    assert_eq!(times("6 regions fetched, all as in the device's memory"), 2, "{said}");
    // each board's forecast: before a region was begun, and beside what came
    let (mut boards, lines): (u64, Vec<&str>) = (0, said.lines().collect());
    for board in lines.split(|line| line.starts_with("seed ")).skip(1) {
        let sheet: Vec<&str> = board.iter().copied().filter(|line| line.len() == 4 + 56).collect();
        let [regions, bytes, reads] = counted(&sheet);
        let due =
            format!("the table is there, and no region yet: {regions} regions, {bytes} bytes, {reads} memory reads are forecast");
        assert_eq!((board[0], sheet.len(), regions), (&*due, 7, 6), "{said}");
        for (what, n) in [("regions", regions), ("bytes", bytes), ("memory reads", reads)] {
            assert!(board.contains(&&*format!("    {what:<16} {n:>10} {n:>10}")), "{said}");
        }
        boards += 1;
    }
    assert_eq!(boards, 2);
    // "loader", none, "sbl1mbn", an empty image, "sbl1", none, none
    let none = u32::MAX;
    let numbers = [7, 17, 0, none, 6, 13, 13, none, none, 6, 0, 7, 0, 4, 0, 0].map(u32::to_le_bytes).concat();
    assert_eq!((&tidy, tidy == other), (&[&numbers[..], b"loadersbl1mbnsbl1"].concat(), true), "{said}");
    assert_eq!((first.len(), second.len(), tidy.len()), (78, 83, 81));
    for line in [
        "    first.set      78 bytes    first.tidy     81 bytes",
        "    second.set     83 bytes    second.tidy    81 bytes",
        "the sets differ, byte for byte; tidied they are the same",
    ] {
        assert_eq!(times(line), 1, "{said}");
    }
}
