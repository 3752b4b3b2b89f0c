//! Costs and lengths: the grid, the single cells, and what the map as a whole must hold.

mod common;

use common::Bench;
use second::cells;
use second::opcodes::{cell_at, Cost, GRID};

/// Cycles of one instruction at $4000 with all registers 0 and zero memory.
fn cycles(code: &[u8]) -> u32 {
    Bench::with(code).step()
}

#[test]
fn loading_a_costs_1_3_3_3_3_4_6_6() {
    let forms: [&[u8]; 8] = [
        &[0x86, 0x00],
        &[0x96, 0x00],
        &[0xB6, 0x00, 0x00],
        &[0xA6, 0x00],
        &[0xA6, 0xE0, 0x00],
        &[0xA6, 0xE2, 0x00, 0x00],
        &[0xA6, 0xE7],
        &[0xA6, 0xE3, 0x00, 0x00],
    ];
    let costs: Vec<u32> = forms.iter().map(|code| cycles(code)).collect();
    assert_eq!(costs, [1, 3, 3, 3, 3, 4, 6, 6]);
}

#[test]
fn the_five_indexed_forms_of_each_family() {
    let families: [(&[u8], [u32; 5]); 8] = [
        (&[0xEC], [3, 3, 4, 6, 6]),
        (&[0x6E], [2, 3, 3, 4, 4]),
        (&[0x69], [2, 3, 3, 4, 4]),
        (&[0x66], [3, 4, 5, 6, 6]),
        (&[0x05], [3, 3, 4, 6, 6]),
        (&[0x15], [4, 4, 5, 7, 7]),
        (&[0x18, 0x19], [4, 4, 5, 7, 7]),
        (&[0x18, 0x1D], [4, 5, 6, 7, 7]),
    ];
    for (opcode, expected) in families {
        let costs: Vec<u32> = [0x00, 0xE0, 0xE2, 0xE7, 0xE3]
            .iter()
            .map(|&postbyte| cycles(&[opcode, &[postbyte, 0, 0]].concat()))
            .collect();
        assert_eq!(costs, expected, "{:02X?}", opcode);
    }
}

#[test]
fn costs_that_the_papers_print_differently() {
    // EDIV, MUL, EMUL, EMACS, divisions, tables, the moves, WAI, SWI, TRAP, RTI.
    let cells: [(&[u8], u32); 20] = [
        (&[0x11], 11),
        (&[0x12], 1),
        (&[0x13], 3),
        (&[0x18, 0x12, 0, 0], 13),
        (&[0x18, 0x10], 12),
        (&[0x18, 0x11], 12),
        (&[0x18, 0x14], 12),
        (&[0x18, 0x15], 12),
        (&[0x18, 0x13], 3),
        (&[0x18, 0x3D, 0], 6),
        (&[0x18, 0x3F, 0], 10),
        (&[0x18, 0x08, 0, 0], 4),
        (&[0x18, 0x0B, 0, 0, 0], 4),
        (&[0x18, 0x03, 0, 0, 0, 0], 5),
        (&[0x18, 0x04, 0, 0, 0, 0], 6),
        (&[0x18, 0x02, 0, 0], 5),
        (&[0x3E], 7),
        (&[0x3F], 9),
        (&[0x18, 0xFF], 10),
        (&[0x0B], 8),
    ];
    for (code, expected) in cells {
        assert_eq!(cycles(code), expected, "{:02X?}", code);
    }
}

#[test]
fn bit_branches_cost_the_same_taken_or_not() {
    for (code, expected) in [
        (&[0x4E, 0, 0xFF, 2][..], 4),
        (&[0x1E, 0, 0, 0xFF, 2], 5),
        (&[0x0E, 0xE2, 0, 0, 0xFF, 2], 6),
    ] {
        assert_eq!(cycles(code), expected);
        let mut taken = Bench::with(code);
        taken.put(0, &[0xFF]);
        assert_eq!(taken.step(), expected);
        assert_eq!(usize::from(taken.cpu.pc), 0x4002 + code.len());
    }
}

#[test]
fn the_map_has_512_cells_ten_stops_202_traps_and_no_cost_above_13() {
    let lines = cells::lines();
    assert_eq!(lines.len(), 512);
    let (mut stops, mut traps) = (Vec::new(), 0);
    for page in 1..=2 {
        for opcode in 0..=255 {
            let cell = cell_at(page, opcode);
            match cell.cost {
                Cost::Stops => stops.push((page, opcode)),
                Cost::Cycles(cycles) => assert!((1..=13).contains(&cycles)),
                Cost::Branch(taken, not) => assert!(taken <= 4 && not <= taken),
                Cost::Grid(_) | Cost::Prebyte => {}
            }
            traps += u32::from(cell.operation.name() == "TRAP");
        }
    }
    let expected: [(u8, u8); 10] = [
        (1, 0x00),
        (1, 0x01),
        (1, 0x0A),
        (1, 0x3C),
        (1, 0x4A),
        (1, 0x4B),
        (2, 0x3A),
        (2, 0x3B),
        (2, 0x3C),
        (2, 0x3E),
    ];
    assert_eq!(stops, expected);
    assert_eq!(traps, 202);
    assert!(GRID.iter().flatten().all(|&cost| cost <= 13));
}

/// Costs as the opcode maps of 003 print them, a line for each high digit, a range for the
/// indexed forms. Corrected here: the stop encodings and the prebyte have none, 13 (EMUL) has
/// the 3 of its footnote, and 18 08 the 4 that its printed letters and 002 give.
const MAP_1: [&str; 16] = [
    "- - 1 1 3 3-6 3 4 1 1 - 8 4-6 4-6 4-6 4-6",
    "1 11 1 3 1 4-7 4 4 - 2 2 2 4 4 5 5",
    "3 1 3/1 3/1 3/1 3/1 3/1 3/1 3/1 3/1 3/1 3/1 3/1 3/1 3/1 3/1",
    "3 3 3 3 2 2 2 2 3 2 3 2 - 5 7 9",
    "1 1 1 1 1 1 1 1 1 1 - - 4 4 4 4",
    "1 1 1 1 1 1 1 1 1 1 2 2 2 2 2 2",
    "3-6 3-6 3-6 3-6 3-6 3-6 3-6 3-6 3-6 2-4 2-4 2-4 2-4 2-4 2-4 2-4",
    "4 4 4 4 4 4 4 4 4 3 3 3 3 3 3 3",
    "1 1 1 2 1 1 1 1 1 1 1 1 2 2 2 2",
    "3 3 3 3 3 3 3 1 3 3 3 3 3 3 3 3",
    "3-6 3-6 3-6 3-6 3-6 3-6 3-6 1 3-6 3-6 3-6 3-6 3-6 3-6 3-6 3-6",
    "3 3 3 3 3 3 3 1 3 3 3 3 3 3 3 3",
    "1 1 1 2 1 1 1 1 1 1 1 1 2 2 2 2",
    "3 3 3 3 3 3 3 1 3 3 3 3 3 3 3 3",
    "3-6 3-6 3-6 3-6 3-6 3-6 3-6 3-6 3-6 3-6 3-6 3-6 3-6 3-6 3-6 3-6",
    "3 3 3 3 3 3 3 3 3 3 3 3 3 3 3 3",
];
const MAP_2: [&str; 4] = [
    "4 5 5 5 6 5 2 3 4 5 5 4 6 5 2 2",
    "12 12 13 3 12 12 2 2 4-7 4-7 4-7 4-7 4-7 4-7 4-7 4-7",
    "4 3 4/3 4/3 4/3 4/3 4/3 4/3 4/3 4/3 4/3 4/3 4/3 4/3 4/3 4/3",
    "10 10 10 10 10 10 10 10 10 10 - - - 6 - 10",
];

/// A cost as the map prints it: an indexed cell has a range.
fn as_in_the_map(cost: &str) -> String {
    let costs: Vec<u32> = cost.split(',').filter_map(|part| part.parse().ok()).collect();
    match (costs.iter().min(), costs.iter().max()) {
        (Some(least), Some(most)) if least != most => format!("{}-{}", least, most),
        (Some(only), _) => only.to_string(),
        _ => cost.to_string(),
    }
}

#[test]
fn every_cost_is_in_the_printed_map() {
    let lines = cells::lines();
    let printed = MAP_1.iter().chain(&MAP_2);
    for (row, printed) in printed.enumerate() {
        for (column, expected) in printed.split(' ').enumerate() {
            let line = &lines[row * 16 + column];
            let cost = line.rsplit(' ').next().unwrap();
            assert_eq!(as_in_the_map(cost), expected, "{}", line);
        }
    }
    assert!(lines[256 + 64..].iter().all(|line| line.ends_with(" TRAP 2 10")));
}

#[test]
fn lines_of_the_map() {
    let lines = cells::lines();
    for line in [
        "1 00 BGND 1 -",
        "1 04 LOOP 3 3",
        "1 0E BRSET 4 4,5,6,-,-",
        "1 18 PAGE2 1 -",
        "1 20 BRA 2 3",
        "1 22 BHI 2 3/1",
        "1 3C wavr 1 -",
        "1 4A CALL 4 -",
        "1 4B CALL 3 -",
        "1 86 LDAA 2 1",
        "1 A6 LDAA 2 3,3,4,6,6",
        "1 B7 TFR/EXG 2 1",
        "2 00 MOVW 5 4,-,-,-,-",
        "2 0C MOVB 6 6",
        "2 12 EMACS 4 13",
        "2 2F LBLE 4 4/3",
        "2 30 TRAP 2 10",
        "2 3D TBL 3 6,-,-,-,-",
        "2 3E STOP 2 -",
        "2 FF TRAP 2 10",
    ] {
        assert!(lines.iter().any(|found| found == line), "{}", line);
    }
}

#[test]
fn a_stop_encoding_changes_nothing() {
    for code in [
        &[0x00][..],
        &[0x01],
        &[0x0A],
        &[0x3C],
        &[0x4A],
        &[0x4B, 0xE3],
        &[0x18, 0x3A],
        &[0x18, 0x3B],
        &[0x18, 0x3C],
        &[0x18, 0x3E],
    ] {
        let mut bench = Bench::with(code);
        let before = (bench.cpu, bench.memory.clone());
        let outcome = bench.try_step(0);
        assert_eq!((outcome.reply.number(), outcome.cycles), (4, 0));
        assert_eq!((bench.cpu, bench.memory), before);
    }
}
