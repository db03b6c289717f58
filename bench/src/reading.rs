//! Reading case files: case L, and the largest file there is.

use crate::ports::{read_case, ReadingSaid, Tables};
use crate::{least, report};
use reference::harness::case_file::looks;
use reference::harness::refusal::Refusal;
use reference::harness::sheet::by_level;
use reference::harness::tables::{Case, Line};

fn record(file: &mut Vec<u8>, mark: &[u8; 2], fields: &[&[u8]]) {
    file.extend_from_slice(mark);
    for field in fields {
        file.extend_from_slice(field);
    }
}

/// A case of so many buses, corridors, generators and requested levels, every field sound.
fn case(buses: u16, corridors: u16, generators: u16, levels: u8) -> Vec<u8> {
    let mut file = Vec::new();
    let figure = |x: f64| x.to_le_bytes();
    record(
        &mut file,
        b"HD",
        &[
            &[0],
            &0u32.to_le_bytes(),
            &buses.to_le_bytes(),
            &corridors.to_le_bytes(),
            &generators.to_le_bytes(),
            &[0],
            &[levels],
        ],
    );
    for level in 0..levels {
        record(&mut file, b"LV", &[&figure(500.0 - 50.0 * level as f64)]);
    }
    for i in 0..buses {
        record(&mut file, b"BV", &[&[0], &figure(i as f64), &figure(1.25)]);
    }
    for _ in 0..generators {
        record(
            &mut file,
            b"GE",
            &[
                &0u16.to_le_bytes(),
                &[1],
                &figure(0.0),
                &figure(100.0),
                &figure(20.0),
                &figure(0.25),
            ],
        );
    }
    for k in 0..corridors {
        let b = (k + 1) % buses.max(2);
        record(
            &mut file,
            b"CP",
            &[
                &(k % buses).to_le_bytes(),
                &b.to_le_bytes(),
                &[1],
                &figure(10.0),
                &figure(1.0),
                &[(k % 7) as u8],
            ],
        );
    }
    for _ in 0..corridors as usize * levels as usize {
        record(
            &mut file,
            b"LN",
            &[
                &figure(0.0),
                &figure(0.5),
                &figure(0.0),
                &figure(100.0),
                &[0],
            ],
        );
    }
    file
}

/// The reference build's answer as the port says it.
fn said(answer: &Result<Case, Refusal>, looks: usize) -> ReadingSaid {
    let nothing = ReadingSaid {
        refusal: 0,
        index: 0,
        mode: 0,
        target: 0,
        buses: 0,
        corridors: 0,
        generators: 0,
        above: 0,
        requested: 0,
        looks,
    };
    match answer {
        Err(refusal) => ReadingSaid {
            refusal: refusal.number,
            index: refusal.index,
            ..nothing
        },
        Ok(case) => ReadingSaid {
            mode: case.mode.into(),
            target: case.target,
            buses: case.buses.len(),
            corridors: case.corridors.len(),
            generators: case.generators.len(),
            above: case.above,
            requested: case.ladder.len() - case.above,
            ..nothing
        },
    }
}

/// The tables of a case, zero past their counts; of a refused file all zero.
fn tables_of(answer: &Result<Case, Refusal>) -> Tables {
    let mut tables = Tables::new();
    let Ok(case) = answer else {
        return tables;
    };
    let mut figures = |k: usize, column: Vec<f64>| {
        tables.figures[k][..column.len()].copy_from_slice(&column);
    };
    figures(0, case.ladder.clone());
    figures(1, case.buses.iter().map(|b| b.reading).collect());
    figures(2, case.buses.iter().map(|b| b.weight).collect());
    figures(3, case.generators.iter().map(|g| g.pmin).collect());
    figures(4, case.generators.iter().map(|g| g.pmax).collect());
    figures(5, case.generators.iter().map(|g| g.c1).collect());
    figures(6, case.generators.iter().map(|g| g.c2).collect());
    figures(7, case.corridors.iter().map(|c| c.length).collect());
    figures(8, case.corridors.iter().map(|c| c.share).collect());
    let row = |l: &Line| [l.r, l.x, l.b, l.rate, l.basis.into()];
    let rows = by_level(&case.sheet, case.ladder.len());
    figures(9, rows.iter().flat_map(row).collect());
    let mut wholes = |k: usize, column: Vec<u32>| {
        tables.wholes[k][..column.len()].copy_from_slice(&column);
    };
    wholes(0, case.buses.iter().map(|b| b.tier.into()).collect());
    wholes(1, case.generators.iter().map(|g| g.bus.into()).collect());
    wholes(2, case.generators.iter().map(|g| g.slack.into()).collect());
    wholes(3, case.corridors.iter().map(|c| c.a.into()).collect());
    wholes(4, case.corridors.iter().map(|c| c.b.into()).collect());
    wholes(
        5,
        case.corridors.iter().map(|c| c.circuits.into()).collect(),
    );
    wholes(6, case.corridors.iter().map(|c| c.cap.into()).collect());
    tables
}

/// Both answers alike, and every place of every table; the refusal's number and index.
fn agree(what: &str, file: &[u8]) -> (u32, usize) {
    let mut tables = Tables::new();
    let port = read_case(file, &mut tables);
    let rust = reference::harness::case_file::read_case(file);
    assert_eq!(port, said(&rust, looks(file)), "{what}: what is said");
    let theirs = tables_of(&rust);
    assert!(tables.wholes == theirs.wholes, "{what}: a whole differs");
    let bits =
        |t: &Tables| -> Vec<u64> { t.figures.concat().iter().map(|x| x.to_bits()).collect() };
    assert!(bits(&tables) == bits(&theirs), "{what}: a figure differs");
    (port.refusal, port.index)
}

fn compare(what: &str, file: &[u8], runs: usize) {
    assert_eq!(agree(what, file), (0, 0), "{what}: refused");
    let mut tables = Tables::new();
    let times = least(
        runs,
        || {
            std::hint::black_box(read_case(file, &mut tables));
        },
        || {
            std::hint::black_box(reference::harness::case_file::read_case(file).is_ok());
        },
    );
    report(what, &format!("{} bytes", file.len()), times);
}

pub fn run() {
    let mut damaged = case(3, 2, 1, 2);
    assert_eq!(agree("cut", &damaged[..damaged.len() - 1]), (14, 12));
    let second = 15 + 2 * 10 + 19;
    let mut mixed = damaged.clone();
    mixed[second + 1] = b'U';
    mixed.drain(second + 11..second + 19);
    assert_eq!(agree("two forms", &mixed), (15, 4));
    mixed[second - 18] = b'U';
    mixed.drain(second - 8..second);
    assert_eq!(agree("the other way round", &mixed), (15, 5));
    damaged[15] = b'X';
    assert_eq!(agree("a wrong mark", &damaged), (15, 1));
    let mut small = case(2, 1, 1, 1);
    compare("reading, a small case", &small, 4000);
    small.resize(65_536, 0);
    compare("reading, a small case, padded", &small, 1000);
    small[65_535] = 1;
    assert_eq!(agree("not zero at the end", &small), (17, 65_535));
    let mut largest = case(256, 256, 128, 5);
    compare("reading, the largest case", &largest, 400);
    largest.resize(65_536, 0);
    compare("reading, the largest case, padded", &largest, 400);
}
