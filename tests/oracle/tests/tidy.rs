//! The stored tidy tables, and what an output gets.

use oracle::encode::{encode, fix_length};
use oracle::gen::calls::{dense, line};
use oracle::rng::Rng;
use oracle::stored::{case_tables, tidy_rows};
use oracle::table::TABLE_MAX;
use oracle::tidy::{is_tidy, tidied};
use oracle::{check, read, tidy, Program, Refusal};

/// The tidy table of a table, with as much room as the table has bytes.
fn tidy_of(table: &[u8]) -> Result<Vec<u8>, Refusal> {
    let mut out = vec![0xEE; table.len()];
    let length = tidy(table, &mut out)?;
    out.truncate(length);
    Ok(out)
}

#[test]
fn stored_rows() {
    let rows = tidy_rows();
    assert_eq!(rows.len(), 18);
    for row in rows {
        assert_eq!(check(&row.table), Ok(()), "{}", row.name);
        assert_eq!(tidy_of(&row.table), Ok(row.tidy.clone()), "{}", row.name);
        assert_eq!(tidy_of(&row.tidy), Ok(row.tidy.clone()), "{}", row.name);
        assert!(is_tidy(&read(&row.tidy).unwrap()), "{}", row.name);
        let same = row.table == row.tidy;
        assert_eq!(is_tidy(&read(&row.table).unwrap()), same, "{}", row.name);
    }
}

/// 23 exactly where the output is shorter than the tidy table, however long the
/// table is; what is behind the tidy table stays, and a refusal writes nothing.
#[test]
fn row_23() {
    for row in tidy_rows() {
        let length = row.tidy.len();
        for room in [0, 1, length - 1, length, length + 1, 2 * length] {
            let mut out = vec![0xEE; room];
            let answer = tidy(&row.table, &mut out);
            if room < length {
                assert_eq!(answer, Err(Refusal::plain(23)), "{}", row.name);
                assert_eq!(out, vec![0xEE; room], "{}", row.name);
            } else {
                assert_eq!(answer, Ok(length), "{}", row.name);
                assert_eq!(out[..length], row.tidy, "{}", row.name);
                assert!(out[length..].iter().all(|&byte| byte == 0xEE));
            }
        }
    }
}

/// The check's own refusals come before 23.
#[test]
fn refused_before_23() {
    let mut table = tidy_rows()[0].table.clone();
    let tried = |table: &[u8], due: Refusal| {
        assert_eq!(tidy(table, &mut []), Err(due));
        assert_eq!(tidy_of(table), Err(due));
    };
    tried(&table[..5], Refusal::plain(1));
    table[6] = 1;
    tried(&table, Refusal::fault(4, 0, 255));
    table[7] = 5;
    tried(&table, Refusal::byte(7));
    table[4] = 2;
    tried(&table, Refusal::plain(2));
    table.push(0);
    tried(&table, Refusal::plain(1));
    fix_length(&mut table);
    tried(&table, Refusal::plain(2));
}

/// Sixteen functions, thirty-two blocks and the largest table.
#[test]
fn as_much_as_a_table_has() {
    let line = line(16);
    assert_eq!(tidied(&line), line);
    // Every block calls a later function, so that all stays but the blocks
    // behind the entry of the last function, which returns.
    let tidy = tidied(&dense(&mut Rng::new(1), 16, 32));
    let mut blocks: Vec<usize> = tidy.functions.iter().map(|f| f.blocks.len()).collect();
    blocks.sort_unstable();
    assert_eq!(blocks, [&[1][..], &[32; 15]].concat());
    let full = oracle::gen::programs::well_formed_of_size(&mut Rng::new(1), TABLE_MAX);
    let table = encode(&full);
    assert_eq!(table.len(), TABLE_MAX);
    assert_eq!(tidy_of(&table), Ok(encode(&tidied(&full))));
}

/// Main of a program whose functions are all dead but it.
#[test]
fn main_alone() {
    let program = line(16);
    let functions = [&[program.functions[15].clone()], &program.functions[..]].concat();
    let main = Program {
        functions: functions[..16].to_vec(),
    };
    // Function k + 1 calls function k + 1, itself.
    assert_eq!(check(&encode(&main)), Ok(()));
    let tidy = tidied(&main);
    assert_eq!(tidy.functions, program.functions[15..]);
}

#[test]
fn stored_cases() {
    let tables = case_tables();
    assert!(tables.len() >= 402);
    let mut accepted = 0;
    for table in tables {
        match check(&table) {
            Err(refusal) => assert_eq!(tidy_of(&table), Err(refusal)),
            Ok(()) => {
                accepted += 1;
                let tidy = tidy_of(&table).unwrap();
                assert!(tidy.len() <= table.len());
                assert_eq!(check(&tidy), Ok(()));
                assert_eq!(tidy_of(&tidy), Ok(tidy));
            }
        }
    }
    assert!(accepted >= 100);
}
