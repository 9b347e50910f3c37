//! The stored completions, what is lent to one, and all scopes and nestings of
//! small functions.

use oracle::complete::{complete, completed, OUTPUT, SCRATCH};
use oracle::encode::{encode, encode_brief, fix_length};
use oracle::every;
use oracle::gen::brief::{bare, drop_dead, sized};
use oracle::gen::small::small;
use oracle::graph::live;
use oracle::rng::Rng;
use oracle::stored::{brief_rows, case_tables};
use oracle::table::{
    read_brief, Block, Function, Name, Program, SpawnCall, Transfer, BRIEF_MAX, TABLE_MAX,
};
use oracle::{check, read, Refusal};

/// What stands in lent memory before a call.
const BYTE: u8 = 0xEE;
const WORD: u32 = 0xEEEE_EEEE;

/// The completed table, with exactly as much memory as is asked for.
fn completed_table(table: &[u8]) -> Result<Vec<u8>, Refusal> {
    let (mut out, mut scratch) = (vec![BYTE; OUTPUT], vec![WORD; SCRATCH]);
    let length = complete(table, &mut out, &mut scratch)?;
    assert!(out[length..].iter().all(|&byte| byte == 0));
    out.truncate(length);
    Ok(out)
}

#[test]
fn stored_rows() {
    let rows = brief_rows();
    assert_eq!(rows.len(), 38);
    for row in rows {
        let given = completed_table(&row.table);
        assert_eq!(given, row.completed, "{}", row.name);
        if let Ok(table) = given {
            assert_eq!(check(&table), Ok(()), "{}", row.name);
            let program = read(&table).unwrap();
            assert_eq!(encode_brief(&program), row.table, "{}", row.name);
        }
    }
}

/// Wherever a row's functions are small, all scopes and nestings are tried.
#[test]
fn stored_rows_by_trying() {
    let mut tried = 0;
    for row in brief_rows() {
        let Ok(program) = read_brief(&row.table) else {
            continue;
        };
        let count = |function| every::count(function).is_some_and(|count| count <= every::MOST);
        if program.functions.iter().all(count) {
            tried += 1;
            assert_eq!(
                by_trying(&program),
                row.completed.map(|_| ()),
                "{}",
                row.name
            );
        }
    }
    assert!(tried >= 25, "{tried} rows are tried");
}

/// The answer that trying everything gives; the completed program is among
/// what passes, and its scopes lie in all others.
fn by_trying(program: &Program) -> Result<(), Refusal> {
    for (f, function) in program.functions.iter().enumerate() {
        if let Some(b) = live(function).iter().position(|live| !live) {
            return Err(Refusal::fault(25, f, b));
        }
    }
    let answer = completed(program);
    for f in 0..program.functions.len() {
        let passing = every::passing(program, f).expect("few are to be tried");
        if passing.is_empty() {
            return Err(Refusal::fault(26, f, 255));
        }
        let Ok(answer) = &answer else {
            continue;
        };
        let given = &answer.functions[f];
        assert!(passing.contains(given));
        for other in &passing {
            for (block, other) in given.blocks.iter().zip(&other.blocks) {
                assert!(block.scope.is_subset(&other.scope));
                assert_eq!(block.nesting, other.nesting);
            }
        }
    }
    Ok(())
}

/// Accepted exactly where some scopes and nestings pass, refused for the first
/// function of which none do, and the smallest given.
#[test]
fn small_programs_by_trying() {
    let mut answers = [0; 3];
    for round in 0..600 {
        let program = bare(&small(&mut Rng::of_round(11, round)));
        let answer = completed(&program).map(|_| ());
        assert_eq!(answer, by_trying(&program), "{program:?}");
        answers[match answer {
            Ok(()) => 0,
            Err(refusal) => usize::from(refusal.number) - 24,
        }] += 1;
    }
    assert!(answers.iter().all(|&count| count >= 50), "{answers:?}");
}

/// 24 exactly where fewer than 1,024 words or another number of bytes are lent,
/// behind 1 to 3 and before 25 and 26; nothing is written then.
#[test]
fn row_24() {
    for row in brief_rows() {
        for room in [0, 1, OUTPUT - 1, OUTPUT, OUTPUT + 1] {
            for words in [0, SCRATCH - 1, SCRATCH, SCRATCH + 1, 2 * SCRATCH] {
                let (mut out, mut scratch) = (vec![BYTE; room], vec![WORD; words]);
                let answer = complete(&row.table, &mut out, &mut scratch);
                let read = matches!(&row.completed, Err(refusal) if refusal.number <= 3);
                let fits = room == OUTPUT && words >= SCRATCH;
                let due = match &row.completed {
                    _ if !read && !fits => Err(Refusal::plain(24)),
                    completed => completed.as_ref().map(Vec::len).map_err(|refusal| *refusal),
                };
                assert_eq!(answer, due, "{}", row.name);
                match answer {
                    Ok(length) => {
                        assert_eq!(Ok(&out[..length]), row.completed.as_deref().map_err(|_| ()));
                        assert!(out[length..].iter().all(|&byte| byte == 0));
                    }
                    Err(_) => assert!(out.iter().all(|&byte| byte == BYTE)),
                }
                let (used, kept) = scratch.split_at(words.min(SCRATCH));
                let left = if read || !fits { WORD } else { 0 };
                assert!(used.iter().all(|&word| word == left), "{}", row.name);
                assert!(kept.iter().all(|&word| word == WORD), "{}", row.name);
            }
        }
    }
}

/// 12,800 bytes are completed, and one more gets 1, whatever the version.
#[test]
fn largest_tables() {
    let program = sized(&mut Rng::new(3), BRIEF_MAX);
    let mut table = encode_brief(&program);
    assert_eq!(table.len(), BRIEF_MAX);
    let full = completed_table(&table).unwrap();
    assert_eq!(check(&full), Ok(()));
    table.push(0);
    fix_length(&mut table);
    for version in [1, 2, 3] {
        table[4] = version;
        assert_eq!(completed_table(&table), Err(Refusal::plain(1)));
    }
    table.pop();
    fix_length(&mut table);
    assert_eq!(completed_table(&table), Err(Refusal::plain(2)));
    table[4] = 2;
    assert!(completed_table(&table).is_ok());
    let larger = encode_brief(&sized(&mut Rng::new(4), BRIEF_MAX + 1));
    assert_eq!(completed_table(&larger), Err(Refusal::plain(1)));
}

/// Sixteen functions of thirty-two blocks, nearly all under four calls: the
/// completed table has 3,264 bytes more.
#[test]
fn deepest_tables() {
    let chain = |k: usize| {
        let next = (k + 1) as Name;
        match k {
            0..4 => Transfer::Spork {
                body: next,
                spawn: 7,
            },
            4..27 => Transfer::Goto {
                block: next,
                arguments: Vec::new(),
            },
            27..31 => Transfer::Spoin {
                unpromoted: next,
                promoted: next,
            },
            _ => Transfer::Return {
                arguments: Vec::new(),
            },
        }
    };
    let block = |k| Block {
        parameters: Vec::new(),
        scope: Default::default(),
        nesting: Vec::new(),
        statements: Vec::new(),
        transfer: chain(k),
    };
    let spawn = SpawnCall {
        function: 15,
        arguments: Vec::new(),
    };
    let function = Function {
        parameters: 0,
        returns: 0,
        spawns: vec![spawn; 8],
        blocks: (0..32).map(block).collect(),
    };
    let program = Program {
        functions: vec![function; 16],
    };
    let brief = encode_brief(&program);
    let table = completed_table(&brief).unwrap();
    assert_eq!(check(&table), Ok(()));
    let names: usize = [1, 2, 3, 4 * 24, 3, 2, 1].iter().sum();
    assert_eq!(table.len() - brief.len(), 16 * (32 * 3 + names));
    for block in &read(&table).unwrap().functions[9].blocks[4..28] {
        assert_eq!(block.nesting, [7; 4]);
    }
}

/// The accepted tables of the stored cases without scopes, nestings and dead
/// blocks.
#[test]
fn stored_cases() {
    let mut count = 0;
    for table in case_tables() {
        if table.get(4) != Some(&2) {
            let refused = completed_table(&table).unwrap_err();
            assert!(refused.number <= 2);
        }
        let Ok(mut program) = read(&table) else {
            continue;
        };
        if check(&table).is_err() {
            continue;
        }
        program.functions.iter_mut().for_each(drop_dead);
        let brief = encode_brief(&program);
        if brief.len() > BRIEF_MAX {
            continue;
        }
        count += 1;
        let given = read(&completed_table(&brief).unwrap()).unwrap();
        assert!(encode(&given).len() <= TABLE_MAX);
        assert_eq!(bare(&given), bare(&program));
        let blocks = |program: &Program| -> Vec<Block> {
            let functions = program.functions.iter();
            functions.flat_map(|f| f.blocks.clone()).collect()
        };
        for (block, old) in blocks(&given).iter().zip(blocks(&program)) {
            assert!(block.scope.is_subset(&old.scope));
            assert_eq!(block.nesting, old.nesting);
        }
    }
    assert!(count >= 100, "{count}");
}
