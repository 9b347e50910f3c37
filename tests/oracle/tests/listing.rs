//! The operator's listing and the customer's: rows with their bytes.

use oracle::encode::{encode, fix_length};
use oracle::listing::LISTING_BYTES;
use oracle::pool::{Frame, OpenCall, Pool, Purse, Thread, MAX_TOKENS, MAX_WORK};
use oracle::rules::{PROMOTE, STEP};
use oracle::stored::frame_starts;
use oracle::{check, customer, full, longest, operator, schedule, start, Refusal, POOL_WORDS};

/// Program A: sets 0 to 2 + 3 and returns it.
const A: [u8; 30] = [
    0, 0, 0, 0x1E, 1, 1, 0, 1, 1, 0, 0, 0, 0, 0, 1, 0, 2, 0, 0, 0, 0, 2, 0, 0, 0, 0, 3, 3, 1, 0,
];
/// Program B: main sporks function 1, which returns 7; unpromoted it returns 1.
const B: [u8; 72] = [
    0, 0, 0, 72, 1, 2, 0, 1, 4, 1, 1, 0, 0, 0, 0, 0, 0, 4, 1, 0, 0, 0, 0, 1, 0, 0, 5, 2, 3, 0, 0,
    0, 0, 1, 0, 0, 0, 0, 0, 0, 1, 3, 1, 0, 1, 0, 0, 0, 0, 0, 3, 1, 0, 0, 1, 1, 0, 0, 0, 0, 0, 1, 0,
    0, 0, 0, 0, 0, 7, 3, 1, 0,
];
/// What the outputs hold before.
const BEFORE: u8 = 0xAA;

type Call = fn(&[u8], &[i32], &mut [u8]) -> Result<usize, Refusal>;
const CALLS: [Call; 2] = [operator, customer];

/// A listing, by an output with room for every listing, which stays behind it.
fn listed(call: Call, table: &[u8], words: &[i32]) -> String {
    let mut out = [BEFORE; LISTING_BYTES];
    let length = call(table, words, &mut out).unwrap();
    assert!(out[length..].iter().all(|&byte| byte == BEFORE));
    String::from_utf8(out[..length].to_vec()).unwrap()
}

/// Both listings.
fn both(table: &[u8], words: &[i32]) -> [String; 2] {
    CALLS.map(|call| listed(call, table, words))
}

/// A table's words after choices from a fresh pool, all made.
fn after(table: &[u8], choices: &[(u64, u64)]) -> Vec<i32> {
    let mut pool = vec![-1; POOL_WORDS];
    start(table, &mut pool).unwrap();
    assert_eq!(schedule(table, &mut pool, choices), (choices.len(), None));
    pool
}

/// The table of the threads below: function 15 has 32 blocks, the last of 16
/// statements, and a spawn call.
fn table() -> Vec<u8> {
    let table = encode(&longest::program());
    assert_eq!(check(&table), Ok(()));
    table
}

/// A frame in function 15 at the head of a block, with these values bound and so
/// many calls open, of them so many promoted.
fn frame(block: usize, bound: &[(usize, i32)], open: usize, promoted: usize) -> Frame {
    let mut frame = Frame::entering(15, &[]);
    frame.block = block;
    for &(temporary, value) in bound {
        frame.temporaries[temporary] = Some(value);
    }
    frame.calls = vec![OpenCall::plain(0); open];
    frame.promoted = promoted;
    frame
}

/// A thread of these frames, oldest first, and these children, newest first.
fn thread(frames: Vec<Frame>, newest_first: Vec<Thread>) -> Thread {
    let mut thread = Thread::entering(0, &[]);
    thread.frames = frames;
    thread.children = newest_first;
    thread.children.reverse();
    thread
}

fn words(root: Thread) -> Vec<i32> {
    Pool { root }.to_words()
}

#[test]
fn started() {
    for table in [&A[..], &B] {
        let line = "0 1 0 0 0 0 0\n";
        assert_eq!(both(table, &after(table, &[])), [line; 2]);
    }
}

#[test]
fn after_a_statement() {
    let words = after(&A, &[(STEP, 0)]);
    assert_eq!(both(&A, &words), ["0 1 0 0 1 0 0\n", "0 1 0 0 1 0 0 0 5\n"]);
}

/// B after its spork, after the promotion, after the child's statement, and after
/// the join.
#[test]
fn steps_of_b() {
    let choices = [(STEP, 0), (PROMOTE, 0), (STEP, 1), (STEP, 0)];
    let lines = |made| both(&B, &after(&B, &choices[..made]));
    assert_eq!(lines(1), ["0 1 0 1 0 1 0\n"; 2]);
    assert_eq!(lines(2), ["0 1 0 1 0 1 1\n 1 1 1 0 0 0 0\n"; 2]);
    let child = [
        "0 1 0 1 0 1 1\n 1 1 1 0 1 0 0\n",
        "0 1 0 1 0 1 1\n 1 1 1 0 1 0 0 0 7\n",
    ];
    assert_eq!(lines(3), child);
    assert_eq!(lines(4), ["0 1 0 3 0 0 0\n", "0 1 0 3 0 0 0 0 7\n"]);
}

/// Eight threads, up to three deep: thread 0 has three children, thread 1 two,
/// threads 3 and 5 one; each stands at a block of its own.
fn tree() -> Thread {
    let three = thread(
        vec![frame(3, &[(15, 15)], 2, 1)],
        vec![thread(
            vec![frame(4, &[(3, i32::MIN), (4, i32::MAX)], 0, 0)],
            vec![],
        )],
    );
    let two = thread(vec![frame(2, &[(9, -9), (10, -10), (15, 0)], 0, 0)], vec![]);
    let one = thread(vec![frame(1, &[(0, 0)], 2, 2)], vec![two, three]);
    let five = thread(
        vec![frame(5, &[(1, -1), (2, 12)], 1, 1)],
        vec![Thread::entering(0, &[])],
    );
    let mut last = frame(31, &[(8, 1_000_000_000), (11, 10), (12, -100)], 4, 0);
    last.done = 12;
    let seven = thread(vec![last], vec![]);
    thread(vec![frame(10, &[], 3, 3)], vec![one, five, seven])
}

const TREE: [&str; 2] = [
    "0 1 15 10 0 3 3
 1 1 15 1 0 2 2
  2 1 15 2 0 0 0
  3 1 15 3 0 2 1
   4 1 15 4 0 0 0
 5 1 15 5 0 1 1
  6 1 0 0 0 0 0
 7 1 15 31 12 4 0
",
    "0 1 15 10 0 3 3
 1 1 15 1 0 2 2 0 0
  2 1 15 2 0 0 0 9 -9 10 -10 15 0
  3 1 15 3 0 2 1 15 15
   4 1 15 4 0 0 0 3 -2147483648 4 2147483647
 5 1 15 5 0 1 1 1 -1 2 12
  6 1 0 0 0 0 0
 7 1 15 31 12 4 0 8 1000000000 11 10 12 -100
",
];

#[test]
fn eight_threads() {
    assert_eq!(both(&table(), &words(tree())), TREE);
}

/// Each thread is the child of the one before it, and every number is as long as
/// it can be; 4,096 bytes are enough.
#[test]
fn the_longest() {
    let words = longest::pool().to_words();
    let [operator, customer] = both(&table(), &words);
    assert_eq!(operator.len(), longest::OPERATOR);
    assert_eq!(customer.len(), longest::CUSTOMER);
    let values: String = (0..16).map(|t| format!(" {t} -2147483648")).collect();
    let (mut places, mut lines) = (String::new(), String::new());
    for thread in 0..8 {
        let open = if thread < 7 { "1 1" } else { "0 0" };
        let place = format!("{}{thread} 1 15 31 16 {open}", " ".repeat(thread));
        places += &format!("{place}\n");
        lines += &format!("{place}{values}\n");
    }
    let longest = |lines: &str| lines.split_inclusive('\n').map(str::len).max();
    assert_eq!(longest(&operator), Some(24));
    assert_eq!(longest(&customer), Some(254));
    assert_eq!([operator, customer], [places, lines]);
}

/// Of eight frames the newest alone is shown: not what the older ones have bound,
/// and not their calls, though the children are theirs.
#[test]
fn eight_frames() {
    let mut frames = vec![frame(1, &[(0, 1), (5, -5)], 1, 1); 2];
    frames.extend(vec![frame(2, &[(6, 66)], 0, 0); 4]);
    frames.push(frame(7, &[(7, 77)], 2, 0));
    frames.push(frame(8, &[(2, 22)], 3, 0));
    let children = vec![
        thread(vec![frame(9, &[], 0, 0); 3], vec![]),
        thread(vec![frame(0, &[(0, 3)], 0, 0); 2], vec![]),
    ];
    let due = [
        "0 8 15 8 0 3 0\n 1 3 15 9 0 0 0\n 2 2 15 0 0 0 0\n",
        "0 8 15 8 0 3 0 2 22\n 1 3 15 9 0 0 0\n 2 2 15 0 0 0 0 0 3\n",
    ];
    assert_eq!(both(&table(), &words(thread(frames, children))), due);
}

/// The full pool, made by choices: all children are thread 0's, by its older
/// frames, the newest with the value 6.
#[test]
fn full_pool() {
    let table = encode(&full::program());
    let words = after(&table, &full::choices());
    assert_eq!(words, full::words(&frame_starts()));
    let mut due = ["0 8 7 1 0 1 0\n", "0 8 7 1 0 1 0 0 7\n"].map(String::from);
    for thread in 1..8 {
        let place = format!(" {thread} 8 15 0 0 0 0");
        due[0] += &format!("{place}\n");
        due[1] += &format!("{place} 0 {}\n", 7 - thread);
    }
    assert_eq!(both(&table, &words), due);
}

/// Open calls are counted with the promoted ones.
#[test]
fn open_and_promoted() {
    for open in 0..=4 {
        for promoted in 0..=open {
            let children = vec![Thread::entering(0, &[]); promoted];
            let root = thread(vec![frame(0, &[], open, promoted)], children);
            let mut due = format!("0 1 15 0 0 {open} {promoted}\n");
            for child in 1..=promoted {
                due += &format!(" {child} 1 0 0 0 0 0\n");
            }
            assert_eq!(both(&table(), &words(root)), [due.clone(), due]);
        }
    }
}

/// Every temporary and value in its decimal form, the temporaries ascending.
#[test]
fn values_in_decimal() {
    let values = [
        (0, "0"),
        (1, "1"),
        (-1, "-1"),
        (9, "9"),
        (10, "10"),
        (-10, "-10"),
        (99, "99"),
        (100, "100"),
        (1_000_000, "1000000"),
        (-999_999_999, "-999999999"),
        (1_000_000_000, "1000000000"),
        (i32::MAX, "2147483647"),
        (i32::MIN, "-2147483648"),
        (i32::MIN + 1, "-2147483647"),
    ];
    for temporary in 0..16 {
        for (value, text) in values {
            let root = thread(vec![frame(0, &[(temporary, value)], 0, 0)], vec![]);
            let place = "0 1 15 0 0 0 0";
            let due = [
                format!("{place}\n"),
                format!("{place} {temporary} {text}\n"),
            ];
            assert_eq!(both(&table(), &words(root)), due);
        }
    }
    let all: Vec<(usize, i32)> = (0..16).rev().map(|t| (t, 15 - t as i32)).collect();
    let root = thread(vec![frame(0, &all, 0, 0)], vec![]);
    let due = "0 1 15 0 0 0 0 0 15 1 14 2 13 3 12 4 11 5 10 6 9 7 8 8 7 9 6 10 5 11 4 12 3 13 2 \
               14 1 15 0\n";
    assert_eq!(both(&table(), &words(root))[1], due);
}

/// Outputs of every length up to two more than the listing: 28 and nothing
/// written below it, else the listing, and what is behind it stays.
#[test]
fn every_room() {
    let (table, words) = (table(), words(tree()));
    for (call, listing) in CALLS.into_iter().zip(TREE) {
        for room in 0..=listing.len() + 2 {
            let mut out = vec![BEFORE; room];
            let answer = call(&table, &words, &mut out);
            if room < listing.len() {
                assert_eq!(answer, Err(Refusal::plain(28)), "{room} bytes");
                assert_eq!(out, vec![BEFORE; room]);
            } else {
                assert_eq!(answer, Ok(listing.len()), "{room} bytes");
                assert_eq!(out[..listing.len()], *listing.as_bytes());
                assert!(out[listing.len()..].iter().all(|&byte| byte == BEFORE));
            }
        }
    }
}

/// The operator's own length counts for the operator, and the customer's for the
/// customer.
#[test]
fn rooms_of_both() {
    let words = after(&A, &[(STEP, 0)]);
    let mut out = [BEFORE; 18];
    assert_eq!(operator(&A, &words, &mut out[..14]), Ok(14));
    assert_eq!(
        customer(&A, &words, &mut out[..14]),
        Err(Refusal::plain(28))
    );
    assert_eq!(
        customer(&A, &words, &mut out[..17]),
        Err(Refusal::plain(28))
    );
    assert_eq!(out, *b"0 1 0 0 1 0 0\n\xAA\xAA\xAA\xAA");
    assert_eq!(customer(&A, &words, &mut out), Ok(18));
    assert_eq!(out, *b"0 1 0 0 1 0 0 0 5\n");
}

/// 1 to 3, 12, 13, then 28, each with all that comes behind it refused too; no
/// output is written.
#[test]
fn order_of_refusals() {
    let fresh = after(&A, &[]);
    let mut version = A;
    version[4] = 9;
    let mut form = A;
    form[5] = 0;
    let no_pool = [0; POOL_WORDS];
    let rows: [(&[u8], &[i32], Refusal); 10] = [
        (&[], &[], Refusal::plain(1)),
        (&A[..29], &fresh, Refusal::plain(1)),
        (&version, &[], Refusal::plain(2)),
        (&version, &fresh, Refusal::plain(2)),
        (&form, &[], Refusal::byte(5)),
        (&form, &fresh, Refusal::byte(5)),
        (&A, &[], Refusal::plain(12)),
        (&A, &fresh[1..], Refusal::plain(12)),
        (&A, &no_pool, Refusal::plain(13)),
        (&A, &fresh, Refusal::plain(28)),
    ];
    for call in CALLS {
        for (table, words, due) in rows {
            assert_eq!(call(table, words, &mut []), Err(due));
            let mut out = [BEFORE; LISTING_BYTES];
            let answer = call(table, words, &mut out);
            if due.number == 28 {
                assert_eq!(answer, Ok(14));
            } else {
                assert_eq!(answer, Err(due));
                assert_eq!(out, [BEFORE; LISTING_BYTES]);
            }
        }
    }
}

/// Any table that reads: this one returns what it has not bound.
#[test]
fn of_a_refused_table() {
    let mut table = [&A[..27], &[3, 1, 1]].concat();
    fix_length(&mut table);
    assert_eq!(check(&table), Err(Refusal::fault(8, 0, 0)));
    let words = after(&table, &[(STEP, 0)]);
    assert_eq!(
        both(&table, &words),
        ["0 1 0 0 1 0 0\n", "0 1 0 0 1 0 0 0 5\n"]
    );
}

/// Work and tokens are in no line.
#[test]
fn purses_are_not_listed() {
    let mut pool = Pool { root: tree() };
    for number in 0..8 {
        pool.thread_mut(number).unwrap().purse = Purse {
            work: MAX_WORK,
            tokens: MAX_TOKENS,
        };
    }
    assert_eq!(both(&table(), &pool.to_words()), TREE);
}

/// Pools that differ in their values alone, in older frames too, are one to the
/// operator, in every output; the customer sees the newest frame's.
#[test]
fn other_values() {
    let older = |value| frame(1, &[(0, value), (15, -value)], 1, 1);
    let newest = |value| frame(2, &[(3, value), (14, 5)], 2, 0);
    let child = |value| thread(vec![frame(3, &[(1, value)], 0, 0)], vec![]);
    let pool = |a, b, c| words(thread(vec![older(a), newest(b)], vec![child(c)]));
    let table = table();
    let one = pool(1, 2, 3);
    let due = "0 2 15 2 0 2 0\n 1 1 15 3 0 0 0\n";
    for other in [
        pool(i32::MAX, 2, 3),
        pool(1, i32::MIN, 3),
        pool(1, 2, -1_000_000),
        pool(0, 0, 0),
    ] {
        assert_ne!(one, other);
        for room in 0..due.len() + 3 {
            let mut outs = [vec![BEFORE; room], vec![BEFORE; room]];
            let answers = [
                operator(&table, &one, &mut outs[0]),
                operator(&table, &other, &mut outs[1]),
            ];
            assert_eq!(answers[0], answers[1]);
            assert_eq!(outs[0], outs[1]);
        }
        assert_eq!(listed(operator, &table, &other), due);
    }
    let shown = listed(customer, &table, &one);
    assert_eq!(shown, "0 2 15 2 0 2 0 3 2 14 5\n 1 1 15 3 0 0 0 1 3\n");
    assert_eq!(listed(customer, &table, &pool(7, 2, 3)), shown);
    let other = listed(customer, &table, &pool(1, -2, 3));
    assert_eq!(other, "0 2 15 2 0 2 0 3 -2 14 5\n 1 1 15 3 0 0 0 1 3\n");
}
