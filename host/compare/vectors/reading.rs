//! The vectors of the reader, answered by the rules of `crate::reading` on Rust's str, which the comparison holds against the
//! original.

use super::{Area, LONGEST_LINE, Operation, Question};
use crate::generate::{Random, damage};
use crate::notation::Argument::{Number, Text};
use crate::reading::{document, expected};
use oxbreathe::sys::{self, ReadAnswer};

pub const AREA: Area = Area {
    name: "reading",
    head: &[
        "What reading gives, one vector a line: read TEXT NUMBERS = ANSWER. The text stands in bars, %XX for a byte that is",
        "not visible ASCII, or is a bar or a percent sign; NUMBERS is the size of the lent table. The answer: the refusal or",
        "0, the place, the place and the length of the name, wanted, left, the records and the rows; then the whole table.",
    ],
    longest: LONGEST_LINE,
    operations: &[Operation {
        name: "read",
        theirs: |a| {
            let (answer, table) = expected(a[0].text(), a[1].number() as usize);
            shown(&answer, &table)
        },
        ours: |a| {
            let mut table = vec![9; a[1].number() as usize];
            let answer = sys::read(a[0].text(), &mut table);
            shown(&answer, &table)
        },
    }],
    questions,
};

fn shown(answer: &ReadAnswer, table: &[u32]) -> String {
    let ReadAnswer { refusal, place, name, name_length, wanted, left, records, rows } = *answer;
    let fields =
        [refusal as u64, place as u64, name as u64, name_length as u64, wanted, left, records as u64, rows as u64];
    let numbers = fields.into_iter().chain(table.iter().map(|&n| n as u64));
    numbers.map(|n| n.to_string()).collect::<Vec<_>>().join(" ")
}

/// The examples of docs/SCOPE.md and each refusal's edges first, then random documents.
fn questions(random: &mut Random) -> Vec<Question> {
    let mut all: Vec<Question> = Vec::new();
    let mut add = |text: &[u8], numbers: usize| all.push(("read", vec![Text(text.to_vec()), Number(numbers as u64)]));
    let edges = [
        "",
        "<CALL:1>A",
        "<CALL:1>A<EOR><CALL:1>B",
        "<call:1>A<CALL:1>B<EOR>",
        "<NOTE:5><EOR><EOR>",
        "<A:+02:S>xy<EOR>",
        "<A:1>é<EOR>",
        "<A:18446744073709551615>x",
        "<A:18446744073709551616>x",
        "<A>x",
        "<A",
        "<",
        ">",
        "<>",
        "<:>",
        "<:0>",
        "< \u{3000}a\u{A0} : 1 >x<eor>",
        "<A:1>x<EOH><B:1>y<EOR>",
        "<A:1>x<EOR><EOH><EOR>",
        "<A:1>x<EOR><B:1>y<EOH>",
        "<A:1>x<EOR><APP_LoTW_EOF><B:1>y<EOR>",
        "<A:1>x<EOR><B:1>y<APP_LoTW_EOF><C:1>z<EOR>",
        "<APP_LOTW_EOF",
        "<B:1>x<A:1>y<EOR>",
        "<a_:0><AZ:0><az_:0><EOR>",
        "<A:2>x",
        "<A:0><EOR>",
        "<A:->",
        "<A:+>",
        "<A:1 2>xy",
        "<EOR:x>",
        "< Eoh : : >",
        "<A:1<B:1>xy<EOR>",
        "<é:2>é<EOR>",
        "é<NOTE:5><EOR><A",
        "é\n<A:1>x<EOR>< A >",
        "<NOTE:6><A:9>y<:x>",
        "<NOTE:1><<A:3>é",
        "<A:1>x<EOR>日<B:1>y<C:1>é",
    ];
    for text in edges {
        for numbers in [4, 5, 12] {
            add(text.as_bytes(), numbers);
        }
    }
    for text in [&b"\xFF"[..], b"<A:1>\xC3", b"<A\xE2\x82>", b"<A:1>x<EOR>\x80"] {
        add(text, 12);
    }
    for _ in 0..300 {
        let mut text = document(random);
        if random.below(3) == 0 {
            damage(random, &mut text);
        }
        let numbers = random.pick(&[0, 5, 12, 20]);
        add(&text, numbers);
    }
    all
}
