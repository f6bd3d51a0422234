//! Refusal 6: an expression where a process belongs, or the other way round.

use reference::build::Builder;

use super::{all_refused, Cases, PROCESS_AND_EXPRESSION};
use crate::common::answers::{table_gives, ACCEPTED};
use crate::common::by_hand::{each_kind, joined};

#[test]
fn each_kind_with_a_reference() {
    let cases: Cases<'_> = &[
        (&[3, 0, 1], 0),
        (&[4, 0, 1], 0),
        (&[5, 1, 0], 0),
        (&[5, 0, 1], 0),
        (&[5, 1, 1], 0),
        (&[6, 0], 0),
        (&[9, 0, 0], 0),
        (&[10, 0, 0], 0),
        (&[11, 0, 1], 0),
        (&[11, 1, 0], 0),
        (&[11, 0, 0], 0),
        (&[13, 1], 0),
    ];
    let kinds = [3, 4, 5, 6, 9, 10, 11, 13];
    all_refused(6, PROCESS_AND_EXPRESSION, cases, &kinds);
}

/// Each kind of expression in each field that takes a process, and the other
/// fields with it.
#[test]
fn each_kind_of_expression_as_reference() {
    let front = each_kind::records().bytes();
    let at = front.len();
    for expression in each_kind::EXPRESSIONS {
        for record in [
            vec![3, 0, expression],
            vec![4, 0, expression],
            vec![5, expression, each_kind::NIL],
            vec![5, each_kind::NIL, expression],
            vec![5, expression, expression],
            vec![13, expression],
        ] {
            table_gives(&joined(&[&front, &record]), (6, at));
        }
        for record in [
            vec![6, expression],
            vec![9, 0, expression],
            vec![10, 0, expression],
            vec![11, expression, each_kind::END],
            vec![11, each_kind::END, expression],
        ] {
            let table = joined(&[&front, &record, &[13, each_kind::NIL]]);
            table_gives(&table, ACCEPTED);
        }
    }
}

/// Each kind of process in each field that takes an expression, and the other
/// fields with it.
#[test]
fn each_kind_of_process_as_reference() {
    let front = each_kind::records().bytes();
    let at = front.len();
    for process in each_kind::PROCESSES {
        for record in [
            vec![6, process],
            vec![9, 0, process],
            vec![10, 0, process],
            vec![11, process, each_kind::END],
            vec![11, each_kind::END, process],
            vec![11, process, process],
        ] {
            table_gives(&joined(&[&front, &record]), (6, at));
        }
        for record in [
            vec![3, 0, process],
            vec![4, 0, process],
            vec![5, process, each_kind::NIL],
            vec![5, each_kind::NIL, process],
        ] {
            let table = joined(&[&front, &record, &[13, each_kind::NIL]]);
            table_gives(&table, ACCEPTED);
        }
        table_gives(&joined(&[&front, &[13, process]]), ACCEPTED);
    }
}

/// A side that is at the limit does not matter.
#[test]
fn before_7() {
    let mut table = Builder::new();
    let end = table.end();
    let eight = (0..3).fold(end, |all, _| table.or_else(all, all));
    let put = table.put(0);
    let wide = table.copies(put, 64);
    let long = (0..16).fold(end, |all, _| table.rd(0, all));
    let cases: Cases<'_> = &[
        (&[5, wide, end], 0),
        (&[5, end, wide], 0),
        (&[11, eight, put], 0),
        (&[11, put, eight], 0),
        (&[9, 0, wide], 0),
        (&[10, 0, wide], 0),
        (&[3, 0, long], 0),
        (&[4, 0, eight], 0),
        (&[6, wide], 0),
    ];
    all_refused(6, &table.bytes(), cases, &[3, 4, 5, 6, 9, 10, 11]);
}

#[test]
fn before_9() {
    table_gives(&[7, 13, 0, 1], (6, 1));
    table_gives(&[1, 7, 13, 1, 13, 0], (6, 2));
}
