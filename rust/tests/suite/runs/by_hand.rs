//! Edges of single moves, written out.

use reference::build::Builder;
use reference::run::Tally;
use ruonfidd::HALL_BYTES;

use crate::common::by_hand::{attempt, each_kind, hall, joined, leaf};
use crate::common::by_hand::{leaning_left, leaning_right};
use crate::common::by_hand::{BARE_RETRY, FORK, PUTTING, WAITING};
use crate::common::calls::Sequence;

/// On the table with a term of each kind: this choice, on a hall of these
/// stations and these counts.
#[track_caller]
fn step(counts: &[u8], stations: &[u8], choice: [u8; 3]) -> ((u8, usize, u8), Sequence) {
    let mut stored = hall(stations);
    stored[..counts.len()].copy_from_slice(counts);
    let mut sequence = Sequence::new(&each_kind::table(), &stored, Tally::FRESH);
    let answer = sequence.step(choice);
    (answer, sequence)
}

/// The choice is done by this rule and leaves these stations.
#[track_caller]
fn moves(stations: &[u8], choice: [u8; 3], rule: u8, after: &[u8]) {
    let ((number, _, done), sequence) = step(&[], stations, choice);
    assert_eq!((number, done), (0, rule), "{sequence}");
    assert!(sequence.hall == hall(after), "{sequence}");
}

/// The choice is refused with this number and changes nothing.
#[track_caller]
fn refuses(counts: &[u8], stations: &[u8], choice: [u8; 3], number: u8) {
    let (answer, sequence) = step(counts, stations, choice);
    assert_eq!(answer, (number, 0, 0), "{sequence}");
    let mut before = hall(stations);
    before[..counts.len()].copy_from_slice(counts);
    assert!(sequence.hall == before, "{sequence}");
}

fn end(log: &[u8]) -> Vec<u8> {
    leaf(each_kind::END, u8::try_from(log.len()).expect("a log"), log)
}

fn of_block(nodes: &[u8]) -> Vec<u8> {
    attempt(each_kind::BLOCK, nodes)
}

#[test]
fn kinds_of_choices() {
    for kind in (0..=255).filter(|kind| *kind != 1 && *kind != 2) {
        refuses(&[], &[PUTTING, 0], [kind, 0, 0], 12);
        let mut sequence = Sequence::new(&each_kind::table(), &hall(&[PUTTING, 0]), Tally::FRESH);
        assert_eq!(sequence.run(&[kind, 0]), (12, 0, 0));
    }
}

#[test]
fn choices_cut_short() {
    let stations = joined(&[&[PUTTING, 0], &of_block(&leaf(each_kind::RD, 0, &[]))]);
    for (choices, answer) in [
        (&[1][..], (13, 0, 0)),
        (&[2], (13, 0, 0)),
        (&[2, 1], (13, 0, 0)),
        (&[2, 99], (13, 0, 0)),
        (&[1, 0, 1], (13, 2, 1)),
        (&[1, 0, 2, 0], (13, 2, 1)),
        (&[2, 1, 0, 2], (13, 3, 1)),
        (&[1, 0, 0], (12, 2, 1)),
    ] {
        let mut sequence = Sequence::new(&each_kind::table(), &hall(&stations), Tally::FRESH);
        assert_eq!(sequence.run(choices), answer, "{choices:?}");
    }
}

#[test]
fn no_station_at_the_position() {
    for position in [1, 63, 64, 128, 255] {
        refuses(&[], &[PUTTING, 0], [1, position, 0], 14);
        refuses(&[], &[PUTTING, 0], [2, position, 0], 14);
    }
    refuses(&[], &[], [1, 0, 0], 14);
    refuses(&[], &[], [2, 0, 0], 14);
    let full = [PUTTING, 0].repeat(64);
    refuses(&[], &full, [1, 64, 0], 14);
    let (answer, _) = step(&[], &full, [1, 63, 0]);
    assert_eq!(answer, (0, 2, 1));
}

#[test]
fn stations_of_another_form() {
    refuses(&[], &[PUTTING, 0], [2, 0, 0], 15);
    refuses(&[], &[WAITING, each_kind::TAKE], [2, 0, 0], 15);
    refuses(&[], &[WAITING, each_kind::BLOCK], [2, 0, 99], 15);
    for term in [each_kind::RD, each_kind::WT, each_kind::OR_ELSE] {
        refuses(&[], &of_block(&leaf(term, 0, &[])), [1, 0, 0], 15);
    }
    // A fork is no single leaf, whatever its sides are.
    for side in [
        end(&[]),
        leaf(BARE_RETRY, 0, &[]),
        leaf(each_kind::RETRY, 0, &[]),
    ] {
        let nodes = joined(&[&[FORK], &side, &side]);
        refuses(&[], &of_block(&nodes), [1, 0, 0], 15);
    }
}

#[test]
fn nodes_that_are_not_there() {
    let one = of_block(&leaf(each_kind::RD, 0, &[]));
    // Another attempt behind: its nodes are not this one's.
    let two = joined(&[&one, &one]);
    let eight = of_block(&leaning_right(&vec![leaf(each_kind::RD, 0, &[]); 8]));
    for node in [1, 2, 15, 16, 255] {
        refuses(&[], &one, [2, 0, node], 16);
        refuses(&[], &two, [2, 0, node], 16);
        refuses(&[], &two, [2, 1, node], 16);
    }
    for node in [15, 16, 255] {
        refuses(&[], &eight, [2, 0, node], 16);
    }
    for node in 0..15 {
        let (answer, _) = step(&[], &eight, [2, 0, node]);
        // Forks and leaves by turns, the last two both leaves.
        let is_fork = node % 2 == 0 && node != 14;
        let expected = if is_fork { (17, 0, 0) } else { (0, 3, 9) };
        assert_eq!(answer, expected, "{node}");
    }
}

#[test]
fn nodes_without_a_move() {
    for term in [each_kind::END, each_kind::RETRY, BARE_RETRY] {
        refuses(&[], &of_block(&leaf(term, 0, &[])), [2, 0, 0], 17);
    }
    let rd = leaf(each_kind::RD, 0, &[]);
    // The left side alone decides.
    for right in [end(&[]), leaf(BARE_RETRY, 0, &[])] {
        let nodes = joined(&[&[FORK], &rd, &right]);
        refuses(&[], &of_block(&nodes), [2, 0, 0], 17);
    }
    // A fork on the left, though all of its leaves have come to an end.
    let nodes = leaning_left(&vec![end(&[]); 3]);
    refuses(&[], &of_block(&nodes), [2, 0, 0], 17);
}

/// A retry record and a retry without one are alike.
#[test]
fn both_forms_of_a_retry() {
    for term in [each_kind::RETRY, BARE_RETRY] {
        let retry = leaf(term, 2, &[3, 20]);
        let back = [WAITING, each_kind::BLOCK];
        moves(&of_block(&retry), [1, 0, 0], 5, &back);
        let right = end(&[16]);
        let nodes = joined(&[&[FORK], &retry, &right]);
        moves(&of_block(&nodes), [2, 0, 0], 12, &of_block(&right));
    }
}

/// The right side remains whole, with its own log, whatever it is; of the left
/// side's log not a byte is left.
#[test]
fn a_fork_that_keeps_its_right_side() {
    let retry = leaf(BARE_RETRY, 16, &[1; 16]);
    let rights = [
        end(&[]),
        end(&[2]),
        leaf(each_kind::WT, 0, &[]),
        leaning_left(&[end(&[2]), leaf(each_kind::RD, 1, &[5]), end(&[])]),
    ];
    for right in rights {
        let nodes = joined(&[&[FORK], &retry, &right]);
        for behind in [&[][..], &[PUTTING, 7], &of_block(&end(&[31]))] {
            moves(
                &joined(&[&of_block(&nodes), behind]),
                [2, 0, 0],
                12,
                &joined(&[&of_block(&right), behind]),
            );
        }
    }
}

/// The left side remains; of the right side not a byte is left, and what stands
/// behind moves up.
#[test]
fn a_fork_that_keeps_its_left_side() {
    let left = end(&[3, 19]);
    let long = leaf(each_kind::RETRY, 16, &[31; 16]);
    let rights = [
        long.clone(),
        end(&[9; 16]),
        leaning_left(&vec![long.clone(); 7]),
        leaning_right(&vec![long; 7]),
    ];
    for right in rights {
        let nodes = joined(&[&[FORK], &left, &right]);
        for behind in [&[][..], &[PUTTING, 7], &of_block(&end(&[31]))] {
            moves(
                &joined(&[&of_block(&nodes), behind]),
                [2, 0, 0],
                13,
                &joined(&[&of_block(&left), behind]),
            );
        }
    }
}

/// Both sides of a new fork have the log so far.
#[test]
fn an_alternative() {
    let log = [0, 16, 3];
    let before = of_block(&leaf(each_kind::OR_ELSE, 3, &log));
    let nodes = joined(&[
        &[FORK],
        &leaf(each_kind::RD, 3, &log),
        &leaf(each_kind::RETRY, 3, &log),
    ]);
    let behind = of_block(&end(&[4]));
    moves(
        &joined(&[&[PUTTING, 1], &before, &behind]),
        [2, 1, 0],
        11,
        &joined(&[&[PUTTING, 1], &of_block(&nodes), &behind]),
    );
}

/// All reads of the log are held against the snapshot, and not only the tray
/// that is read. (No run comes to such a log.)
#[test]
fn a_read_beside_reads_that_the_snapshot_lacks() {
    let stations = |snapshot: &[u8], log: &[u8]| {
        let length = u8::try_from(log.len()).expect("a log");
        let mut bytes = of_block(&leaf(each_kind::RD, length, log));
        bytes[2..2 + snapshot.len()].copy_from_slice(snapshot);
        bytes
    };
    // Tray 2 is read; its snapshot count is 1.
    for (snapshot, log, rule) in [
        (&[0, 0, 1][..], &[][..], 8),
        (&[0, 0, 1], &[18], 8),
        (&[0, 0, 1], &[2], 9),
        (&[0, 0, 2], &[2], 8),
        (&[0, 0, 1], &[7], 9),
        (&[0, 0, 1], &[0, 16], 9),
        (&[1, 0, 1], &[0, 16], 8),
        (&[1, 0, 1], &[0, 0], 9),
        (&[0, 0, 0], &[18], 9),
    ] {
        // The counts of now do not matter.
        for count in [0, 255] {
            let ((_, _, done), sequence) = step(&[count; 16], &stations(snapshot, log), [2, 0, 0]);
            assert_eq!(done, rule, "{sequence}");
        }
    }
}

/// A log's last place is filled.
#[test]
fn the_sixteenth_action() {
    let log = [1; 15];
    let mut before = of_block(&leaf(each_kind::RD, 15, &log));
    before[2..18].copy_from_slice(&[255; 16]);
    let mut full = log.to_vec();
    full.push(2);
    let mut after = of_block(&end(&full));
    after[2..18].copy_from_slice(&[255; 16]);
    moves(&before, [2, 0, 0], 8, &after);
}

/// Reads are lowered, writes are laid down in log order and are not counted.
#[test]
fn a_commit() {
    let log = [0, 31, 0, 16, 5, 17, 16];
    let stations = joined(&[&[PUTTING, 9], &of_block(&end(&log)), &[PUTTING, 8]]);
    let counts = [3, 1, 0, 0, 0, 1];
    let (answer, sequence) = step(&counts, &stations, [1, 1, 0]);
    assert_eq!(answer, (0, 2, 7));
    let putting = [
        PUTTING, 9, PUTTING, 15, PUTTING, 0, PUTTING, 1, PUTTING, 0, PUTTING, 8,
    ];
    let mut expected = hall(&putting);
    expected[..6].copy_from_slice(&[1, 1, 0, 0, 0, 0]);
    assert!(sequence.hall == expected, "{sequence}");
    // One token less on any of its trays, and it fails.
    for tray in [0, 5] {
        let mut counts = [2, 1, 0, 0, 0, 1];
        counts[tray] -= 1;
        let (answer, sequence) = step(&counts, &stations, [1, 1, 0]);
        assert_eq!(answer, (0, 2, 6));
        let back = [PUTTING, 9, WAITING, each_kind::BLOCK, PUTTING, 8];
        let mut expected = hall(&back);
        expected[..6].copy_from_slice(&counts);
        assert!(sequence.hall == expected, "{sequence}");
    }
}

/// As many reads as a log can hold, and as many writes.
#[test]
fn the_longest_commits() {
    let (answer, sequence) = step(&[16], &of_block(&end(&[0; 16])), [1, 0, 0]);
    assert_eq!(answer, (0, 2, 7));
    assert!(sequence.hall == vec![0; HALL_BYTES]);
    let (answer, _) = step(&[15], &of_block(&end(&[0; 16])), [1, 0, 0]);
    assert_eq!(answer, (0, 2, 6));
    let writes: Vec<u8> = (16..32).collect();
    let putting: Vec<u8> = (0..16).flat_map(|tray| [PUTTING, tray]).collect();
    moves(&of_block(&end(&writes)), [1, 0, 0], 7, &putting);
    moves(&of_block(&end(&[])), [1, 0, 0], 7, &[]);
}

/// 64 stations may stand, 65 may not; a commit that fails is never refused.
#[test]
fn commits_in_a_full_hall() {
    for (others, writes, refused) in [
        (63, 1, false),
        (63, 2, true),
        (48, 16, false),
        (49, 16, true),
    ] {
        let block = of_block(&end(&vec![16; writes]));
        for before in [0, others] {
            let front = [WAITING, each_kind::TAKE].repeat(before);
            let behind = [WAITING, each_kind::TAKE].repeat(others - before);
            let stations = joined(&[&front, &block, &behind]);
            let position = u8::try_from(before).expect("a position");
            if refused {
                refuses(&[], &stations, [1, position, 0], 19);
            } else {
                let putting = [PUTTING, 0].repeat(writes);
                let after = joined(&[&front, &putting, &behind]);
                moves(&stations, [1, position, 0], 7, &after);
            }
        }
    }
    let mut log = vec![16; 15];
    log.push(3);
    let waiting = [WAITING, each_kind::TAKE].repeat(63);
    let failing = joined(&[&waiting, &of_block(&end(&log))]);
    let back = joined(&[&waiting, &[WAITING, each_kind::BLOCK]]);
    moves(&failing, [1, 63, 0], 6, &back);
}

/// What a take opens is counted by stations, and its width is not.
#[test]
fn takes_in_a_full_hall() {
    let mut table = Builder::new();
    let nil = table.nil();
    let put = table.put(5);
    let nils = table.copies(nil, 40);
    let one = table.side_by_side(nils, put);
    let two = table.side_by_side(put, one);
    // So many stations open: 0, 1, 2.
    let takes = [nils, one, two].map(|process| table.take(0, process));
    let repeated = [nils, one, two].map(|process| table.repeated_take(0, process));
    let bytes = table.start(nil);
    for others in [61, 62, 63] {
        for position in [0, others / 2, others] {
            for (terms, stays, rule) in [(takes, 0, 2), (repeated, 1, 3)] {
                for (opens, term) in terms.into_iter().enumerate() {
                    let mut stations = [PUTTING, 1].repeat(others);
                    stations.splice(2 * position..2 * position, [WAITING, term]);
                    let mut stored = hall(&stations);
                    let choice = [1, u8::try_from(position).expect("a position"), 0];
                    // 18 comes before 19.
                    let mut sequence = Sequence::new(&bytes, &stored, Tally::FRESH);
                    assert_eq!(sequence.step(choice), (18, 0, 0));
                    stored[0] = 1;
                    let mut sequence = Sequence::new(&bytes, &stored, Tally::FRESH);
                    let expected = if others + opens + stays > 64 {
                        (19, 0, 0)
                    } else {
                        (0, 2, rule)
                    };
                    assert_eq!(sequence.step(choice), expected, "{sequence}");
                }
            }
        }
    }
}

/// What was opened comes first, then the repeated take.
#[test]
fn what_a_take_opens() {
    let mut table = Builder::new();
    let puts: Vec<u8> = (0..3).map(|tray| table.put(tray + 4)).collect();
    let front = table.side_by_side(puts[0], puts[1]);
    let all = table.side_by_side(front, puts[2]);
    let take = table.take(3, all);
    let repeated = table.repeated_take(3, all);
    let both = table.side_by_side(take, repeated);
    table.tokens(3, 2);
    let mut sequence = Sequence::open(&table.start(both));
    let opened = [PUTTING, 4, PUTTING, 5, PUTTING, 6];
    assert_eq!(sequence.step([1, 1, 0]), (0, 2, 3));
    let mut expected = hall(&joined(&[&[WAITING, take], &opened, &[WAITING, repeated]]));
    expected[3] = 1;
    assert!(sequence.hall == expected, "{sequence}");
    assert_eq!(sequence.step([1, 0, 0]), (0, 2, 2));
    let expected = hall(&joined(&[&opened, &opened, &[WAITING, repeated]]));
    assert!(sequence.hall == expected, "{sequence}");
    assert_eq!(sequence.step([1, 6, 0]), (18, 0, 0));
}

/// A block begins with the counts of now, and nothing of what stood there.
#[test]
fn a_beginning() {
    let counts: Vec<u8> = (0..16).map(|tray| 255 - tray).collect();
    let stations = [PUTTING, 1, WAITING, each_kind::BLOCK, PUTTING, 2];
    let (answer, sequence) = step(&counts, &stations, [1, 1, 9]);
    assert_eq!(answer, (0, 2, 4));
    let mut begun = of_block(&leaf(each_kind::OR_ELSE, 0, &[]));
    begun[2..18].copy_from_slice(&counts);
    let mut expected = hall(&joined(&[&[PUTTING, 1], &begun, &[PUTTING, 2]]));
    expected[..16].copy_from_slice(&counts);
    assert!(sequence.hall == expected, "{sequence}");
}
