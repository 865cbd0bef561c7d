//! The examples of document 01, on both sides, and the order in which a record is judged.

use crate::calls::p8;
use crate::listing::assemble;
use crate::machine::{Machine, View};
use crate::make_orders::make_orders;
use crate::orders::{replay, replay_program, Run, BUDGET};
use crate::views::{read_views, verdict_program, write_views};

fn file(listing: &str) -> Vec<u8> {
    assemble(listing).unwrap()
}

/// What the replay program prints for a listing.
fn run(listing: &str) -> String {
    replay_program(&file(listing))
}

/// What the verdict program prints for a listing.
fn verdict(listing: &str) -> String {
    verdict_program(&file(listing))
}

const PRINTED: &str =
    "machine 2\nenter 1 7\nenter 2 9\nstep 1 times 3\nstep 2 times 3\nstep 1 times 3\nstep 2\n";

const P9: &str = "machine 4\nview 1: 1:1 4:4\nview 2: 1:1 2:2 3:3 4:4\nview 3: 3:3 4:4\n";

#[test]
fn p1_sizes() {
    assert_eq!(Machine::new(0), (8, Machine::fresh(1)));
    assert_eq!(Machine::new(33), (8, Machine::fresh(1)));
    assert_eq!(Machine::new(32), (0, Machine::fresh(32)));
    assert!(Machine::fresh(32).well_shaped());
    for n in [0, 33, 255] {
        let text = format!("machine {n}\nenter 1 7\n");
        assert_eq!(
            run(&text),
            "run 8 0 0 0 0\np 1 absent 0 0 -\nparticipants 0\n"
        );
        assert_eq!(verdict(&text), "verdict 8 0 0 0\n");
    }
    assert!(run("machine 32\n").starts_with("run 0 3 0 0 0\n"));
}

#[test]
fn p2_one_process_value_0() {
    let text = "machine 1\nenter 1 0\nstep 1 times 2\n";
    assert_eq!(
        run(text),
        "run 0 16 3 2 0\np 1 finished 1 2 1:0\nparticipants 1\n"
    );
}

#[test]
fn p3_the_printed_run() {
    let bytes = file(PRINTED);
    assert_eq!(bytes.len(), 47);
    assert_eq!(
        replay_program(&bytes),
        "run 0 47 12 9 1\np 1 finished 1 6 1:7\np 2 finished 2 3 1:7,2:9\nparticipants 2\n"
    );
}

#[test]
fn p4_both_write_then_read() {
    let text = "machine 2\nenter 1 7\nenter 2 9\nstep 1\nstep 2\nstep 1 times 2\nstep 2 times 2\n";
    assert_eq!(
        run(text),
        "run 0 35 8 6 0\np 1 finished 2 3 1:7,2:9\np 2 finished 2 3 1:7,2:9\nparticipants 2\n"
    );
}

#[test]
fn p5_one_register_a_read() {
    let text = "machine 2\nenter 1 7\nenter 2 9\nstep 1 times 2\nstep 2\nstep 1\n";
    assert_eq!(
        run(text),
        "run 0 29 6 4 0\np 1 finished 2 3 1:7,2:9\np 2 running 2 1 -\nparticipants 2\n"
    );
}

#[test]
fn p6_alone_in_order() {
    let mut machine = Machine::fresh(3);
    for p in 1..=3 {
        assert_eq!(machine.enter(p, 10 * p as u32), 0);
    }
    for (p, accesses) in [(1, 12), (2, 8), (3, 4)] {
        assert_eq!(machine.finish_alone(p), 0);
        let (number, look) = machine.look(p);
        assert_eq!(
            (number, look.stage, look.level, look.accesses),
            (0, "finished", p, accesses)
        );
    }
}

#[test]
fn p7_write_and_crash() {
    let text = "machine 3\nenter 1 5\nenter 2 6\nenter 3 7\nstep 1\ncrash 1\nstep 2 times 12\nstep 3 times 4\n";
    assert_eq!(
        run(text),
        "run 0 78 21 17 0\np 1 crashed 3 1 -\np 2 finished 1 12 2:6\np 3 finished 3 4 1:5,2:6,3:7\nparticipants 3\n"
    );
}

#[test]
fn p8_seven() {
    let mut machine = p8();
    assert!(machine.well_shaped());
    let before = machine.clone();
    assert_eq!(machine.step(1), 7);
    assert_eq!(machine, before);
    assert_eq!(machine.finish_alone(1), 7);
    assert_eq!(machine, before);
    // Process 2 alone makes an accepted step first, and its call is refused as a whole.
    assert_eq!(machine.finish_alone(2), 7);
    assert_eq!(machine, before);
}

#[test]
fn p9_neither_inside() {
    assert_eq!(verdict(P9), "verdict 21 56 1 3\n");
}

#[test]
fn p10_see_each_other() {
    let text = "machine 3\nview 1: 1:1 2:2\nview 2: 1:1 2:2 3:3\n";
    assert_eq!(verdict(text), "verdict 22 37 1 2\n");
}

#[test]
fn refused_steps() {
    let mut machine = Machine::fresh(2);
    assert_eq!(machine.step(0), 2);
    assert_eq!(machine.step(3), 2);
    assert_eq!(machine.step(1), 4);
    assert_eq!(machine.crash(1), 4);
    assert_eq!(machine.finish_alone(1), 4);
    assert_eq!(machine.enter(0, 7), 2);
    assert_eq!(machine.enter(3, 7), 2);
    assert_eq!(machine, Machine::fresh(2));
    assert_eq!(machine.enter(1, 7), 0);
    assert_eq!(machine.enter(1, 8), 3);
    assert_eq!(machine.crash(1), 0);
    assert_eq!(machine.enter(2, 9), 0);
    assert_eq!(machine.finish_alone(2), 0);
    let before = machine.clone();
    assert_eq!(machine.step(1), 5);
    assert_eq!(machine.crash(1), 5);
    assert_eq!(machine.finish_alone(1), 5);
    assert_eq!(machine.step(2), 6);
    assert_eq!(machine.crash(2), 6);
    assert_eq!(machine.finish_alone(2), 6);
    assert_eq!(machine.enter(1, 0), 3);
    assert_eq!(machine.enter(2, 0), 3);
    assert_eq!(machine, before);
}

#[test]
fn a_badly_shaped_state_is_refused_with_1() {
    let mut machine = Machine::fresh(2);
    machine.rows[1][1] = Some(0);
    let before = machine.clone();
    assert_eq!(machine.enter(0, 7), 1);
    assert_eq!(machine.step(0), 1);
    assert_eq!(machine.crash(0), 1);
    assert_eq!(machine.finish_alone(0), 1);
    let (number, look) = machine.look(0);
    assert_eq!(
        (number, look.stage, look.level, look.accesses, look.view),
        (1, "absent", 0, 0, None)
    );
    assert_eq!(machine, before);
}

#[test]
fn looks() {
    let machine = Machine::fresh(2);
    for (p, expected) in [(0, 2), (1, 0), (2, 0), (3, 2)] {
        let (number, look) = machine.look(p);
        assert_eq!(
            (number, look.stage, look.level, look.accesses, look.view),
            (expected, "absent", 0, 0, None)
        );
    }
}

#[test]
fn budgets() {
    let header = file("machine 2\n");
    assert_eq!(replay(&header, 0).number, 0);
    let one_byte = file("machine 2\nbytes 0\n");
    let run = replay(&one_byte, 0);
    assert_eq!((run.number, run.place, run.taken), (13, 3, 0));
    let run = replay(&one_byte, 1);
    assert_eq!((run.number, run.place, run.taken), (11, 3, 0));
    // A header's own faults come before 13.
    assert_eq!(replay(&file("machine 33\nstep 1\n"), 0).number, 8);
    assert_eq!(replay(b"", 0).number, 9);
    assert_eq!(replay(b"M", 0).number, 11);
    assert_eq!(replay(b"MN", 0).number, 24);
    // The printed run with 11 and 12 orders.
    let run = replay(&file(PRINTED), 11);
    assert_eq!(
        (run.number, run.place, run.taken, run.accesses, run.refused),
        (13, 44, 11, 9, 0)
    );
    assert_eq!(replay(&file(PRINTED), 12).number, 0);
    // Refused orders use the budget too; the budget comes before a faulty record.
    let run = replay(&file("machine 2\nstep 1\nmachine 2\n"), 1);
    assert_eq!(
        (run.number, run.place, run.taken, run.accesses, run.refused),
        (13, 6, 1, 0, 1)
    );
    // A cut record too, whether one byte is left of it or more.
    for (line, number, place) in [("bytes 69", 11, 6), ("bytes 69 78 1", 24, 9)] {
        let bytes = file(&format!("machine 2\nstep 1\n{line}\n"));
        for (budget, expected) in [(1, (13, 6)), (2, (number, place))] {
            let run = replay(&bytes, budget);
            assert_eq!((run.number, run.place), expected, "{line}");
            assert_eq!((run.taken, run.accesses, run.refused), (1, 0, 1));
        }
    }
}

#[test]
fn headers() {
    let expected = [
        (&b""[..], 9, 0),
        (b"M", 11, 0),
        (b"X", 11, 0),
        (b"MX", 9, 0),
        (b"XN", 9, 0),
        (b"EN", 9, 0),
        (b"MN", 24, 2),
        (b"MN\x00", 8, 0),
        (b"MN\x21", 8, 0),
        (b"XY\x00", 9, 0),
    ];
    for (bytes, number, place) in expected {
        assert_eq!(
            replay_program(bytes),
            format!("run {number} {place} 0 0 0\np 1 absent 0 0 -\nparticipants 0\n")
        );
        assert_eq!(
            verdict_program(bytes),
            format!("verdict {number} {place} 0 0\n")
        );
        let reading = read_views(bytes);
        assert_eq!((reading.n, reading.views.len()), (0, 0));
    }
}

#[test]
fn later_orders() {
    // After an accepted enter the faulty record begins at 10.
    let expected = [
        ("bytes 77", 11, 10),
        ("bytes 0", 11, 10),
        ("bytes 77 78", 12, 10),
        ("machine 2", 12, 10),
        ("machine 0", 12, 10),
        ("bytes 86 87", 10, 10),
        ("view 1: 1:7", 10, 10),
        ("bytes 0 0", 10, 10),
        ("bytes 69", 11, 10),
        ("bytes 69 78", 24, 12),
        ("bytes 69 78 1", 24, 13),
        ("bytes 69 78 3", 24, 13),
        ("bytes 69 78 1 0 0 0", 24, 16),
        ("bytes 83 84", 24, 12),
        ("bytes 67 82", 24, 12),
    ];
    for (line, number, place) in expected {
        assert_eq!(
            run(&format!("machine 2\nenter 2 7\n{line}\n")),
            format!(
                "run {number} {place} 1 0 0\np 1 absent 0 0 -\np 2 running 2 0 -\nparticipants 1\n"
            ),
            "{line}"
        );
    }
}

#[test]
fn later_views() {
    // After a view of process 2 the faulty record begins at 14.
    let expected = [
        ("bytes 86", 11, 14),
        ("bytes 77", 11, 14),
        ("bytes 77 78", 12, 14),
        ("machine 2", 12, 14),
        ("enter 1 7", 10, 14),
        ("step 1", 10, 14),
        ("bytes 1 2", 10, 14),
        ("bytes 86 87", 24, 16),
        // 24 in the fixed bytes comes before 14, 15 and 16.
        ("bytes 86 87 0", 24, 17),
        ("bytes 86 87 0 0 0 0", 24, 20),
        ("bytes 86 87 3 255 255 255", 24, 20),
        ("bytes 86 87 2 255 255 255", 24, 20),
        ("bytes 86 87 1 255 255 255", 24, 20),
        ("view 0: 1:7", 14, 14),
        ("view 3: 3:7", 14, 14),
        ("bytes 86 87 0 1 0 0 0", 14, 14),
        ("bytes 86 87 3 255 255 255 255", 14, 14),
        ("view 2:", 15, 14),
        ("view 2: 3:7", 15, 14),
        ("bytes 86 87 2 255 255 255 255", 15, 14),
        ("view 1: 1:7 3:7", 16, 14),
        ("bytes 86 87 1 4 0 0 0", 16, 14),
        // 24 in the values comes after them.
        ("bytes 86 87 1 3 0 0 0", 24, 21),
        ("bytes 86 87 1 3 0 0 0 7 0 0 0", 24, 25),
        ("bytes 86 87 1 3 0 0 0 7 0 0 0 9 0 0", 24, 28),
    ];
    for (line, number, place) in expected {
        let text = format!("machine 2\nview 2: 2:9\n{line}\n");
        assert_eq!(
            verdict(&text),
            format!("verdict {number} {place} 0 0\n"),
            "{line}"
        );
    }
}

/// How many records the first k bytes of a good file hold whole, and the number and place for these bytes. The
/// records begin and end at `bounds`.
fn cut(bounds: &[usize], k: usize) -> (usize, u32, usize) {
    let whole = bounds.iter().filter(|&&bound| bound <= k).count() - 1;
    let mark = bounds[whole];
    let (number, place) = match k - mark {
        0 if k == 0 => (9, 0),
        0 => (0, k),
        1 => (11, mark),
        _ => (24, k),
    };
    (whole, number, place)
}

#[test]
fn every_cut_of_the_printed_run() {
    let bytes = file(PRINTED);
    let bounds = [0, 3, 10, 17, 20, 23, 26, 29, 32, 35, 38, 41, 44, 47];
    for k in 0..=47 {
        let (whole, number, place) = cut(&bounds, k);
        let taken = whole.saturating_sub(1);
        let expected = Run {
            number,
            place,
            taken,
            accesses: taken.saturating_sub(2).min(9),
            refused: taken / 12,
            machine: replay(&bytes[..bounds[whole]], BUDGET).machine,
        };
        assert_eq!(replay(&bytes[..k], BUDGET), expected, "{k}");
    }
}

#[test]
fn every_cut_of_p9() {
    let bytes = file(P9);
    let bounds = [0, 3, 18, 41, 56];
    for k in 0..=56 {
        let (whole, number, place) = cut(&bounds, k);
        let reading = read_views(&bytes[..k]);
        let (n, views) = if number == 0 { (4, whole - 1) } else { (0, 0) };
        assert_eq!((reading.number, reading.place), (number, place), "{k}");
        assert_eq!((reading.n, reading.views.len()), (n, views), "{k}");
        if k < 56 {
            assert_eq!(
                verdict_program(&bytes[..k]),
                format!("verdict {number} {place} 0 0\n")
            );
        }
    }
}

#[test]
fn findings() {
    let expected = [
        ("", "0 3 0 0"),
        ("view 1: 1:7\n", "0 14 0 0"),
        // A view may name processes that have none in the file.
        ("view 2: 1:7 2:8 3:9\n", "0 22 0 0"),
        ("view 2:\n", "20 10 2 0"),
        // 20 comes first, for the lowest process, in whatever order the views stand.
        ("view 3: 1:0\nview 2: 1:1\nview 1: 1:7\n", "20 36 2 0"),
        // 23 before 21 and 22 in one pair.
        ("view 1: 1:1 3:3\nview 2: 2:2 3:4\n", "23 33 1 2"),
        ("view 1: 1:1 2:2\nview 2: 1:1 2:3 3:3\n", "23 37 1 2"),
        // An earlier pair comes before a lower number.
        (
            "view 1: 1:1 2:2\nview 2: 1:1 2:2 3:3\nview 3: 3:4\n",
            "22 48 1 2",
        ),
        // By i, then by j.
        ("view 3: 3:3\nview 2: 2:2\nview 1: 1:1\n", "21 36 1 2"),
        (
            "view 1: 1:1 2:2 3:3\nview 2: 1:1 2:2 3:3\nview 3: 1:1 2:2 3:0\n",
            "23 60 1 3",
        ),
        // 0 is a value like any other.
        ("view 1: 1:0 2:0\nview 2: 1:0 2:0\n", "0 33 0 0"),
    ];
    for (lines, line) in expected {
        assert_eq!(
            verdict(&format!("machine 4\n{lines}")),
            format!("verdict {line}\n"),
            "{lines}"
        );
    }
}

#[test]
fn lengths() {
    let mut bytes = b"MN\x01".to_vec();
    bytes.extend(b"ST\x01".repeat(21_844));
    assert_eq!(bytes.len(), 65_535);
    assert_eq!(
        replay_program(&bytes),
        "run 0 65535 21844 0 21844\np 1 absent 0 0 -\nparticipants 0\n"
    );
    assert_eq!(verdict_program(&bytes), "verdict 10 3 0 0\n");
    bytes.push(b'S');
    assert_eq!(replay_program(&bytes), "too long\n");
    assert_eq!(verdict_program(&bytes), "too long\n");
}

#[test]
fn written_views() {
    assert_eq!(write_views(&Machine::fresh(3)), b"MN\x03");
    let run = replay(&file(PRINTED), BUDGET);
    assert_eq!(
        write_views(&run.machine),
        file("machine 2\nview 1: 1:7\nview 2: 1:7 2:9\n")
    );
}

/// Fig. 8.16 as it is printed, lines 3 to 9, for a process that nobody disturbs.
fn rec_update_snapshot(
    rows: &mut Vec<Vec<Option<u32>>>,
    n: usize,
    i: usize,
    x: usize,
    v: u32,
) -> View {
    rows[x][i] = Some(v);
    let view: View = (1..=n)
        .filter_map(|j| rows[x][j].map(|value| (j, value)))
        .collect();
    if view.len() == x {
        view
    } else {
        rec_update_snapshot(rows, n, i, x - 1, v)
    }
}

/// On states of random runs, a process that enters and finishes alone does what the figure says.
#[test]
fn the_figure() {
    let mut compared = 0;
    for seed in 0..500 {
        let machine = replay(&make_orders(seed), BUDGET).machine;
        let n = machine.n;
        for p in 1..=n {
            let mut alone = machine.clone();
            if alone.enter(p, 12345) != 0 {
                continue;
            }
            assert_eq!(alone.finish_alone(p), 0);
            let mut rows = machine.rows.clone();
            let view = rec_update_snapshot(&mut rows, n, p, n, 12345);
            assert_eq!(alone.rows, rows);
            assert_eq!(alone.look(p).1.view, Some(view));
            compared += 1;
        }
    }
    assert!(compared > 100);
}
