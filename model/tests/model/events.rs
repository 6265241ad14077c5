//! Wire events, activation, deactivation and reset.

use super::support::*;
use berduzhika_model::Step;

#[test]
fn the_whole_intid_is_judged() {
    let missing = [
        320,
        1020,
        1055,
        1088,
        4095,
        4224,
        300 + 65536,
        300 + 0x100_0000,
        8492,
        u32::MAX,
    ];
    for intid in missing {
        let mut bench = Bench::with(0x73, &[]);
        for level in [false, true] {
            bench.only_answers(wire(intid, level), refused(7));
        }
        for side in SIDES {
            bench.only_answers(activate(side, intid), refused(7));
            bench.only_answers(deactivate(side, intid), refused(7));
        }
    }
}

#[test]
fn a_wire_event_stores_the_level() {
    let mut bench = Bench::with(0x40, &[]);
    bench.does(wire(300, true), &[(300, 0x44)]);
    bench.does(wire(300, true), &[]);
    bench.does(wire(300, false), &[(300, 0x40)]);
    bench.does(wire(300, false), &[]);
    // PPIs, extended PPIs and extended SPIs have wires too.
    for intid in [16, 31, 1056, 1087, 4096, 4223] {
        bench.does(wire(intid, true), &[(intid, 0x44)]);
    }
}

#[test]
fn a_rise_on_an_edge_interrupt_sets_the_latch() {
    let mut bench = Bench::with(0x60, &[]);
    bench.does(wire(300, true), &[(300, 0x66)]);
    bench.does(wire(300, false), &[(300, 0x62)]);
    // High again and again is no rise.
    let mut bench = Bench::with(0x64, &[]);
    bench.does(wire(300, true), &[]);
    bench.does(wire(300, false), &[(300, 0x60)]);
    bench.does(wire(300, true), &[(300, 0x66)]);
}

#[test]
fn a_wire_event_has_no_side() {
    // Group 0, Secure Group 1, and both kinds of Non-secure Group 1.
    for byte in [0x00, 0x80, 0x40, 0xC0] {
        let mut bench = Bench::with(byte, &[]);
        bench.does(wire(300, true), &[(300, byte | 4)]);
    }
}

#[test]
fn a_wire_event_on_an_sgi_is_refused_8() {
    for intid in 0..16 {
        for level in [false, true] {
            let mut bench = Bench::with(0x40, &[]);
            bench.only_answers(wire(intid, level), refused(8));
        }
    }
    // A missing SGI is 7, which comes first.
    let mut lent = filled(0x40);
    lent.redist_presence[0] = !(1 << 3);
    let mut bench = Bench::new(BENCH, lent);
    bench.only_answers(wire(3, true), refused(7));
    bench.only_answers(wire(4, true), refused(8));
}

#[test]
fn activation_sets_active_and_clears_the_latch() {
    // Edge, then level with latch, wire and message level.
    let rows = [(0x63, 0x71), (0x43, 0x51), (0x4F, 0x5D), (0x6F, 0x7D)];
    for (before, after) in rows {
        for side in SIDES {
            for intid in [5, 20, 300, 1056, 4131] {
                let mut bench = Bench::with(before, &[]);
                bench.does(activate(side, intid), &[(intid, after)]);
            }
        }
    }
    // A level interrupt that only a wire or a message keeps pending.
    for (before, after) in [(0x45, 0x55), (0x49, 0x59)] {
        let mut bench = Bench::with(before, &[]);
        bench.does(activate(NonSecure, 300), &[(300, after)]);
    }
}

#[test]
fn activation_is_refused_9_in_the_wrong_state() {
    // Not enabled; not pending, as level and as edge; already active.
    for byte in [0x62, 0x46, 0x41, 0x61, 0x6D, 0x73, 0x5F] {
        for side in SIDES {
            let mut bench = Bench::with(byte, &[]);
            bench.only_answers(activate(side, 300), refused(9));
        }
    }
    // An SGI is edge: a wire or message level bit does not make it pending.
    let mut bench = Bench::with(0x4D, &[]);
    bench.only_answers(activate(NonSecure, 5), refused(9));
}

#[test]
fn deactivation_clears_active_only() {
    for side in SIDES {
        for byte in [0x50, 0x7F, 0x5F] {
            let mut bench = Bench::with(byte, &[]);
            bench.does(deactivate(side, 300), &[(300, byte & !0x10)]);
            bench.only_answers(deactivate(side, 300), refused(9));
        }
    }
}

#[test]
fn refusal_7_comes_before_9_for_secure_interrupts() {
    // Each would be refused 9, or done, for the Secure side.
    for grouping in [0x00, 0x80] {
        for state in [0x00, 0x01, 0x03, 0x13, 0x23, 0x33] {
            let mut bench = Bench::with(grouping | state, &[]);
            for intid in [5, 20, 300, 1056, 4131] {
                bench.only_answers(activate(NonSecure, intid), refused(7));
                bench.only_answers(deactivate(NonSecure, intid), refused(7));
            }
        }
        let mut bench = Bench::with(grouping | 0x23, &[]);
        bench.does(activate(Secure, 300), &[(300, grouping | 0x31)]);
        bench.does(deactivate(Secure, 300), &[(300, grouping | 0x21)]);
    }
}

#[test]
fn reset_zeroes_every_record_and_keeps_presence() {
    let mut random = Random(7);
    for shape in [BENCH, LARGEST] {
        let mut lent = random.tables();
        let before = lent.clone();
        let answer = berduzhika_model::step(shape, &mut lent, Step::Reset);
        assert_eq!(answer, DONE);
        assert_eq!(lent.dist, vec![0; 2012]);
        assert_eq!(lent.redist, vec![0; 96]);
        assert_eq!(lent.dist_presence, before.dist_presence);
        assert_eq!(lent.redist_presence, before.redist_presence);
    }
}

#[test]
fn reset_leaves_sgis_edge_and_interrupts_present_or_missing() {
    let mut lent = filled(0x4F);
    lent.redist_presence[0] = !(1 << 3);
    let mut machine = berduzhika_model::Machine::load(BENCH, &lent).expect("well-formed");
    assert_eq!(machine.step(Step::Reset), DONE);
    assert_eq!(machine.step(wire(3, true)), refused(7));
    assert_eq!(machine.step(wire(4, true)), refused(8));
    assert_eq!(machine.step(wire(300, true)), DONE);
    let fields = value(0xAAAA_AAAA & !(2 << 6));
    assert_eq!(machine.step(read(Redistributor, Secure, 0xC00)), fields);
}
