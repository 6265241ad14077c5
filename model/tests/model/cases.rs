//! K1 to K12 of document 01. Records not named are 0 there; each case is also run
//! with all other records at bytes that are neither pending nor 0, so that
//! "nothing else changes" is seen on records that could change.

use super::support::*;

/// 0; Non-secure edge; all but pending and wired, as Secure Group 1 and as both bits 1.
const OTHERS: [u8; 4] = [0x00, 0x60, 0xB1, 0xF1];

#[test]
fn k1_set_pending_of_an_edge_interrupt() {
    for others in OTHERS {
        let mut bench = Bench::with(others, &[(300, 0x60)]);
        let step = write(Distributor, NonSecure, 0x224, 0x1000);
        bench.does(step, &[(300, 0x62)]);
        for side in SIDES {
            for offset in [0x224, 0x2A4] {
                bench.only_answers(read(Distributor, side, offset), value(0x1000));
            }
        }
    }
}

#[test]
fn k2_the_message_register_takes_the_whole_intid() {
    for others in OTHERS {
        let mut bench = Bench::with(others, &[(300, 0x62), (44, 0x22)]);
        let step = write(Distributor, NonSecure, 0x48, 300);
        bench.does(step, &[(300, 0x60)]);
    }
}

#[test]
fn k3_clear_pending_does_not_drop_a_wire() {
    for others in OTHERS {
        let mut bench = Bench::with(others, &[(300, 0x44)]);
        bench.does(write(Distributor, NonSecure, 0x2A4, 0x1000), &[]);
        bench.only_answers(read(Distributor, NonSecure, 0x2A4), value(0x1000));
    }
}

#[test]
fn k4_set_pending_outlives_the_wire() {
    for others in OTHERS {
        let mut bench = Bench::with(others, &[(300, 0x44)]);
        let step = write(Distributor, NonSecure, 0x224, 0x1000);
        bench.does(step, &[(300, 0x46)]);
        bench.does(wire(300, false), &[(300, 0x42)]);
    }
}

#[test]
fn k5_a_message_level_is_cleared_by_a_message_only() {
    for others in OTHERS {
        let mut bench = Bench::with(others, &[(300, 0x40)]);
        let set = write(Distributor, NonSecure, 0x40, 300);
        bench.does(set, &[(300, 0x48)]);
        bench.does(write(Distributor, NonSecure, 0x2A4, 0x1000), &[]);
        let clear = write(Distributor, NonSecure, 0x48, 300);
        bench.does(clear, &[(300, 0x40)]);
    }
}

#[test]
fn k6_clear_pending_of_an_extended_spi() {
    for others in OTHERS {
        let mut bench = Bench::with(others, &[(4131, 0x62)]);
        let step = write(Distributor, NonSecure, 0x1804, 8);
        bench.does(step, &[(4131, 0x60)]);
    }
}

#[test]
fn k7_clear_active_of_an_extended_spi() {
    for others in OTHERS {
        let mut bench = Bench::with(others, &[(4131, 0x70)]);
        let step = write(Distributor, NonSecure, 0x1C04, 8);
        bench.does(step, &[(4131, 0x60)]);
    }
}

#[test]
fn k8_set_pending_of_an_extended_ppi() {
    for others in OTHERS {
        let mut bench = Bench::with(others, &[(1056, 0x60)]);
        let step = write(Redistributor, NonSecure, 0x204, 1);
        bench.does(step, &[(1056, 0x62)]);
    }
}

#[test]
fn k9_a_secure_interrupt_is_shown_to_the_secure_side_only() {
    for others in OTHERS {
        let mut bench = Bench::with(others, &[(300, 0x22)]);
        bench.only_answers(read(Distributor, Secure, 0x224), value(0x1000));
        bench.only_answers(read(Distributor, NonSecure, 0x224), value(0));
    }
}

#[test]
fn k10_a_redistributor_word_past_eppi_changes_nothing() {
    let mut random = Random(10);
    for round in 0..20 {
        let mut lent = random.tables();
        lent.dist_presence.fill(u32::MAX);
        lent.redist_presence.fill(u32::MAX);
        let mut bench = Bench::new(BENCH, lent);
        let written = match round {
            0 => 0,
            1 => u32::MAX,
            _ => random.next(),
        };
        for side in SIDES {
            bench.only_answers(write(Redistributor, side, 0x208, written), DONE);
            bench.only_answers(read(Redistributor, side, 0x208), value(0));
        }
    }
}

#[test]
fn k11_typer_of_the_bench() {
    let mut random = Random(11);
    for _ in 0..20 {
        let mut bench = Bench::new(BENCH, random.tables());
        for side in SIDES {
            bench.only_answers(read(Distributor, side, 0x004), value(0x1A61_0509));
        }
    }
}

#[test]
fn k12_a_second_activation_is_refused() {
    for others in OTHERS {
        let mut bench = Bench::with(others, &[(300, 0x63)]);
        bench.does(activate(NonSecure, 300), &[(300, 0x71)]);
        bench.only_answers(activate(NonSecure, 300), refused(9));
    }
}
