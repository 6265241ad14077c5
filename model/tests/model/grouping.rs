//! CR 2: "an interrupt is Non-secure exactly when group is 1, whatever the
//! modifier. Both stored bits still read back to the Secure side."

use berduzhika_model::Frame;

use super::support::*;

/// An interrupt, and where its word of each family stands.
struct Place {
    intid: u32,
    frame: Frame,
    igroupr: u32,
    isenabler: u32,
    ispendr: u32,
    isactiver: u32,
    igrpmodr: u32,
    bit: u32,
}

impl Place {
    const fn new(intid: u32, frame: Frame, offsets: [u32; 5], bit: u32) -> Place {
        let [igroupr, isenabler, ispendr, isactiver, igrpmodr] = offsets;
        Place {
            intid,
            frame,
            igroupr,
            isenabler,
            ispendr,
            isactiver,
            igrpmodr,
            bit,
        }
    }

    /// Both sides read a word of the interrupt's frame in which no other bit is 1.
    #[track_caller]
    fn reads(&self, bench: &mut Bench, offset: u32, secure: bool, non_secure: bool) {
        for (side, one) in [(Secure, secure), (NonSecure, non_secure)] {
            let seen = value(if one { self.bit } else { 0 });
            bench.only_answers(read(self.frame, side, offset), seen);
        }
    }
}

/// One interrupt of each kind: SGI, PPI, SPI, extended PPI, extended SPI.
const PLACES: [Place; 5] = [
    Place::new(
        5,
        Redistributor,
        [0x080, 0x100, 0x200, 0x300, 0xD00],
        1 << 5,
    ),
    Place::new(
        20,
        Redistributor,
        [0x080, 0x100, 0x200, 0x300, 0xD00],
        1 << 20,
    ),
    Place::new(
        300,
        Distributor,
        [0x0A4, 0x124, 0x224, 0x324, 0xD24],
        1 << 12,
    ),
    Place::new(1056, Redistributor, [0x084, 0x104, 0x204, 0x304, 0xD04], 1),
    Place::new(
        4131,
        Distributor,
        [0x1004, 0x1204, 0x1604, 0x1A04, 0x3404],
        1 << 3,
    ),
];

#[test]
fn with_both_bits_set_the_non_secure_side_has_it() {
    for p in PLACES {
        let mut bench = Bench::with(0x00, &[]);
        let to = |side, offset| write(p.frame, side, offset, p.bit);
        bench.does(to(Secure, p.igrpmodr), &[(p.intid, 0x80)]);
        bench.does(to(Secure, p.igroupr), &[(p.intid, 0xC0)]);
        // Both stored bits read back to the Secure side, and to no other.
        p.reads(&mut bench, p.igroupr, true, false);
        p.reads(&mut bench, p.igrpmodr, true, false);
        // Enabled, set pending, activated and deactivated by the Non-secure side, and seen each time.
        bench.does(to(NonSecure, p.isenabler), &[(p.intid, 0xC1)]);
        p.reads(&mut bench, p.isenabler, true, true);
        bench.does(to(NonSecure, p.ispendr), &[(p.intid, 0xC3)]);
        p.reads(&mut bench, p.ispendr, true, true);
        bench.does(activate(NonSecure, p.intid), &[(p.intid, 0xD1)]);
        p.reads(&mut bench, p.isactiver, true, true);
        bench.does(deactivate(NonSecure, p.intid), &[(p.intid, 0xC1)]);
        p.reads(&mut bench, p.isactiver, false, false);
        bench.only_answers(deactivate(NonSecure, p.intid), refused(9));
    }
}

#[test]
fn a_modifier_write_leaves_it_on_its_side() {
    for p in PLACES {
        // Enabled and pending, on either side.
        for (state, open) in [(0x03, false), (0x43, true)] {
            let mut bench = Bench::with(0x00, &[(p.intid, state)]);
            for (written, byte) in [(p.bit, state | 0x80), (0, state), (p.bit, state | 0x80)] {
                let step = write(p.frame, Secure, p.igrpmodr, written);
                bench.does(step, &[(p.intid, byte)]);
                p.reads(&mut bench, p.igrpmodr, written != 0, false);
                p.reads(&mut bench, p.ispendr, true, open);
            }
            let answer = if open { DONE } else { refused(7) };
            assert_eq!(bench.step(activate(NonSecure, p.intid)), answer);
        }
    }
}

#[test]
fn a_group_write_moves_it_whatever_the_modifier() {
    for p in PLACES {
        for state in [0x03, 0x83] {
            let mut bench = Bench::with(0x00, &[(p.intid, state)]);
            p.reads(&mut bench, p.ispendr, true, false);
            bench.only_answers(activate(NonSecure, p.intid), refused(7));
            let step = write(p.frame, Secure, p.igroupr, p.bit);
            bench.does(step, &[(p.intid, state | 0x40)]);
            p.reads(&mut bench, p.ispendr, true, true);
            bench.does(write(p.frame, Secure, p.igroupr, 0), &[(p.intid, state)]);
            p.reads(&mut bench, p.ispendr, true, false);
            bench.only_answers(activate(NonSecure, p.intid), refused(7));
        }
    }
}
