//! Tests of the functions by numbers, which the types of this crate cannot ask for: every bad number is refused, none is cut, and
//! every lent byte stays as it was.
use crate::ffi::{
    berduzhika_access, berduzhika_activate, berduzhika_deactivate, berduzhika_reset,
    berduzhika_wire, FRAME_DIST, READ, SIDE_NON_SECURE, SIDE_SECURE, WRITE,
};

const NAMELESS: u64 = 100 << 32;
const SHAPE: u64 = 1 << 32;

struct Lent {
    dist: [u8; 2012],
    redist: [u8; 96],
    dist_presence: [u32; 63],
    redist_presence: [u32; 3],
    lengths: [usize; 4],
    mbis: u32,
}

// Records that any write would change: all 0xFF, and all present.
fn full() -> Lent {
    Lent {
        dist: [0xFF; 2012],
        redist: [0xFF; 96],
        dist_presence: [u32::MAX; 63],
        redist_presence: [u32::MAX; 3],
        lengths: [2012, 96, 63, 3],
        mbis: 1,
    }
}

macro_rules! call {
    ($function:ident, $b:expr $(, $number:expr)*) => {
        // SAFETY: no length is larger than its array, and the arrays are fields of one struct.
        unsafe {
            $function(
                $b.dist.as_mut_ptr(), $b.lengths[0],
                $b.redist.as_mut_ptr(), $b.lengths[1],
                $b.dist_presence.as_ptr(), $b.lengths[2],
                $b.redist_presence.as_ptr(), $b.lengths[3],
                9, 4, 1, $b.mbis $(, $number)*
            )
        }
    };
}

fn untouched(b: &Lent) -> bool {
    b.dist.iter().chain(&b.redist).all(|&record| record == 0xFF)
}

// Numbers that name nothing, though a part of them would.
const STRAY: [u32; 8] = [0, 3, 4, 0x101, 0x102, 0x1_0002, 0x8000_0002, u32::MAX];

#[test]
fn a_stray_frame_side_or_way_is_refused() {
    for n in STRAY {
        let mut b = full();
        // clears every enable of word 9, were it let pass
        assert_eq!(
            call!(
                berduzhika_access,
                b,
                n,
                SIDE_SECURE,
                WRITE,
                4,
                0x1A4,
                u32::MAX
            ),
            NAMELESS
        );
        assert_eq!(
            call!(
                berduzhika_access,
                b,
                FRAME_DIST,
                n,
                WRITE,
                4,
                0x1A4,
                u32::MAX
            ),
            NAMELESS
        );
        assert_eq!(
            call!(
                berduzhika_access,
                b,
                FRAME_DIST,
                SIDE_SECURE,
                n,
                4,
                0x1A4,
                u32::MAX
            ),
            NAMELESS
        );
        assert_eq!(call!(berduzhika_activate, b, n, 300), NAMELESS);
        assert_eq!(call!(berduzhika_deactivate, b, n, 300), NAMELESS);
        assert!(untouched(&b));
    }
}

#[test]
fn a_stray_level_is_refused() {
    for n in [2, 0x100, 0x1_0000, 0x8000_0000, u32::MAX] {
        let mut b = full();
        assert_eq!(call!(berduzhika_wire, b, 300, n), NAMELESS);
        assert!(untouched(&b));
    }
}

#[test]
fn a_stray_mbis_is_a_shape_off_its_limit() {
    for n in [2, 0x100, 0x101, u32::MAX] {
        let mut b = full();
        b.mbis = n;
        assert_eq!(
            call!(
                berduzhika_access,
                b,
                FRAME_DIST,
                SIDE_SECURE,
                WRITE,
                1,
                0x1A4,
                0
            ),
            SHAPE
        );
        assert_eq!(call!(berduzhika_wire, b, 300, 0), SHAPE);
        assert_eq!(call!(berduzhika_activate, b, SIDE_SECURE, 300), SHAPE);
        assert_eq!(call!(berduzhika_deactivate, b, SIDE_SECURE, 300), SHAPE);
        assert_eq!(call!(berduzhika_reset, b), SHAPE);
        // a side that is none comes first
        assert_eq!(call!(berduzhika_activate, b, 0, 300), NAMELESS);
        assert!(untouched(&b));
    }
}

#[test]
fn a_length_that_is_not_the_tables_is_refused() {
    for table in 0..4 {
        let mut b = full();
        for length in [0, b.lengths[table] - 1] {
            b.lengths[table] = length;
            assert_eq!(
                call!(
                    berduzhika_access,
                    b,
                    FRAME_DIST,
                    SIDE_NON_SECURE,
                    READ,
                    4,
                    0x004,
                    0
                ),
                SHAPE
            );
            assert_eq!(call!(berduzhika_reset, b), SHAPE);
            assert!(untouched(&b));
        }
    }
}

#[test]
fn good_numbers_are_answered() {
    let mut b = full();
    let typer = call!(
        berduzhika_access,
        b,
        FRAME_DIST,
        SIDE_NON_SECURE,
        READ,
        4,
        0x004,
        u32::MAX
    );
    assert_eq!(typer, 0x1A61_0509);
    assert_eq!(call!(berduzhika_deactivate, b, SIDE_SECURE, 300), 0);
    assert_eq!(b.dist[300 - 32], 0xEF);
    assert_eq!(call!(berduzhika_deactivate, b, SIDE_SECURE, 300), 9 << 32);
    assert_eq!(call!(berduzhika_reset, b), 0);
    assert!(b.dist.iter().chain(&b.redist).all(|&record| record == 0));
}
