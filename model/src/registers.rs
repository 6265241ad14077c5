//! The listed registers, by ranges of offsets written out from document 01's
//! table "Listed registers". Listed does not depend on the shape (reading 2).

/// The families of one bit for each interrupt.
#[derive(Clone, Copy, Debug, PartialEq, Eq)]
pub enum Family {
    Group,
    SetEnable,
    ClearEnable,
    SetPending,
    ClearPending,
    SetActive,
    ClearActive,
    Modifier,
}

/// A listed word.
#[derive(Clone, Copy, Debug, PartialEq, Eq)]
pub enum Register {
    Typer,
    /// SETSPI (`set`) or CLRSPI, as the SR register (`secure`) or the NSR one.
    Message {
        set: bool,
        secure: bool,
    },
    /// A word that is listed and res0.
    Reserved,
    /// 32 interrupts from `first` on, a bit each.
    Bits {
        family: Family,
        first: u32,
    },
    /// ICFGR: 16 interrupts from `first` on, two bits each.
    Config {
        first: u32,
    },
}

/// The register at an aligned word of the Distributor frame, if one is listed.
pub fn distributor(offset: u32) -> Option<Register> {
    if offset < 0x1000 {
        distributor_first_page(offset)
    } else {
        distributor_extended(offset)
    }
}

/// TYPER, the message registers, and the column "Dist, words 0-31".
fn distributor_first_page(offset: u32) -> Option<Register> {
    let register = match offset {
        0x004 => Register::Typer,
        0x040 => message(true, false),
        0x048 => message(false, false),
        0x050 => message(true, true),
        0x058 => message(false, true),
        0x080..=0x0FF => spi_bits(Family::Group, offset - 0x080),
        0x100..=0x17F => spi_bits(Family::SetEnable, offset - 0x100),
        0x180..=0x1FF => spi_bits(Family::ClearEnable, offset - 0x180),
        0x200..=0x27F => spi_bits(Family::SetPending, offset - 0x200),
        0x280..=0x2FF => spi_bits(Family::ClearPending, offset - 0x280),
        0x300..=0x37F => spi_bits(Family::SetActive, offset - 0x300),
        0x380..=0x3FF => spi_bits(Family::ClearActive, offset - 0x380),
        0xC00..=0xCFF => spi_config(offset - 0xC00),
        0xD00..=0xD7F => spi_bits(Family::Modifier, offset - 0xD00),
        _ => return None,
    };
    Some(register)
}

/// The column "Dist extended, 0-31".
fn distributor_extended(offset: u32) -> Option<Register> {
    let register = match offset {
        0x1000..=0x107F => extended_bits(Family::Group, offset - 0x1000),
        0x1200..=0x127F => extended_bits(Family::SetEnable, offset - 0x1200),
        0x1400..=0x147F => extended_bits(Family::ClearEnable, offset - 0x1400),
        0x1600..=0x167F => extended_bits(Family::SetPending, offset - 0x1600),
        0x1800..=0x187F => extended_bits(Family::ClearPending, offset - 0x1800),
        0x1A00..=0x1A7F => extended_bits(Family::SetActive, offset - 0x1A00),
        0x1C00..=0x1C7F => extended_bits(Family::ClearActive, offset - 0x1C00),
        0x3000..=0x30FF => extended_config(offset - 0x3000),
        0x3400..=0x347F => extended_bits(Family::Modifier, offset - 0x3400),
        _ => return None,
    };
    Some(register)
}

/// The register at an aligned word of the Redistributor frame: the column
/// "Redist, 0-2", and 6 words of ICFGR.
pub fn redistributor(offset: u32) -> Option<Register> {
    let register = match offset {
        0x080..=0x08B => private_bits(Family::Group, offset - 0x080),
        0x100..=0x10B => private_bits(Family::SetEnable, offset - 0x100),
        0x180..=0x18B => private_bits(Family::ClearEnable, offset - 0x180),
        0x200..=0x20B => private_bits(Family::SetPending, offset - 0x200),
        0x280..=0x28B => private_bits(Family::ClearPending, offset - 0x280),
        0x300..=0x30B => private_bits(Family::SetActive, offset - 0x300),
        0x380..=0x38B => private_bits(Family::ClearActive, offset - 0x380),
        0xC00..=0xC17 => private_config(offset - 0xC00),
        0xD00..=0xD0B => private_bits(Family::Modifier, offset - 0xD00),
        _ => return None,
    };
    Some(register)
}

fn message(set: bool, secure: bool) -> Register {
    Register::Message { set, secure }
}

// "Offsets are first words, 4 bytes apart": in each function below the distance
// from the family's first word, divided by 4, is the word number n.

/// "Bit x of word n is INTID 32n + x"; "In the second column word 0 (ICFGR words
/// 0 and 1) is res0 because routing is on".
fn spi_bits(family: Family, distance: u32) -> Register {
    match distance / 4 {
        0 => Register::Reserved,
        n => Register::Bits {
            family,
            first: 32 * n,
        },
    }
}

/// "For field x of ICFGR read 16n for 32n"; words 0 and 1 are res0 as above.
fn spi_config(distance: u32) -> Register {
    match distance / 4 {
        0 | 1 => Register::Reserved,
        n => Register::Config { first: 16 * n },
    }
}

/// "in extended Distributor words 4096 + 32n + x"; "extended word 0 is not" res0.
fn extended_bits(family: Family, distance: u32) -> Register {
    let first = 4096 + 32 * (distance / 4);
    Register::Bits { family, first }
}

/// Extended ICFGR: 4096 + 16n + x.
fn extended_config(distance: u32) -> Register {
    let first = 4096 + 16 * (distance / 4);
    Register::Config { first }
}

/// "in Redistributor words 1 and 2 INTID 1024 + 32n + x"; word 0 is INTIDs 0 to 31.
fn private_bits(family: Family, distance: u32) -> Register {
    let first = match distance / 4 {
        0 => 0,
        n => 1024 + 32 * n,
    };
    Register::Bits { family, first }
}

/// "its Redistributor words 2 to 5 are the extended ones": 1024 + 16n + x, while
/// word 0 is the SGIs and word 1 the PPIs (reading 3).
fn private_config(distance: u32) -> Register {
    let first = match distance / 4 {
        n @ (0 | 1) => 16 * n,
        n => 1024 + 16 * n,
    };
    Register::Config { first }
}
