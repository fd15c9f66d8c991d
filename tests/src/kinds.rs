//! A kind is the section id times 65,536 plus the tag, tag 0 for a section.

pub const PUBLIC_KEY: u32 = 0x11_0000;
pub const RULE: u32 = 0x12_0000;
pub const TRANSPORT_VARIANT: u32 = 0x12_0001;
pub const TRANSPORT_RULE: u32 = 0x12_0002;
pub const EXPORT_PARAMETERS: u32 = 0x12_0003;
pub const SOURCE_RULE: u32 = 0x12_0004;
pub const TOKEN_PARAMETERS: u32 = 0x12_0005;
pub const NAME: u32 = 0x13_0000;
pub const INFORMATION: u32 = 0x14_0000;
pub const PROTECTION: u32 = 0x14_0001;
pub const DATES: u32 = 0x14_0002;
pub const APPLICATION_DATA: u32 = 0x15_0000;

/// All twelve kinds, in the order of document 01.
pub const ALL: [u32; 12] = [
    PUBLIC_KEY,
    RULE,
    TRANSPORT_VARIANT,
    TRANSPORT_RULE,
    EXPORT_PARAMETERS,
    SOURCE_RULE,
    TOKEN_PARAMETERS,
    NAME,
    INFORMATION,
    PROTECTION,
    DATES,
    APPLICATION_DATA,
];

pub const EXTERNAL: u8 = 0x1E;
pub const INTERNAL: u8 = 0x1F;

/// Bytes of the header.
pub const HEADER: usize = 8;
/// Where `length` stands in a section and in a subsection.
pub const LENGTH: usize = 2;
/// Fewest bytes of a token.
pub const SHORTEST: usize = 80;
/// Most bytes of a token.
pub const LONGEST: usize = 3500;

/// Whether a kind is a section and not a subsection.
pub fn is_section(kind: u32) -> bool {
    kind % 0x1_0000 == 0
}

/// The kind of section that a kind of subsection belongs to.
pub fn owner_of(kind: u32) -> u32 {
    kind - kind % 0x1_0000
}

/// The plain number in the layout's length: the least length of the kind.
/// None for a kind that is not listed.
pub fn least_length(kind: u32) -> Option<usize> {
    match kind {
        PUBLIC_KEY => Some(16),
        RULE => Some(20),
        TRANSPORT_VARIANT => Some(8),
        TRANSPORT_RULE | SOURCE_RULE => Some(14),
        EXPORT_PARAMETERS => Some(12),
        TOKEN_PARAMETERS => Some(10),
        NAME => Some(68),
        INFORMATION => Some(10),
        PROTECTION => Some(62),
        DATES => Some(16),
        APPLICATION_DATA => Some(6),
        _ => None,
    }
}
