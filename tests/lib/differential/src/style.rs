//! The sorts of scripts that are played.

/// Among the kinds: a link value is written into the heap, then logged or
/// escrowed.
pub(crate) const LINK: u8 = 0;

/// Among the kinds: who runs leaves, and a new tenant logs a value.
pub(crate) const TENANT: u8 = 255;

/// What sort of script it becomes.
#[derive(Clone, Copy)]
pub(crate) struct Style {
    /// Kinds of call while a service runs. One that stands twice comes twice as
    /// often.
    pub kinds: &'static [u8],
    /// The shortest and the longest value.
    pub values: (u16, u16),
    /// How many values a heap byte takes. With few, pairs are logged again.
    pub alphabet: u64,
    /// How many draws there are, about 0, besides those near a row's. With few,
    /// handles collide.
    pub draws: u64,
    /// How many identities there are.
    pub identities: usize,
    /// One call in so many has any fields, and may be refused.
    pub loose: u64,
    /// At most so many calls.
    pub calls: u16,
}

pub(crate) const STYLES: [Style; 13] = [
    // Many short values: the rows run out.
    Style {
        kinds: &[5, 5, 6, 9, 9, 9, 9, 9, 10, 11, 11, 11, 11, 11, 12, 13, 14],
        values: (0, 6),
        alphabet: 256,
        draws: 4,
        identities: 3,
        loose: 30,
        calls: 500,
    },
    // Long values: the value bytes run out.
    Style {
        kinds: &[5, 5, 5, 5, 6, 9, 9, 9, 10, 11, 11, 11, 12, 12, 13, 14],
        values: (200, 256),
        alphabet: 256,
        draws: 2,
        identities: 3,
        loose: 30,
        calls: 160,
    },
    // Values of every length.
    Style {
        kinds: &[1, 4, 5, 5, 6, 7, 8, 9, 9, 10, 10, 11, 11, 12, 12, 13, 14, 15, 16, LINK],
        values: (0, 256),
        alphabet: 256,
        draws: 1 << 48,
        identities: 5,
        loose: 15,
        calls: 240,
    },
    // Tenants come and go.
    Style {
        kinds: &[1, 1, 4, 4, 5, 5, 6, 6, 9, 10, 11, 12, 13, 14, 14, 15, 16, LINK, LINK],
        values: (0, 40),
        alphabet: 256,
        draws: 3,
        identities: 8,
        loose: 20,
        calls: 300,
    },
    // The same few pairs and handles again and again.
    Style {
        kinds: &[1, 5, 6, 9, 9, 9, 10, 10, 11, 11, 11, 12, 12, 13, 14, 16],
        values: (0, 3),
        alphabet: 2,
        draws: 1,
        identities: 2,
        loose: 25,
        calls: 300,
    },
    // One length and one draw: a protect passes over most rows before it.
    Style {
        kinds: &[5, 5, 9, 11, 11, 11, 11, 11, 11, 12, 13, 14],
        values: (2, 2),
        alphabet: 4,
        draws: 1,
        identities: 2,
        loose: 40,
        calls: 240,
    },
    // Shared memory.
    Style {
        kinds: &[5, 7, 7, 7, 8, 8, 8, 9, 11, 12, 14],
        values: (0, 256),
        alphabet: 256,
        draws: 8,
        identities: 3,
        loose: 10,
        calls: 120,
    },
    // Values handed on and checked.
    Style {
        kinds: &[5, 6, 9, 10, 10, 10, 11, 11, 12, 12, 12, 12, 14, 14, 15, 15, 16, LINK, LINK],
        values: (0, 64),
        alphabet: 16,
        draws: 5,
        identities: 4,
        loose: 25,
        calls: 300,
    },
    // Every second call is loose.
    Style {
        kinds: &[1, 4, 5, 6, 7, 8, 9, 9, 10, 11, 11, 12, 13, 14, 15, 16, LINK],
        values: (0, 256),
        alphabet: 8,
        draws: 4,
        identities: 3,
        loose: 2,
        calls: 200,
    },
    // Long values, given up again: the freed bytes serve, and the rows run out.
    Style {
        kinds: &[5, 5, 6, 6, 11, 11, 11, 11, 12, 12, 13, 14, 16, 16],
        values: (100, 256),
        alphabet: 256,
        draws: 2,
        identities: 2,
        loose: 30,
        calls: 400,
    },
    // Short values of one draw, some of no bytes, given up and escrowed again.
    Style {
        kinds: &[5, 6, 6, 11, 11, 11, 12, 12, 12, 13, 14, 16, 16],
        values: (0, 2),
        alphabet: 256,
        draws: 1,
        identities: 3,
        loose: 25,
        calls: 300,
    },
    // Chains of many links, for one recipient or another.
    Style {
        kinds: &[6, 10, 12, 13, 14, 15, 15, 15, 15, 15, LINK, LINK, LINK, LINK, LINK, LINK],
        values: (0, 20),
        alphabet: 4,
        draws: 1 << 48,
        identities: 2,
        loose: 40,
        calls: 400,
    },
    // Short chains: heads of every sort, few draws, tenants that come and go.
    Style {
        kinds: &[1, 4, 5, 9, 11, 14, 14, 15, 15, 15, 15, 16, LINK, LINK, LINK],
        values: (0, 18),
        alphabet: 5,
        draws: 3,
        identities: 3,
        loose: 12,
        calls: 240,
    },
];

/// The sorts of level-one papers.
pub(crate) const LEVEL_ONE_STYLES: [Style; 6] = [
    // The same few values again and again, and others that are refused.
    Style {
        kinds: &[5, 6, 9, 9, 9, 9, 10, 13, 14, 14],
        values: (0, 3),
        alphabet: 2,
        draws: 4,
        identities: 3,
        loose: 20,
        calls: 240,
    },
    // Tenants come and go, each with a short value: the log's rows run out.
    Style {
        kinds: &[1, 5, 9, 9, 10, 13, 14, TENANT, TENANT, TENANT, TENANT],
        values: (0, 6),
        alphabet: 256,
        draws: 4,
        identities: 300,
        loose: 40,
        calls: 900,
    },
    // Tenants with long values: the log's bytes run out.
    Style {
        kinds: &[5, 6, 9, 9, 10, 14, 14, TENANT, TENANT],
        values: (200, 256),
        alphabet: 256,
        draws: 4,
        identities: 40,
        loose: 40,
        calls: 300,
    },
    // Escrow and chains, as a full paper has them.
    Style {
        kinds: &[1, 4, 5, 6, 9, 9, 10, 11, 11, 12, 12, 13, 14, 15, 15, 16, LINK, LINK],
        values: (0, 40),
        alphabet: 256,
        draws: 1 << 48,
        identities: 5,
        loose: 12,
        calls: 240,
    },
    // Every kind, and shared memory.
    Style {
        kinds: &[1, 1, 4, 5, 5, 6, 7, 8, 9, 9, 9, 10, 13, 14, 14],
        values: (0, 64),
        alphabet: 8,
        draws: 4,
        identities: 8,
        loose: 15,
        calls: 240,
    },
    // Every second call is loose.
    Style {
        kinds: &[1, 4, 5, 6, 7, 8, 9, 9, 10, 11, 12, 13, 14, 15, 16],
        values: (0, 256),
        alphabet: 8,
        draws: 4,
        identities: 3,
        loose: 2,
        calls: 200,
    },
];
