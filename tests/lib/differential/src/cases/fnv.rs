//! FNV-1a vectors of eight bytes and more, computed: the first eight bytes are
//! the identity, lowest first, and the others the value attested.

use second::Call;

use crate::calls::{attest, check, create, hand_over, heap_write};
use crate::case::Case;

pub fn cases() -> Vec<Case> {
    VECTORS.iter().map(|(bytes, hash)| case(bytes, *hash)).collect()
}

fn case(bytes: &[u8], hash: u64) -> Case {
    let (front, value) = bytes.split_at(8);
    let identity = u64::from_le_bytes(front.try_into().expect("eight bytes"));
    let (offset, length) = (40, value.len() as u16);
    let mut case = Case::new(format!("FNV-1a of {}", bytes.escape_ascii()));
    case.accept(6, create(6, identity));
    case.accept(0, hand_over(6));
    case.accept(u64::from(length), heap_write(6, offset, value));
    case.accept(0, check(identity, hash, value));
    case.accept(hash, attest(offset, length));
    case.accept(1, check(identity, hash, value));
    case.accept(hash, attest(offset, length));
    case.accept(1 + 256, Call::Report);
    case
}

/// Texts like those of the list that comes with FNV's source. The hashes are computed: none was given from outside
/// (docs/DECISIONS.md, "FNV's vectors").
const VECTORS: [(&[u8], u64); 64] = [
    (b"chongo w", 0xd1ed_d10b_5073_44d0),
    (b"chongo wa", 0x2a5e_e739_b3dd_b8c3),
    (b"chongo was", 0xdcfb_970c_a1c0_d310),
    (b"chongo was ", 0x4054_da76_daa6_da90),
    (b"chongo was h", 0xf70a_2ff5_8986_1368),
    (b"chongo was he", 0x4c62_8b38_aed2_5f17),
    (b"chongo was her", 0x9dd1_f651_0f78_189f),
    (b"chongo was here", 0xa3de_85bd_4912_70ce),
    (b"chongo was here!", 0x858e_2fa3_2a55_e61d),
    (b"chongo was here!\n", 0x4681_0940_eff5_f915),
    (b"chongo \0", 0xd1ed_680b_5072_9265),
    (b"chongo w\0", 0x2a5f_0639_b3dd_ed70),
    (b"chongo wa\0", 0xdcfb_aa0c_a1c0_f359),
    (b"chongo was\0", 0x4054_ba76_daa6_a430),
    (b"chongo was \0", 0xf709_c7f5_8985_62b0),
    (b"chongo was h\0", 0x4c62_e638_aed2_f9b8),
    (b"chongo was he\0", 0x9dd1_a851_0f77_9415),
    (b"chongo was her\0", 0xa3de_2abd_4911_d62d),
    (b"chongo was here\0", 0x858e_0ea3_2a55_ae0a),
    (b"chongo was here!\0", 0x4681_0f40_eff6_0347),
    (b"chongo was here!\n\0", 0xc33b_ce57_bef6_3eaf),
    (b"curds an", 0xb92a_48da_37d0_f477),
    (b"curds and", 0x73cd_ddcc_d80e_bc49),
    (b"curds and ", 0xd58c_4c13_210a_266b),
    (b"curds and w", 0xe78b_6081_243e_c194),
    (b"curds and wh", 0xb096_f770_96a3_9f34),
    (b"curds and whe", 0xb425_c54f_f807_b6a3),
    (b"curds and whey", 0x23e5_20e2_751b_b46e),
    (b"curds and whey\n", 0x1a0b_44cc_fe13_85ec),
    (b"curds a\0", 0xb92a_5eda_37d1_19d9),
    (b"curds an\0", 0x73ce_41cc_d80f_6635),
    (b"curds and\0", 0xd58c_2c13_2109_f00b),
    (b"curds and \0", 0xe78b_af81_243f_47d1),
    (b"curds and w\0", 0xb096_8f70_96a2_ee7c),
    (b"curds and wh\0", 0xb425_a84f_f807_855c),
    (b"curds and whe\0", 0x23e4_e9e2_751b_56f9),
    (b"curds and whey\0", 0x1a0b_4ecc_fe13_96ea),
    (b"curds and whey\n\0", 0x54ab_d453_bb2c_9004),
    (b"127.0.0.1", 0xaaba_fe71_04d9_14be),
    (b"127.0.0.1\0", 0xf4d3_180b_3cde_3eda),
    (b"127.0.0.2", 0xaaba_fd71_04d9_130b),
    (b"127.0.0.2\0", 0xf4cf_b20b_3cdb_5bb1),
    (b"127.0.0.3", 0xaaba_fc71_04d9_1158),
    (b"127.0.0.3\0", 0xf4cc_4c0b_3cd8_7888),
    (b"64.81.78.68", 0xe729_bac5_d2a8_d3a7),
    (b"64.81.78.68\0", 0x74bc_0524_f4df_a4c5),
    (b"64.81.78.74", 0xe726_30c5_d2a5_b352),
    (b"64.81.78.74\0", 0x6b98_3224_ef8f_b456),
    (b"64.81.78.84", 0xe730_42c5_d2ae_266d),
    (b"64.81.78.84\0", 0x8527_e324_fdeb_4b37),
    (b"feedface", 0x0a83_c86f_ee95_2abc),
    (b"feedface\0", 0x7318_5232_6777_9d74),
    (b"feedfacedaffdeed", 0x3e66_d3d5_6b8c_aca1),
    (b"feedfacedaffdeed\0", 0x9566_94a5_c009_5593),
    (b"feedfacedeadbeef", 0xcac5_4572_bb1a_6fc8),
    (b"feedfacedeadbeef\0", 0xa7a4_c9f3_edeb_f0d8),
    (b"line 1\nline 2\nline 3", 0x7829_851f_ac17_b143),
    (b"chongo <Landon Curt Noll> /\\../\\", 0x2c8f_4c9a_f81b_cf06),
    (b"chongo <Landon Curt Noll> /\\../\\\0", 0xd34e_3153_9740_c732),
    (b"chongo (Landon Curt Noll) /\\../\\", 0x3605_a2ac_253d_2db1),
    (b"chongo (Landon Curt Noll) /\\../\\\0", 0x08c1_1b83_46f4_a3c3),
    (b"http://antwrp.gsfc.nasa.gov/apod/astropix.html", 0x6be3_9628_9ce8_a6da),
    (b"http://en.wikipedia.org/wiki/Fowler_Noll_Vo_hash", 0xd9b9_57fb_7fe7_94c5),
    (b"http://epod.usra.edu/", 0x05be_33da_0456_0a93),
];
