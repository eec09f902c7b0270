//! The example that the papers carry through: document 000's block, and document 01's whole run, where it is block 1.

use crate::sheet::read_sheet;
use crate::{BLOCK_NUMBERS, BLOCK_VALUES, PARTS};

/// Document 01's whole run: the sheet and the report.
pub const WHOLE_RUN: &[u8] = include_bytes!("../../../examples/example.sheet");
pub const WHOLE_RUN_REPORT: &str = include_str!("../../../crates/tsav_sheet/stdout");

/// #110: a sheet in thousands of dollars, with the lines of the whole run.
pub const IN_THOUSANDS: &[u8] = include_bytes!("../../../examples/thousands.sheet");

/// #111: the example's block, and a raise of 10,000 dollars.
pub const EXAMPLE_MOVEMENT: &[u8] = include_bytes!("../../../examples/example.movement");

/// #113: a sheet with four lines whose need is unmet.
pub const UNMET: &[u8] = include_bytes!("../../../examples/unmet.sheet");

/// #114: three sheets, of which the second is refused and the third has another scalar.
pub const EXAMPLE_QUARTER: &[u8] = include_bytes!("../../../examples/example.quarter");

/// I, D, U, LT and K of the example, as "Calibration points" has them; then the steps of #107, by #109 of the finer roots: that of
/// I, PC not yet added, is 15,288,417,185 hundredths of the half cent, between 2^33 and 2^34, and that of D 19,140,543,664, above
/// 2^34.
pub const EXAMPLE_FIGURES: [u64; BLOCK_VALUES] =
    [157_884_172, 191_405_437, 176_550_000, 90_400_000, 151_765_333, 34, 35];

/// #112: the shares of the example. Its margins are 88,485,333, 214,498, 3,902,346, 144,715, 21,506,149, 5,342,772, 742,875,
/// 2,278,878, 15,426,669 and 5,924,837, together 143,969,072, and four cents are left over.
pub const EXAMPLE_SHARES: [u64; PARTS] =
    [93_277_020, 226_114, 4_113_667, 152_552, 22_670_757, 5_632_096, 783_103, 2_402_284, 16_262_059, 6_245_681];

/// The example of document 000, in cents: seven pairs IR, LT, then PC, credit, market.
pub fn example() -> [u64; BLOCK_NUMBERS] {
    read_sheet(WHOLE_RUN).expect("the whole run is accepted").blocks[&1]
}
