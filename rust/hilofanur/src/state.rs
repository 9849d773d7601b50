//! The guest's registers, the A64 state, the ends of a block and of an A64 run.

use crate::numbered::numbered;

/// The 32 registers of an RV64 hart, or what their slots hold. Register 0's entry may be anything: it is read as 0,
/// and an RV64 run that is accepted gives 0 back for it.
///
/// ```
/// use hilofanur::Registers;
/// let mut registers = Registers::default();
/// registers.x[10] = 0x0102;
/// let bytes = registers.to_bytes();
/// assert_eq!(bytes[80..88], [2, 1, 0, 0, 0, 0, 0, 0]);
/// assert_eq!(Registers::from_bytes(&bytes), registers);
/// ```
#[derive(Clone, Copy, Debug, Default, PartialEq, Eq)]
pub struct Registers {
    /// x0 to x31.
    pub x: [u64; 32],
}

impl Registers {
    /// Eight little-endian bytes a register.
    pub fn to_bytes(&self) -> [u8; 256] {
        to_bytes(self.x)
    }

    /// The registers that these bytes hold.
    pub fn from_bytes(bytes: &[u8; 256]) -> Registers {
        Registers { x: numbers(bytes) }
    }
}

/// The registers and flags of an A64 run.
#[derive(Clone, Copy, Debug, Default, PartialEq, Eq)]
pub struct A64State {
    /// X0 to X30.
    pub x: [u64; 31],
    /// SP.
    pub sp: u64,
    /// The low four bits, N highest; a run ignores higher ones and leaves them 0.
    pub nzcv: u64,
}

impl A64State {
    /// X0 to X30, SP, NZCV: eight little-endian bytes each.
    pub fn to_bytes(&self) -> [u8; 264] {
        let mut all = [0; 33];
        all[..31].copy_from_slice(&self.x);
        (all[31], all[32]) = (self.sp, self.nzcv);
        to_bytes(all)
    }

    /// The state that these bytes hold.
    pub fn from_bytes(bytes: &[u8; 264]) -> A64State {
        let all: [u64; 33] = numbers(bytes);
        A64State { x: std::array::from_fn(|n| all[n]), sp: all[31], nzcv: all[32] }
    }
}

fn to_bytes<const N: usize, const B: usize>(numbers: [u64; N]) -> [u8; B] {
    let mut bytes = [0; B];
    for (eight, number) in bytes.chunks_exact_mut(8).zip(numbers) {
        eight.copy_from_slice(&number.to_le_bytes());
    }
    bytes
}

fn numbers<const N: usize>(bytes: &[u8]) -> [u64; N] {
    let (eights, _) = bytes.as_chunks();
    std::array::from_fn(|n| u64::from_le_bytes(eights[n]))
}

/// What ended a block.
///
/// ```
/// use hilofanur::{translate, EndKind, Guest, Host, Refusal};
/// // fence.i, c.nop
/// let bytes = [0x0f, 0x10, 0, 0, 1, 0];
/// let guest = Guest { bytes: &bytes, pc: 0x1000, limit: 64, ignore_ebreak: false };
/// let host = Host { slot_offset: 0, memory_helper: 0x10000, helper32: 0x20000, helper16: 0x30000 };
/// let block = translate(&guest, &host, &mut [0; 64])?;
/// assert_eq!((block.count, block.end_kind), (1, EndKind::Drop));
/// assert_eq!(EndKind::from_number(3), Some(EndKind::Drop));
/// # Ok::<(), Refusal>(())
/// ```
#[derive(Clone, Copy, Debug, PartialEq, Eq, Hash)]
pub enum EndKind {
    /// A jump or branch, the limit, or an instruction that is not covered or not fetched.
    Plain = 1,
    /// A helper instruction: the block calls the helper for it.
    Helper = 2,
    /// FENCE.I, as the limit's last instruction too: the guest may have changed its code. A dispatcher keeps the
    /// block out of its index and empties that.
    Drop = 3,
}

numbered!(EndKind: Plain, Helper, Drop);

/// How an A64 run ended.
#[derive(Clone, Copy, Debug, PartialEq, Eq, Hash)]
pub enum End {
    /// No word is left.
    OffTheEnd = 1,
    /// The budget is used.
    Spent = 2,
    /// A word outside the 30 forms.
    Unreadable = 3,
    /// An access not wholly inside memory, not a multiple of 8, or through SP not a multiple of 16.
    Fault = 4,
    /// RET.
    Returned = 5,
    /// BLR; X30 holds the next word's address. [`crate::a64_run_from`] goes on there.
    Called = 6,
}

numbered!(End: OffTheEnd, Spent, Unreadable, Fault, Returned, Called);
