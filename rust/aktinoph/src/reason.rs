//! Why a symbol does not resolve.

/// Why a relocation's symbol does not resolve: the first that applies, in the order
/// of the cases. The symbol's section is looked at before its type. Symbol 0 always
/// has its value, so that only the last can apply to it.
#[derive(Clone, Copy, PartialEq, Eq, Hash, Debug)]
pub enum Reason {
    /// 1: there is no symbol with this number in the table.
    PastTable = 1,
    /// 2: the symbol is of a section, 1 to 0xFEFF, that is missing or not
    /// allocated.
    NotAllocated = 2,
    /// 3: the symbol is common (section 0xFFF2).
    Common = 3,
    /// 4: the symbol's section is a reserved number, from 0xFF00 on, that is
    /// neither absolute (0xFFF1) nor common.
    Reserved = 4,
    /// 5: the symbol is undefined and not weak, and the order has no value for it.
    Undefined = 5,
    /// 6: the symbol is of type TLS or IFUNC.
    WrongType = 6,
    /// 7: the symbol of a PCREL_LO12 is not in the section that the relocation
    /// patches.
    NotInTarget = 7,
}

impl Reason {
    /// All reasons, in their order.
    pub const ALL: [Reason; 7] = [
        Reason::PastTable,
        Reason::NotAllocated,
        Reason::Common,
        Reason::Reserved,
        Reason::Undefined,
        Reason::WrongType,
        Reason::NotInTarget,
    ];

    /// The reason's number, 1 to 7.
    pub fn number(self) -> u32 {
        self as u32
    }

    /// The reason with this number.
    pub(crate) fn from_number(number: u32) -> Option<Reason> {
        Reason::ALL
            .into_iter()
            .find(|reason| reason.number() == number)
    }

    /// What is wrong with the symbol, as a part of a sentence about a relocation.
    pub(crate) fn words(self) -> &'static str {
        match self {
            Reason::PastTable => "its symbol is past the end of the symbol table",
            Reason::NotAllocated => "its symbol's section is missing or not allocated",
            Reason::Common => "its symbol is common, and lies in no section",
            Reason::Reserved => "its symbol's section is a reserved number",
            Reason::Undefined => {
                "its symbol is undefined, not weak, and the order gives it no value"
            }
            Reason::WrongType => "its symbol is of type TLS or IFUNC",
            Reason::NotInTarget => "its symbol is not in the section that it patches",
        }
    }
}
