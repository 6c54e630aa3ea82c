//! Faults that can be switched on in the model, one at a time, to see that the tests can fail.

use std::sync::atomic::{AtomicUsize, Ordering};

#[derive(Clone, Copy, Debug, PartialEq)]
pub enum Fault {
    IssuerAndPartyExchanged,
    HexDigitsExchanged,
    NeighboursTag,
    ColumnOffByOne,
    AnswerOffByOne,
    PromptInPipe,
    TextCutAtHash,
    SmallNamesRefused,
    TabIsNoBlank,
    ReturnIsNoBlank,
    InterchangeWraps,
    IdentifierOf28Bits,
    OddDigitsTaken,
    LongBlockTaken,
    AnyAnswerAsBlock,
    LastLineLost,
    CutEndsDesk,
    FormEndsRawLine,
    BadLineHasOrdinal,
    WordsOfNeighbour,
    EmptyLinesNotCounted,
    HashInsideWord,
    MissingAtLastWord,
    QuoteOnlyInData,
    SidesExchangedInWho,
    ScribeGoesOn,
    RawMayBeEmpty,
    CapitalFunction,
    TooFewKept,
    LeadingZerosCounted,
    HighByteLost,
    ScribeForgetsRaw,
    WhoInOrderOfIdentifiers,
    RawCountedOnce,
    TextTrimmed,
    ColumnInCharacters,
    PasswordsExchanged,
    RefusedNotCounted,
    QuitDoesNotEnd,
    NoPromptAtTerminal,
    PromptBeforePipe,
    AnswersAtTheEnd,
}

use Fault::*;

pub const ALL: [Fault; 42] = [
    IssuerAndPartyExchanged,
    HexDigitsExchanged,
    NeighboursTag,
    ColumnOffByOne,
    AnswerOffByOne,
    PromptInPipe,
    TextCutAtHash,
    SmallNamesRefused,
    TabIsNoBlank,
    ReturnIsNoBlank,
    InterchangeWraps,
    IdentifierOf28Bits,
    OddDigitsTaken,
    LongBlockTaken,
    AnyAnswerAsBlock,
    LastLineLost,
    CutEndsDesk,
    FormEndsRawLine,
    BadLineHasOrdinal,
    WordsOfNeighbour,
    EmptyLinesNotCounted,
    HashInsideWord,
    MissingAtLastWord,
    QuoteOnlyInData,
    SidesExchangedInWho,
    ScribeGoesOn,
    RawMayBeEmpty,
    CapitalFunction,
    TooFewKept,
    LeadingZerosCounted,
    HighByteLost,
    ScribeForgetsRaw,
    WhoInOrderOfIdentifiers,
    RawCountedOnce,
    TextTrimmed,
    ColumnInCharacters,
    PasswordsExchanged,
    RefusedNotCounted,
    QuitDoesNotEnd,
    NoPromptAtTerminal,
    PromptBeforePipe,
    AnswersAtTheEnd,
];

/// 0 for none, else the fault's place in the list, from 1.
static SWITCHED_ON: AtomicUsize = AtomicUsize::new(0);

pub fn switch_on(number: usize) {
    SWITCHED_ON.store(number, Ordering::Relaxed);
}

pub fn on(fault: Fault) -> bool {
    let number = SWITCHED_ON.load(Ordering::Relaxed);
    number > 0 && ALL.get(number - 1) == Some(&fault)
}
