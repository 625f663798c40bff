//! Why a record was refused, for stewards.

use plankeeper::Refusal;

/// The cause of a refusal as stewards read it: document 01's sentence without the
/// kinds of record that it is about, and in plainer words where that alone says
/// too little.
pub fn cause(refusal: Refusal) -> &'static str {
    match refusal {
        Refusal::UnknownKind => "no such kind of record",
        Refusal::TooShort => "the record is cut short",
        Refusal::OutOfRange => {
            "a field or count outside its range, a pantry above 7, or an unused slot not zero"
        }
        Refusal::TokenTwice => "one token named twice",
        Refusal::SumsDiffer => "the portions taken and given have different sums",
        Refusal::NotTakingPart => "receiver or sender not among the swap's pantries",
        Refusal::NumberTaken => "number known here for a different swap",
        Refusal::KnownAlready => "this swap is known here already",
        Refusal::TransactionsFull => "32 swaps are known here already",
        Refusal::TokensFull => "tokens here would pass 128",
        Refusal::NumberUnknown => "number unknown here",
        Refusal::OtherVerdict => "other verdict heard from this sender",
        Refusal::MintTooLate => "too late for an opening, since a swap is known here",
        Refusal::IndexGiven => "this opening position was given already",
        Refusal::BufferTooShort => "fewer bytes lent than the record has",
        Refusal::VoteNotGiven => "sender has not given this vote on this swap",
        Refusal::HeldOff => "takes what an undecided swap is to make here",
        Refusal::NoSuchNumber => "number not known at that pantry",
        Refusal::TurnedAlready => "this pantry is turned already",
        // The library may come to know further causes.
        _ => "a cause without words of its own",
    }
}
