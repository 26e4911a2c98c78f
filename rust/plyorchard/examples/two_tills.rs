//! Two tills read 50 on one card and both try to take 50. The first is accepted; the second, whose number is no longer
//! there, is refused, so that one basket is paid for and not two.

use plyorchard::{card_read, card_write, Refusal};

/// The bits of a card's word that hold its balance; other fields lie under the others.
const BALANCE: u64 = 0x0FF0;
const CARD: usize = 0;

fn main() -> Result<(), Refusal> {
    let mut table = [0xF325];
    let first = card_read(&table, CARD, BALANCE)?;
    let second = card_read(&table, CARD, BALANCE)?;
    println!("the first till reads {first}, and so does the second: {second}");

    let answers = [("first", first), ("second", second)].map(|(till, read)| {
        let answer = card_write(&mut table, CARD, BALANCE, read, read - 50);
        match answer {
            Ok(()) => println!("the {till} till takes 50"),
            Err(refusal) => println!("the {till} till takes nothing: {refusal}"),
        }
        answer
    });
    println!("the card has {} left", card_read(&table, CARD, BALANCE)?);

    assert_eq!((first, second), (50, 50));
    assert_eq!(answers, [Ok(()), Err(Refusal::Differs)]);
    assert_eq!(
        table,
        [0xF005],
        "the balance is 0 and every other bit stays"
    );
    Ok(())
}
