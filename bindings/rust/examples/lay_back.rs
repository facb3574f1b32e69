//! Two stages over one word of rows: the second stage's answer is a mask over ranks, and is laid back onto rows.

fn rows(mask: u64) -> Vec<u32> {
    (0..64).filter(|row| mask >> row & 1 == 1).collect()
}

fn main() {
    let kept: u64 = 0b1101_0110; // rows that the first stage kept
    let ranks: u64 = 0b10010; // of those, what the second stage kept: ranks 1 and 4
    println!("first stage kept rows {:?}", rows(kept));
    println!("second stage kept ranks {:?}", rows(ranks));
    println!("laid back onto rows: {:?}", rows(boltamber::deposit(ranks, kept)));
    for rank in rows(ranks) {
        println!("rank {rank} is row {:?}", boltamber::select(kept, u64::from(rank)));
    }
}
