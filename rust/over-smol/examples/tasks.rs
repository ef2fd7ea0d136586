//! A hundred tasks add up what a channel brings them; one is cancelled. `cargo run --example tasks` prints `sum 4950, cancelled`.
use smol::channel::{bounded, Receiver};
use smol::Timer;
use std::time::Duration;

/// Adds up what comes until the channel is closed.
async fn add_up(numbers: Receiver<u64>) -> u64 {
    let mut sum = 0;
    while let Ok(number) = numbers.recv().await {
        sum += number;
    }
    sum
}

fn main() {
    smol::block_on(async {
        let (send, receive) = bounded(4);
        let adders: Vec<_> = (0..100).map(|_| smol::spawn(add_up(receive.clone()))).collect();
        let sleeper = smol::spawn(Timer::after(Duration::from_secs(3600)));
        for number in 0..100 {
            send.send(number).await.expect("the adders listen");
        }
        drop(send);
        let mut sum = 0;
        for adder in adders {
            sum += adder.await;
        }
        let ended = sleeper.cancel().await;
        println!("sum {sum}, {}", if ended.is_none() { "cancelled" } else { "slept" });
    })
}
