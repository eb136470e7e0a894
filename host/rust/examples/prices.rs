use guineatwirl::{Combiner, Refusal, Tariff, multiway_full_join};

fn main() -> Result<(), Refusal> {
    // What a house sells its seats for: base prices, a demand step and a booking fee, in pence.
    let base = [Tariff::new(1_u32..=100, 4500), Tariff::new(101..=180, 3000)];
    let demand = [Tariff::new(1..=20, 750)];
    let fee = [Tariff::new(1..=180, 250)];

    let prices = multiway_full_join(Combiner::Sum, &[&base[..], &demand, &fee])?;
    for price in prices {
        println!("seats {} to {}: {} pence", price.start, price.end, price.value);
    }

    // The circle is typed from seat 100 on, which the stalls have already.
    let typed = [Tariff::new(1..=100, 4500), Tariff::new(100..=180, 3000)];
    match multiway_full_join(Combiner::Sum, &[&typed[..], &demand, &fee]) {
        Ok(prices) => println!("{} ranges", prices.len()),
        Err(refusal) => println!("refused: {refusal}"),
    }
    Ok(())
}
