use railcadence::{BadPlans, Gcra, Outcome, Plan, Plans};

fn main() -> Result<(), BadPlans> {
    let plans = Plans::new(&[Plan::new(3, 1000, 2)])?; // 3 units per 1000 ms, up to 2 at once
    let mut table = Gcra::with_slots(300); // as many as owe something at once
    for _ in 0..3 {
        // at moment 1000, shop 7 asks under plan 0 for 1
        match table.acquire(&plans, 1000, 7, 0, 1).outcome {
            Outcome::Admitted { left, .. } => println!("admitted, {left} left"),
            Outcome::Throttled { wait, .. } => println!("try again in {wait} ms"),
            refused => println!("{refused}"),
        }
    }
    Ok(())
}
