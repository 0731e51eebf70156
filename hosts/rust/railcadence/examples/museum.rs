use railcadence::{BadPlans, Gcra, Outcome, Plan, Plans, Reason};

const SHOP: u32 = 0;
const MUSEUM: u32 = 1;

fn main() -> Result<(), BadPlans> {
    let shop = Plan::new(3, 1000, 2); // 3 units per 1000 ms, up to 2 at once
    let museum = Plan::new(10, 1000, 5); // museums pay for more
    let plans = Plans::new(&[shop, museum])?;
    let mut table = Gcra::with_slots(300);

    ask(&mut table, &plans, 1000, SHOP, 7, 2);
    ask(&mut table, &plans, 1000, MUSEUM, 8, 4);
    ask(&mut table, &plans, 1200, MUSEUM, 7, 4); // 7 is a museum now, but owes as a shop: until when?
    match table.peek(&plans, 1200, 7, SHOP).balance {
        Ok(seen) => {
            let reset = seen.reset;
            println!("1200: shop 7 looks: nothing is owed from {reset} on");
            ask(&mut table, &plans, reset, MUSEUM, 7, 4);
        }
        Err(reason) => println!("1200: shop 7 looks: {reason}"),
    }
    Ok(())
}

fn ask(table: &mut Gcra, plans: &Plans, moment: u64, plan: u32, subscriber: u32, cost: u32) {
    let kind = if plan == SHOP { "shop" } else { "museum" };
    print!("{moment}: {kind} {subscriber} asks for {cost}: ");
    match table.acquire(plans, moment, subscriber, plan, cost).outcome {
        Outcome::Admitted { left, .. } => println!("admitted, {left} left"),
        Outcome::Refused(Reason::OtherPlan) => println!("it still owes under another plan"),
        other => println!("{other}"),
    }
}
