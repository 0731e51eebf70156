from railcadence import ADMITTED, THROTTLED, Gcra, Plan, Plans

plans = Plans([Plan(limit=3, period=1000, burst=2)])  # 3 units per 1000 ms, up to 2 at once
table = Gcra(slots=300)  # as many as owe something at once
for _ in range(3):
    answer = table.acquire(plans, moment=1000, subscriber=7, plan=0, cost=1)
    if answer.number == ADMITTED:
        print(f"admitted, {answer.left} left")
    elif answer.number == THROTTLED:
        print(f"try again in {answer.wait} ms")
    else:
        print(f"refused with number {answer.number}")
