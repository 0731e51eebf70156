from railcadence import ADMITTED, OTHER_PLAN, Gcra, Plan, Plans

SHOP, MUSEUM = range(2)
plans = Plans([
    Plan(limit=3, period=1000, burst=2),  # 3 units per 1000 ms, up to 2 at once
    Plan(limit=10, period=1000, burst=5),  # museums pay for more
])
table = Gcra(slots=300)


def ask(moment, plan, subscriber, cost):
    answer = table.acquire(plans, moment, subscriber, plan, cost)
    words = {ADMITTED: f"admitted, {answer.left} left", OTHER_PLAN: "it still owes under another plan"}
    kind, said = ["shop", "museum"][plan], words.get(answer.number, f"refused with number {answer.number}")
    print(f"{moment}: {kind} {subscriber} asks for {cost}: {said}")


ask(1000, SHOP, 7, 2)
ask(1000, MUSEUM, 8, 4)
ask(1200, MUSEUM, 7, 4)  # 7 is a museum now, but owes as a shop:
reset = table.peek(plans, 1200, 7, SHOP).reset  # until when?
print(f"1200: shop 7 looks: nothing is owed from {reset} on")
ask(reset, MUSEUM, 7, 4)
