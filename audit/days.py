"""Day files for the audit, each from a number alone: generated ones (12 accounts, 30 codes, four cycles of budget 40, no command
refused) and random ones (few accounts with little, payments, deliveries and free deliveries in rings, chains and at random, cycles
of any small budget, and now and then a command that must be refused)."""

import random


def generated(n):
    """The generated day of n: 89 + 16 * n lines."""
    state = n

    def draw(below):
        nonlocal state
        state = (1103515245 * state + 12345) % 2**31
        return state // 65536 % below

    accounts = [f"A{i:02}" for i in range(1, 13)]
    codes = [f"I{i:02}" for i in range(1, 31)]
    lines = [f"080000,PART,{account}" for account in accounts]
    prices = {code: 100 * (1 + draw(100)) for code in codes}
    lines += [f"080000,INST,{code},{prices[code]}" for code in codes]
    lines += [f"080000,ISSUE,{account},MXN,1000000" for account in accounts]
    lines += [f"080000,ISSUE,{accounts[i % 12]},{code},1000" for i, code in enumerate(codes)]
    for hour in range(9, 13):
        for j in range(4 * n * (hour - 9) + 1, 4 * n * (hour - 8) + 1):
            kind, giver, step, code, quantity = draw(3), draw(12), draw(11), codes[draw(30)], 1 + draw(500)
            parties = f"T{j},{accounts[giver]},{accounts[(giver + 1 + step) % 12]}"
            amount = quantity * prices[code]
            lines.append(f"{hour:02}0000," + (f"DVP,{parties},{code},{quantity},{amount}", f"FOP,{parties},{code},{quantity}",
                                              f"PAY,{parties},{amount}")[kind])
        lines.append(f"{hour:02}3000,CYCLE,40")
    return "\n".join(lines + ["140000,CLOSE"]) + "\n"


def random_day(number):
    """A random day of up to some 150 commands."""
    dice = random.Random(number)
    accounts = [f"B{i}" for i in range(dice.randint(2, 9))]
    codes = [f"C{i}" for i in range(dice.randint(1, 4))]
    scale = dice.choice([1, 1, 10, 1000, 10**12])
    second = 8 * 3600
    lines = []

    def say(text):
        nonlocal second
        second += dice.choice([0, 0, 0, 1, 7])
        lines.append(f"{second // 3600:02}{second // 60 % 60:02}{second % 60:02},{text}")

    def amount():
        return dice.randint(1, 9) * scale + dice.choice([0, 0, dice.randint(0, scale)])

    def instruction(giver, taker):
        nonlocal ids
        ids += 1
        kind = dice.choice(["DVP", "PAY", "PAY", "FOP"])
        asset = f",{dice.choice(codes)},{dice.randint(1, 9)}"
        say(f"{kind},T{ids},{giver},{taker}" + {"DVP": f"{asset},{amount()}", "FOP": asset, "PAY": f",{amount()}"}[kind])

    def refused():
        say(dice.choice(["PART,B0", "PART,b", "INST,MXN,5", "ISSUE,NOBODY,MXN,1", f"DRAW,B0,MXN,{10**15}", "PAY,T1,B0,B1,1",
                         "PAY,X1,B0,B0,1", "FOP,X2,B0,B1,MXN,1", "CANCEL,T0", "SETTLE,T0", "CYCLE,4097", "STAT,B", "LEDGER,",
                         "FOP,X3,B0,B1,C0,999999999999999", "EARMARK,B0,MXN,1", "LINK,T1,T2", "RANK,T1,2", "PAY,T,B0,B1,01"]))

    ids = 0
    for account in accounts:
        say(f"PART,{account}")
    for code in codes:
        say(f"INST,{code},{dice.randint(1, 100) * min(scale, 1000)}")
    for account in accounts:
        for asset in ["MXN"] + codes:
            if dice.random() < 0.4:
                say(f"ISSUE,{account},{asset},{amount() if asset == 'MXN' else dice.randint(1, 20)}")
    for _ in range(dice.randint(1, 4)):
        for _ in range(dice.randint(0, 3)):
            ring = dice.sample(accounts, dice.randint(2, len(accounts)))
            for giver, taker in zip(ring, ring[1:] + ring[:dice.randint(0, 1)]):
                instruction(giver, taker)
        for _ in range(dice.randint(0, 20)):
            instruction(*dice.sample(accounts, 2))
            if dice.random() < 0.1:
                refused()
        for _ in range(dice.randint(0, 4)):
            say(dice.choice(["CANCEL", "SETTLE", "SETTLE"]) + f",T{dice.randint(1, max(ids, 1))}")
        if dice.random() < 0.2:
            say(f"CUTOFF,{dice.choice(['DVP', 'FOP', 'PAY'])},{dice.choice(['080000', '093000', '235959'])}")
        say(f"CYCLE,{dice.choice([0, 0, 1, 2, 3, 5, 10, 40, 200])}")
        say(dice.choice(["QUEUE", f"STAT,{accounts[0]}", f"LEDGER,{accounts[-1]}"]))
    say("CLOSE")
    say("QUEUE")
    return "\n".join(lines) + "\n"
