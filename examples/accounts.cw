// Money is moved between accounts, each transfer in a spawned block of its own: what all have together stays the same.
cell account[4] = 100;

fn move(from, to, amount) {
    atomic {
        if account[from] < amount { amount = account[from]; }
        account[from] = account[from] - amount;
        account[to] = account[to] + amount;
    }
}

fn main(transfers) {
    let i = 0;
    while i < transfers {
        spawn { move(i % 4, (i * 3 + 1) % 4, 10 + i); }
        i = i + 1;
    }
    sync;
    out account[0] + account[1] + account[2] + account[3];
}
