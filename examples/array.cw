// Each element from the third on is the sum of the two before it.
cell a[8] = 1;

fn main() {
    let i = 2;
    while i < 8 {
        a[i] = a[i - 1] + a[i - 2];
        i = i + 1;
    }
    out a[7];
}
