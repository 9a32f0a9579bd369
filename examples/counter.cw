// As many strands as the word says add one each, in a block of their own: none is lost.
cell c;

fn main(n) {
    let i = 0;
    while i < n {
        spawn { atomic { c = c + 1; } }
        i = i + 1;
    }
    sync;
    out c;
}
