// A text that is refused: a `;` is missing at the end of line 5.
cell c;

fn main() {
    c = 1
    out c;
}
