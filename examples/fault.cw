// A division by the word: by 0 it is a fault of the spawned strand, and ends the run.
cell done;

fn main(d) {
    spawn { out 1; out 10 / d; }
    done = 1;
}
