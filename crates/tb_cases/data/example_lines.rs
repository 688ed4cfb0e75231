fn main() {
    print!("one line\ntwo lines\n");
    print!("and a third, ");
    print!("put by two prints\n");
    print!("");
    print!("\n");
    print!("the last one, without its end");
}
