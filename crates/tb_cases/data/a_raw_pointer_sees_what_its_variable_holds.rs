fn main() {
    let mut x = 1;
    let c = &raw const x;
    x = 2;
    unsafe { println!("{}", *c); }
}
