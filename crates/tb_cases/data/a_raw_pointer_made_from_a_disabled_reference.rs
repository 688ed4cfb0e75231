fn main() {
    let mut x = 1;
    let r = &mut x;
    x = 2;
    let p = &raw const *r;
    print!("p ");
    unsafe { print!("{}", *p); }
}
