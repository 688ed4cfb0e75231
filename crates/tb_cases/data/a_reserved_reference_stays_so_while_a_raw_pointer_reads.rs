fn main() {
    let mut x = 1;
    let p = &raw const x;
    let r = &mut x;
    unsafe { print!("{} ", *p); }
    *r = 2;
    println!("{}", *r);
}
