fn main() {
    let mut x = 1;
    let p = &raw mut x;
    let q = p;
    unsafe { *q = 2; print!("{}", *p); *p = 3; }
    println!("{}", x);
}
