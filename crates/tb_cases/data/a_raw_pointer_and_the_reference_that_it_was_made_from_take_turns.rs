fn main() {
    let mut x = 1;
    let r = &mut x;
    let p = &raw mut *r;
    unsafe { *p = 2; }
    *r = 3;
    unsafe { *p = *r + *p; }
    println!("{}", *r);
}
