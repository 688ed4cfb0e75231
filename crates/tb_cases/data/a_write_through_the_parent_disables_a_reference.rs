fn main() {
    let mut x = 1;
    let p = &raw mut x;
    let r = unsafe { &mut *p };
    unsafe { *p = 2; }
    println!("{}", *r);
}
