fn main() {
    let mut x = 1;
    let r = &mut x;
    let p = &raw const *r;
    unsafe {
        *r = 2;
        print!("{} ", *p);
        x = 3;
        println!("{}", *p);
    }
}
