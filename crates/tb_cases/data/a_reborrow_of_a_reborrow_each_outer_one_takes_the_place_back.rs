fn main() {
    let mut x = 1;
    let a = &mut x;
    let b = &mut *a;
    let c = &mut *b;
    *c = 2;
    *b = 3;
    *a = 4;
    println!("{}", x);
}
