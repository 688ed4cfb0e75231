fn main() {
    let mut x = 1;
    let a = &mut x;
    *a = 2;
    let b = &x;
    println!("{} {}", *a, *b);
    *a = 3;
}
