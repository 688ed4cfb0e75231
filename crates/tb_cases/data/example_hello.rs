fn main() {
    print!("Hello, world!\n");
    print!("This text ends ");
    print!("in a second print.\n");
}
