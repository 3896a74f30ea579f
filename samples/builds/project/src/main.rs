mod shape;

fn main() {
    let shape = shape::Shape { name: String::from("square"), side: 3 };
    println!("{}: {}", shape.name, shape.area());
}
