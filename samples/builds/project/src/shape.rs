pub struct Shape {
    pub name: String,
    pub side: u32,
}

impl Shape {
    pub fn area(&self) -> u32 {
        self.side * self.side
    }
}
