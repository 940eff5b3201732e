//! Compares the fetched type of numbers with the numbers of the model, operation by operation.

#[cfg(not(fetched))]
pub fn compare(_millions: u64) -> bool {
    crate::cannot("numbers: the packages are not there, so the numbers rest on 01 alone")
}

#[cfg(fetched)]
pub use with_packages::compare;

#[cfg(fetched)]
mod with_packages {
    use generate::Numbers;
    use model::numbers as paper;
    use oracle_fetched::Fixed;

    struct Row {
        name: &'static str,
        given: u64,
        differ: u64,
        first: Option<[i32; 5]>,
    }

    struct Table(Vec<Row>);

    impl Table {
        fn note(&mut self, name: &'static str, operands: [i32; 3], theirs: i32, ours: i32) {
            let place = self.0.iter().position(|row| std::ptr::eq(row.name, name)).unwrap_or_else(|| {
                self.0.push(Row { name, given: 0, differ: 0, first: None });
                self.0.len() - 1
            });
            let row = &mut self.0[place];
            row.given += 1;
            if theirs != ours {
                row.differ += 1;
                let [a, b, c] = operands;
                row.first.get_or_insert([a, b, c, theirs, ours]);
            }
        }

        fn one(&mut self, a: i32) {
            let x = Fixed::from_bits(a);
            self.note("negation", [a, 0, 0], (-x).to_bits(), paper::neg(a));
            self.note("absolute value", [a, 0, 0], x.abs().to_bits(), paper::abs(a));
            self.note("round", [a, 0, 0], x.round().to_bits(), paper::round(a));
            self.note("fraction", [a, 0, 0], x.fract().to_bits(), paper::fraction(a));
        }

        fn two(&mut self, a: i32, b: i32) {
            let (x, y) = (Fixed::from_bits(a), Fixed::from_bits(b));
            let (mut sum, mut difference) = (x, x);
            sum += y;
            difference -= y;
            self.note("sum", [a, b, 0], (x + y).to_bits(), paper::add(a, b));
            self.note("sum in place", [a, b, 0], sum.to_bits(), paper::add(a, b));
            self.note("wrapping sum", [a, b, 0], x.wrapping_add(y).to_bits(), paper::add(a, b));
            self.note("difference", [a, b, 0], (x - y).to_bits(), paper::sub(a, b));
            self.note("difference in place", [a, b, 0], difference.to_bits(), paper::sub(a, b));
            self.note("wrapping difference", [a, b, 0], x.wrapping_sub(y).to_bits(), paper::sub(a, b));
            self.note("product", [a, b, 0], (x * y).to_bits(), paper::mul(a, b));
            self.note("quotient", [a, b, 0], (x / y).to_bits(), paper::div(a, b));
            self.note("lesser", [a, b, 0], x.min(y).to_bits(), a.min(b));
            self.note("greater", [a, b, 0], x.max(y).to_bits(), a.max(b));
            self.note("order", [a, b, 0], x.cmp(&y) as i32, a.cmp(&b) as i32);
        }

        fn three(&mut self, a: i32, b: i32, c: i32) {
            if c > 0 {
                let [x, y, z] = [a, b, c].map(Fixed::from_bits);
                self.note("a·b/c, c above 0", [a, b, c], x.mul_div(y, z).to_bits(), paper::mul_div(a, b, c));
            }
        }
    }

    /// Numbers whose products and quotients often lie half way between two results.
    fn number(n: &mut Numbers) -> i32 {
        match n.index(4) {
            0 => n.extreme(),
            1 => n.bits() >> n.index(32),
            2 => (n.bits() >> 24) << n.index(24),
            _ => n.bits(),
        }
    }

    fn special() -> Vec<i32> {
        let mut list = vec![39322, 2597, 32767, -32769, 98304, -98304, 21 * 65536, 880 * 65536 + 1];
        for power in 0..32 {
            for near in -2..=2 {
                let value = 1i32.wrapping_shl(power).wrapping_add(near);
                list.extend([value, value.wrapping_neg()]);
            }
        }
        list.sort();
        list.dedup();
        list
    }

    pub fn compare(millions: u64) -> bool {
        let mut table = Table(Vec::new());
        let special = special();
        for &a in &special {
            table.one(a);
            for &b in &special {
                table.two(a, b);
                for &c in special.iter().step_by(3) {
                    table.three(a, b, c);
                }
            }
        }
        let mut n = Numbers::new(1, 2);
        for _ in 0..millions * 1_000_000 {
            let (a, b, c) = (number(&mut n), number(&mut n), number(&mut n));
            table.one(a);
            table.two(a, b);
            table.three(a, b, (c & i32::MAX).max(1));
        }
        for whole in -32768..=32767 {
            table.note(
                "from a whole number",
                [whole, 0, 0],
                Fixed::from_i32(whole).to_bits(),
                whole.wrapping_mul(65536),
            );
        }
        table.note("constant 0.6", [0; 3], Fixed::from_f64(0.6).to_bits(), 39322);
        println!("{:<22} {:>12} {:>8}", "operation", "given", "differ");
        let mut agreed = true;
        for row in &table.0 {
            println!("{:<22} {:>12} {:>8}", row.name, row.given, row.differ);
            if let Some([a, b, c, theirs, ours]) = row.first {
                println!("    first: {a} {b} {c} gives {theirs} there and {ours} here");
                agreed = false;
            }
        }
        agreed
    }
}
