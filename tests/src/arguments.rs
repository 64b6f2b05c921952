//! What a test over many seeds is started with: a program, the first seed, how many, and with some tests `alone`.

pub struct Arguments {
    pub program: String,
    pub first: u64,
    pub count: u64,
    pub alone: bool,
}

impl Arguments {
    /// The program's own arguments. Any others get the usage, in which `[alone]` says that it is taken.
    pub fn read(usage: &str) -> Arguments {
        let words: Vec<String> = std::env::args().skip(1).collect();
        let alone = words.len() == 4 && words[3] == "alone" && usage.ends_with("[alone]");
        if words.len() != 3 && !alone {
            eprintln!("use: {}", usage);
            std::process::exit(2);
        }
        Arguments {
            program: words[0].clone(),
            first: words[1].parse().expect("FIRST_SEED is a number"),
            count: words[2].parse().expect("COUNT is a number"),
            alone,
        }
    }

    pub fn seeds(&self) -> impl Iterator<Item = u64> {
        let first = self.first;
        (0..self.count).map(move |step| first.wrapping_add(step))
    }
}
