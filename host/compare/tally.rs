//! How often each answer, rule or kind was met: a comparison in which one is rare shows little of it, and fails.

/// Names of which each must be met in at least one case of so many: `title (1 in 20): name | name`. `10..22` is every number
/// from 10 to 22.
pub type Group = &'static str;

pub struct Tally {
    cases: usize,
    groups: Vec<Counts>,
}

struct Counts {
    title: &'static str,
    one_in: usize,
    /// and how often each was met
    names: Vec<(String, usize)>,
}

pub fn tally(groups: &[Group]) -> Tally {
    let counts = |group: &Group| counts(group).unwrap_or_else(|| panic!("no group: {}", group));
    Tally {
        cases: 0,
        groups: groups.iter().map(counts).collect(),
    }
}

fn counts(group: Group) -> Option<Counts> {
    let (title, rest) = group.split_once(" (1 in ")?;
    let (one_in, names) = rest.split_once("): ")?;
    Some(Counts {
        title,
        one_in: one_in.parse().ok()?,
        names: names.split(" | ").flat_map(named).collect(),
    })
}

fn named(name: &str) -> Vec<(String, usize)> {
    let ends = name.split_once("..");
    let ends = ends.and_then(|(low, high)| Some(low.parse::<u8>().ok()?..=high.parse().ok()?));
    match ends {
        Some(numbers) => numbers.map(|number| (number.to_string(), 0)).collect(),
        None => vec![(name.to_string(), 0)],
    }
}

impl Tally {
    pub fn case(&mut self) {
        self.cases += 1;
    }

    pub fn saw(&mut self, title: &str, name: impl ToString) {
        let name = name.to_string();
        let counts = self.of(title);
        match counts.iter_mut().find(|(known, _)| *known == name) {
            Some((_, count)) => *count += 1,
            None => panic!("{} {} is not among {:?}", title, name, counts),
        }
    }

    pub fn saw_if(&mut self, met: bool, title: &str, name: impl ToString) {
        if met {
            self.saw(title, name);
        }
    }

    /// For each name of the group, in its order, whether it was met.
    pub fn saw_each<const NAMES: usize>(&mut self, title: &str, met: [bool; NAMES]) {
        let counts = self.of(title);
        assert_eq!(counts.len(), NAMES, "the names of {}", title);
        for ((_, count), met) in counts.iter_mut().zip(met) {
            *count += usize::from(met);
        }
    }

    fn of(&mut self, title: &str) -> &mut Vec<(String, usize)> {
        let found = self.groups.iter_mut().find(|group| group.title == title);
        &mut found
            .unwrap_or_else(|| panic!("nothing is counted as {}", title))
            .names
    }

    /// All counts; an error if one of them is too small.
    pub fn words(&self) -> Result<String, String> {
        let mut told = vec![format!("{} cases", self.cases)];
        let mut rare = Vec::new();
        for Counts {
            title,
            one_in,
            names,
        } in &self.groups
        {
            let words = names
                .iter()
                .map(|(name, count)| format!("{}: {}", name, count));
            let words = words.collect::<Vec<_>>().join(", ");
            told.push(format!(
                "{} (each at least 1 in {}) {}",
                title, one_in, words
            ));
            let few = names
                .iter()
                .filter(|(_, count)| count * one_in < self.cases);
            rare.extend(few.map(|(name, count)| format!("{} {}: {}", title, name, count)));
        }
        let told = told.join("; ");
        if rare.is_empty() {
            return Ok(told);
        }
        Err(format!("{}\n  too rare: {}", told, rare.join(", ")))
    }
}
