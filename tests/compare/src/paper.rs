//! The paper's Table 4: energy against that of plain EDF at full speed.

/// The kept files of the methods, with the table's figures in hundredths.
const TABLE_4: [(&str, u128); 3] = [
    ("paper-three-speeds", 52),
    ("paper-statically-scaled", 64),
    ("paper-full-speed", 100),
];

/// Prints the ratios from the energies of the totals; false where one is not the table's.
pub fn table_4(energy: impl Fn(&str) -> Option<u128>) -> bool {
    let full = energy("paper-full-speed").filter(|&full| full > 0);
    let ratio = |name| Some(hundredths(energy(name)?, full?));
    let mut good = true;
    println!("Table 4");
    for (name, expected) in TABLE_4 {
        let met = ratio(name);
        let told = met.map_or("no total".to_string(), written);
        println!("  {name}: {told}");
        if met != Some(expected) {
            println!("{name}: the paper has {}", written(expected));
            good = false;
        }
    }
    good
}

/// A ratio in hundredths, to the nearest.
fn hundredths(energy: u128, full: u128) -> u128 {
    (200 * energy + full) / (2 * full)
}

fn written(hundredths: u128) -> String {
    format!("{}.{:02}", hundredths / 100, hundredths % 100)
}
