//! Writes the supplier's vectors: `vectors FOLDER`. They are what the proved library answers.

mod line;
mod profiles;
mod refused;
mod scripts;
mod walks;

use profiles::Profile;
use std::collections::BTreeMap;
use std::fs;
use std::io::Result;
use std::path::Path;

fn write(folder: &Path, part: &str, name: &str, text: &str) -> Result<()> {
    let folder = folder.join(part);
    fs::create_dir_all(&folder)?;
    fs::write(folder.join(format!("{name}.csv")), text)
}

/// The answers for a profile, each with its folder: whole walks for every profile, scripts for the small ones.
fn answers(profile: &Profile) -> Vec<(&'static str, String)> {
    let nodes = profile.after.len();
    let (breadth, areas) = walks::breadth_first_and_areas(profile);
    let mut answers = vec![
        ("depth", walks::depth_first(profile)),
        ("breadth", breadth),
        ("areas", areas),
        ("array", walks::array_form(profile)),
    ];
    if nodes <= 70 {
        answers.extend([
            ("scripts/move_by_move", scripts::move_by_move(profile)),
            ("scripts/whole", scripts::whole(profile)),
        ]);
    }
    if nodes <= 13 {
        answers.extend([
            ("scripts/wound_back", scripts::wound_back(profile)),
            ("scripts/turned_back", scripts::turned_back(profile)),
            ("scripts/out_of_kind", scripts::out_of_kind(profile)),
            ("scripts/marks", scripts::marks(profile)),
        ]);
    }
    answers
}

fn main() -> Result<()> {
    let folder = std::env::args().nth(1).expect("usage: vectors FOLDER");
    let folder = Path::new(&folder);
    let profiles = profiles::all();
    let mut written = BTreeMap::new();
    for profile in &profiles {
        write(folder, "profiles", profile.name, &profile.text)?;
        write(folder, "blanks", profile.name, &profile.blank())?;
        let answers = answers(profile);
        for (part, text) in &answers {
            write(folder, part, profile.name, text)?;
        }
        written.insert(profile.name, answers);
    }
    // Zeros before the numbers of a text change no answer.
    assert!(written["padded"] == written["printed"]);
    assert!(written["mixed"] == written["start"]);
    write(folder, "scripts", "panel", &scripts::panel(&profiles[0]))?;
    for (name, text) in refused::texts() {
        write(folder, "refused/texts", name, &text)?;
    }
    write(folder, "refused", "texts", &refused::text_numbers())?;
    write(folder, "refused", "images", &refused::images())?;
    write(folder, "refused", "lists", &refused::lists())?;
    write(folder, "refused", "arrays", &refused::arrays())?;
    write(folder, "refused", "lines", &refused::lines())
}
