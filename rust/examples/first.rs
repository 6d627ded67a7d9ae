//! An undo history: each version is a clone, and shares memory until it is edited.

use ecow::{EcoString, EcoVec, Error, Value, eco_format};

fn main() -> Result<(), Error> {
    let mut text = EcoString::from("Copies of a text share its memory.\n").repeat(1000);
    let mut versions = vec![text.clone()];
    for number in 1..=3 {
        text.insert_str(0, &eco_format!("Title {number}\n"));
        versions.push(text.clone());
    }
    println!("{} versions, the last begins with {:?}", versions.len(), &text[..7]);
    println!("the first has {} bytes and begins with {:?}", versions[0].len(), &versions[0][..6]);

    let words: EcoVec<EcoString> = versions[0].split(' ').take(3).map(EcoString::from).collect();
    println!("{} words: {words:?}", words.len());

    let mut settings: Value = [("name", "Ada".into()), ("sizes", Value::new_list())].into_iter().collect();
    let before = settings.clone();
    settings.update_path(&["sizes".into()], |sizes| sizes.push(12))?;
    println!("{before:?} became {settings:?}");
    println!("no field: {}", settings.get_field("colour").unwrap_err());
    Ok(())
}
