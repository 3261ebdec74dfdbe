fn main() -> Result<(), finder::Refusal> {
    let log = [4, 20, 4, 20, 4, 4, 20, 4, 20, 4];
    let mut border = [0; 10];
    finder::border_table(&log, &mut border)?;
    println!("border table: {border:?}");
    println!("best pattern: {:?}", finder::best_pattern(&log)?);
    println!("{:?}", finder::ceiling(&log)?);
    Ok(())
}
