use std::io::Write;

fn main() -> Result<(), Box<dyn std::error::Error>> {
    let mut translator = aggen::Translator::build(&std::fs::read("examples/percentages.ag")?)?;
    match translator.translate(b"30 50 20") {
        Ok(text) => std::io::stdout().write_all(&text)?,
        Err(refusal) => eprintln!("{refusal}"),
    }
    Ok(())
}
