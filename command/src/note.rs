//! `note`: the texts of the comments, which cameras and people leave in a file.

use crate::answer::{Answer, Status};
use crate::check::accepted;
use crate::source::Source;
use crate::{run, shown};

pub fn run(sources: &[Source], raw: bool) -> Status {
    let is_named = sources.len() > 1;
    run::each(sources, run::processors(), |_, source, phases| {
        let name = if is_named { format!("{}: ", source.shown()) } else { String::new() };
        Answer::from(accepted(source, phases).map(|(bytes, record)| {
            tillsparrow::comments_of(&bytes, &record)
                .iter()
                .flat_map(|text| line(&name, text, raw))
                .collect()
        }))
    })
}

fn line(name: &str, text: &[u8], raw: bool) -> Vec<u8> {
    match raw {
        true => [name.as_bytes(), text, b"\n"].concat(),
        false => format!("{name}{}\n", shown::line(text)).into_bytes(),
    }
}

#[cfg(test)]
mod tests {
    use super::line;

    #[test]
    fn a_note_is_a_line_and_raw_is_what_it_is() {
        assert_eq!(line("a.jpg: ", b"row\n\x1b[B", false), b"a.jpg: row\\n\\x1b[B\n");
        assert_eq!(line("", b"row\n\x1b[B", true), b"row\n\x1b[B\n");
        assert_eq!(line("", b"", false), b"\n");
    }
}
