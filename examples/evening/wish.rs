//! The words that the evening is started with.

use crate::Listening;

pub const HELP: &str = "evening: a game with the screen dark, told in words

  --seed N          which evening to play (default 1)
  --evenings N      play N evenings, from the seed on, and print only the counts
  --measured        with --evenings: measure times with care, and print every figure
  --labels WHICH    sleeping (default) or cached: whose labels the transcript has
  --braille         two listeners on each tile: a braille line beside the voice
  --speak FILE.wav  have espeak-ng speak the transcript into a file

--labels and --speak are for one evening, so they do not go with --evenings.
--measured is for many.
Exit status: 0 played; 1 the evening was not spoken, or not told to its end; 2 an argument is wrong.";

/// What the words ask for.
#[derive(Default)]
pub struct Wish {
    pub help: bool,
    pub seed: Option<u64>,
    pub evenings: Option<u64>,
    pub measured: bool,
    pub cached: Option<bool>,
    pub braille: bool,
    pub speak: Option<String>,
}

impl Wish {
    pub fn listening(&self) -> Listening {
        if self.braille {
            Listening::VoiceAndBraille
        } else {
            Listening::Voice
        }
    }
}

/// Reads the words, or says what is wrong with them.
pub fn wish(mut words: impl Iterator<Item = String>) -> Result<Wish, String> {
    let mut wish = Wish::default();
    while let Some(word) = words.next() {
        let mut value = || words.next().ok_or(format!("{word} needs a value"));
        let number = |text: String| text.parse::<u64>().map_err(|_| format!("{word} takes a number, not {text}"));
        match word.as_str() {
            "--help" | "-h" => wish.help = true,
            "--seed" => wish.seed = Some(number(value()?)?),
            "--evenings" => wish.evenings = Some(number(value()?)?),
            "--measured" => wish.measured = true,
            "--labels" => {
                wish.cached = Some(match value()?.as_str() {
                    "cached" => true,
                    "sleeping" => false,
                    other => return Err(format!("--labels takes sleeping or cached, not {other}")),
                })
            }
            "--braille" => wish.braille = true,
            "--speak" => wish.speak = Some(value()?),
            _ => return Err(format!("there is no option {word}; --help says which there are")),
        }
    }
    match (wish.evenings, &wish.speak, wish.cached) {
        (None, ..) if wish.measured => Err("--measured goes with --evenings".to_string()),
        (Some(0), ..) => Err("--evenings takes 1 or more".to_string()),
        (Some(_), Some(_), _) => Err("--speak is for one evening, and does not go with --evenings".to_string()),
        (Some(_), _, Some(_)) => Err("--labels is for one evening, and does not go with --evenings".to_string()),
        (Some(n), ..) if wish.seed.unwrap_or(1).checked_add(n).is_none() => {
            Err("there are not so many evenings after this seed".to_string())
        }
        _ => Ok(wish),
    }
}
