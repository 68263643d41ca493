//! The words of a command line.

use crate::files::STANDARD;
use godf::{BoundaryMode, Options};

/// ./godf prints the same file.
pub const HELP: &str = include_str!("../help.txt");

/// Options of a solve, which mean nothing where a field is given. `--guidance` is none of them: with it there is a solve.
const SOLVE_OPTIONS: [&str; 6] = [
    "--boundary",
    "--holomorphic",
    "--accurate",
    "--anisotropy",
    "--anisotropy-angle",
    "--iterations",
];

#[derive(Clone, Copy, Debug, PartialEq, Eq)]
pub enum Demo {
    Disk,
    Plate,
    Yard,
}

#[derive(Clone, Debug, PartialEq)]
pub enum Command {
    Help,
    Version,
    Solve { floor: String },
    Refine { floor: String },
    Probe { floor: String, at: [f64; 2] },
    Singularities { floor: String },
    Demo(Demo),
}

impl Command {
    /// The name of the floor that is read.
    pub fn floor(&self) -> Option<&str> {
        match self {
            Self::Help | Self::Version | Self::Demo(_) => None,
            Self::Solve { floor }
            | Self::Refine { floor }
            | Self::Probe { floor, .. }
            | Self::Singularities { floor } => Some(floor),
        }
    }
}

#[derive(Clone, Debug, Default, PartialEq)]
pub struct Arguments {
    /// The options as they were given; a demo has its own where none was.
    pub boundary: Option<BoundaryMode>,
    pub adaptive: Option<f64>,
    pub options: Options,
    pub guidance: Option<f64>,
    pub iterations: Option<usize>,
    pub points: Option<usize>,
    pub svg: Option<String>,
    pub angles: Option<String>,
    pub floor: Option<String>,
    /// The names of all options given.
    given: Vec<String>,
}

impl Arguments {
    /// A solve option that was given, if any.
    pub fn solve_option(&self) -> Option<&str> {
        let mut given = self.given.iter().map(String::as_str);
        given.find(|option| SOLVE_OPTIONS.contains(option))
    }

    pub fn outputs(&self) -> impl Iterator<Item = &String> {
        [&self.svg, &self.angles, &self.floor].into_iter().flatten()
    }
}

fn number<T: std::str::FromStr>(option: &str, word: &str, what: &str) -> Result<T, String> {
    word.parse().map_err(|_| format!("{option} needs {what}, not `{word}`"))
}

fn boundary(word: &str) -> Result<BoundaryMode, String> {
    match word.split_once('=') {
        None if word == "none" => Ok(BoundaryMode::None),
        None if word == "tangent" => Ok(BoundaryMode::Tangent),
        Some(("weak", weight)) => number("--boundary weak=", weight, "a weight").map(BoundaryMode::Weak),
        _ => Err(format!("--boundary needs none, tangent or weak=WEIGHT, not `{word}`")),
    }
}

/// The name of an output file.
fn file(option: &str, word: String) -> Result<Option<String>, String> {
    if word.is_empty() {
        return Err(format!("{option} needs a file name"));
    }
    Ok(Some(word))
}

const UNKNOWN_OPTION: &str = "unknown option";

impl Arguments {
    /// Sets an option to its value.
    fn set(&mut self, option: &str, word: String) -> Result<(), String> {
        let radians = "a number of radians";
        match option {
            "--boundary" => self.boundary = Some(boundary(&word)?),
            "--adaptive" => self.adaptive = Some(number(option, &word, radians)?),
            "--holomorphic" => self.options.holomorphic = number(option, &word, "a number from -1 to 1")?,
            "--anisotropy" => self.options.anisotropy = number(option, &word, "a ratio")?,
            "--anisotropy-angle" => self.options.anisotropy_angle = number(option, &word, radians)?,
            "--guidance" => self.guidance = Some(number(option, &word, "a weight")?),
            "--iterations" => self.iterations = Some(number(option, &word, "a count")?),
            "--points" => self.points = Some(number(option, &word, "a count")?),
            "--svg" => self.svg = file(option, word)?,
            "--angles" => self.angles = file(option, word)?,
            "--floor" => self.floor = file(option, word)?,
            _ => return Err(format!("{UNKNOWN_OPTION} {option}: `godf --help` lists them")),
        }
        Ok(())
    }
}

/// Refuses options that do not apply to the command, and outputs that get in each other's way.
fn check(command: &Command, arguments: &Arguments) -> Result<(), String> {
    let writes = matches!(
        command,
        Command::Solve { .. } | Command::Refine { .. } | Command::Demo(_)
    );
    if !writes && arguments.outputs().next().is_some() {
        return Err("--svg, --angles and --floor apply only to solve, refine and demo".to_string());
    }
    if !writes && arguments.adaptive.is_some() {
        return Err("--adaptive applies only to solve, refine and demo".to_string());
    }
    if arguments.outputs().filter(|name| *name == STANDARD).count() > 1 {
        return Err("only one output can be standard output".to_string());
    }
    let mut names: Vec<&String> = arguments.outputs().filter(|name| *name != STANDARD).collect();
    names.sort();
    if names.windows(2).any(|pair| pair[0] == pair[1]) {
        return Err("two outputs have the same name".to_string());
    }
    if !matches!(command, Command::Demo(_)) && arguments.points.is_some() {
        return Err("--points applies only to demo".to_string());
    }
    let has = |option: &str| arguments.given.iter().any(|given| given == option);
    if has("--anisotropy-angle") && !has("--anisotropy") {
        return Err("--anisotropy-angle applies only with --anisotropy".to_string());
    }
    if matches!(command, Command::Refine { .. }) && arguments.adaptive.is_none() {
        return Err("refine needs --adaptive RADIANS, by how much a field may turn on a triangle".to_string());
    }
    Ok(())
}

fn unexpected(word: &str) -> String {
    format!("unexpected argument `{word}`")
}

fn command(words: &[String]) -> Result<Command, String> {
    let Some((name, rest)) = words.split_first() else {
        return Err("missing command: `godf --help` lists them".to_string());
    };
    let floor = |command: fn(String) -> Command| match rest {
        [floor] => Ok(command(floor.clone())),
        [] => Err(format!("missing floor: `godf {name} FLOOR`, or - for standard input")),
        [_, word, ..] => Err(unexpected(word)),
    };
    match name.as_str() {
        "help" if rest.is_empty() => Ok(Command::Help),
        "help" => Err(unexpected(&rest[0])),
        "solve" => floor(|floor| Command::Solve { floor }),
        "refine" => floor(|floor| Command::Refine { floor }),
        "singularities" => floor(|floor| Command::Singularities { floor }),
        "probe" => match rest {
            [floor, x, y] => Ok(Command::Probe {
                floor: floor.clone(),
                at: [
                    number("probe", x, "a number for X")?,
                    number("probe", y, "a number for Y")?,
                ],
            }),
            [_, _, _, word, ..] => Err(unexpected(word)),
            _ => Err("missing floor or place: `godf probe FLOOR X Y`".to_string()),
        },
        "demo" => match rest {
            [demo] => match demo.as_str() {
                "disk" => Ok(Command::Demo(Demo::Disk)),
                "plate" => Ok(Command::Demo(Demo::Plate)),
                "yard" => Ok(Command::Demo(Demo::Yard)),
                _ => Err(format!("unknown demo `{demo}`: there are disk, plate and yard")),
            },
            [] => Err("missing demo: `godf demo disk`, plate or yard".to_string()),
            [_, word, ..] => Err(unexpected(word)),
        },
        _ => Err(format!("unknown command `{name}`: `godf --help` lists them")),
    }
}

/// Whether a word is an option: it starts with - and is neither a number nor the name of standard input and output.
fn is_option(word: &str) -> bool {
    word.starts_with('-') && word != STANDARD && word.parse::<f64>().is_err()
}

/// Reads a command line, without the program's name. After -- no word is an option.
pub fn parse(line: impl IntoIterator<Item = String>) -> Result<(Command, Arguments), String> {
    let mut line = line.into_iter().peekable();
    let (mut words, mut arguments) = (vec![], Arguments::default());
    while let Some(word) = line.next() {
        if word == "--help" || word == "-h" {
            return Ok((Command::Help, arguments));
        }
        if word == "--version" {
            return Ok((Command::Version, arguments));
        }
        if word == "--" {
            words.extend(line);
            break;
        }
        if !is_option(&word) {
            words.push(word);
            continue;
        }
        let (option, value) = match word.split_once('=') {
            Some((option, value)) => (option.replace('_', "-"), Some(value.to_string())),
            None => (word.replace('_', "-"), None),
        };
        if arguments.given.contains(&option) {
            return Err(format!("{option} is given twice"));
        }
        if option == "--accurate" {
            if value.is_some() {
                return Err("--accurate takes no value".to_string());
            }
            arguments.options.accurate = true;
        } else if let Some(value) = value.or_else(|| line.next_if(|next| !is_option(next))) {
            arguments.set(&option, value)?;
        } else {
            // an unknown option is reported as such, whatever follows it
            return match Arguments::default().set(&option, String::new()) {
                Err(what) if what.starts_with(UNKNOWN_OPTION) => Err(what),
                _ => Err(format!("missing value for {option}")),
            };
        }
        arguments.given.push(option);
    }
    let command = command(&words)?;
    check(&command, &arguments)?;
    Ok((command, arguments))
}

#[cfg(test)]
mod tests {
    use super::*;

    fn parsed(line: &str) -> Result<(Command, Arguments), String> {
        parse(line.split_whitespace().map(str::to_string))
    }

    #[test]
    fn options_as_in_the_reference() {
        let (command, a) = parsed(
            "solve f.txt --boundary weak=2.5 --adaptive 0.2 --holomorphic -0.5 --accurate --anisotropy=4 \
             --anisotropy_angle 0.4 --guidance 3 --iterations 7 --svg a.svg",
        )
        .unwrap();
        assert_eq!(
            command,
            Command::Solve {
                floor: "f.txt".to_string()
            }
        );
        assert_eq!((a.boundary, a.adaptive), (Some(BoundaryMode::Weak(2.5)), Some(0.2)));
        let options = Options::new()
            .accurate(true)
            .holomorphic(-0.5)
            .anisotropy(4.0)
            .anisotropy_angle(0.4);
        assert_eq!((a.options, a.guidance, a.iterations), (options, Some(3.0), Some(7)));
        let (command, _) = parsed("probe - -1.5 2e3").unwrap();
        assert_eq!(
            command,
            Command::Probe {
                floor: "-".to_string(),
                at: [-1.5, 2000.0]
            }
        );
    }

    #[test]
    fn wrong_use() {
        for (line, part) in [
            ("", "missing command"),
            ("solve", "missing floor"),
            ("solve a b", "unexpected argument `b`"),
            ("help me", "unexpected argument `me`"),
            ("slove a", "unknown command `slove`"),
            ("solve a --colour red", "unknown option --colour"),
            ("solve a --colour", "unknown option --colour"),
            ("solve a -x", "unknown option -x"),
            ("solve a --svg", "missing value for --svg"),
            ("solve a --svg --accurate", "missing value for --svg"),
            ("solve a --svg -x", "missing value for --svg"),
            ("solve a --svg --", "missing value for --svg"),
            ("solve a --svg=", "--svg needs a file name"),
            (
                "solve a --adaptive wide",
                "--adaptive needs a number of radians, not `wide`",
            ),
            (
                "solve a --boundary weak",
                "--boundary needs none, tangent or weak=WEIGHT",
            ),
            ("solve a --svg b --svg c", "--svg is given twice"),
            ("solve a --svg b --angles b", "two outputs have the same name"),
            ("solve a --svg - --angles -", "only one output"),
            ("solve a --points 5", "--points applies only to demo"),
            ("probe a 1 2 --adaptive 0.1", "--adaptive applies only to solve"),
            ("singularities a --adaptive nan", "--adaptive applies only to solve"),
            (
                "solve a --anisotropy-angle 1",
                "--anisotropy-angle applies only with --anisotropy",
            ),
            ("solve a --accurate=1", "--accurate takes no value"),
            ("probe a 1", "missing floor or place"),
            ("probe a 1 y", "a number for Y, not `y`"),
            ("probe a 1 2 3", "unexpected argument `3`"),
            ("probe a 1 2 --svg b", "apply only to solve, refine and demo"),
            ("refine a", "refine needs --adaptive"),
            ("demo", "missing demo"),
            ("demo moon", "unknown demo `moon`"),
            ("demo disk plate", "unexpected argument `plate`"),
        ] {
            let message = parsed(line).expect_err(line);
            assert!(message.contains(part), "{line}: {message}");
        }
    }

    #[test]
    fn words_that_start_with_a_dash() {
        let floor = |line| match parsed(line) {
            Ok((Command::Solve { floor }, arguments)) => (floor, arguments.svg),
            other => panic!("{line}: {other:?}"),
        };
        assert_eq!(floor("solve -- --my-floor"), ("--my-floor".to_string(), None));
        assert_eq!(floor("solve --svg a -- -"), ("-".to_string(), Some("a".to_string())));
        assert_eq!(floor("solve a --svg=--b"), ("a".to_string(), Some("--b".to_string())));
        assert_eq!(floor("solve a --svg -"), ("a".to_string(), Some("-".to_string())));
    }

    #[test]
    fn options_of_a_solve_are_known() {
        let option = |line: &str| parsed(line).expect("arguments").1.solve_option().map(str::to_string);
        assert_eq!(option("probe a 1 2 --guidance 3"), None);
        for given in [
            "--boundary none",
            "--holomorphic 0",
            "--accurate",
            "--anisotropy 1",
            "--iterations 100",
        ] {
            let name = given.split(' ').next().map(str::to_string);
            assert_eq!(option(&format!("probe a 1 2 {given}")), name);
        }
    }

    #[test]
    fn the_help_fits_a_screen() {
        assert!(HELP.lines().count() <= 24);
        assert!(HELP.lines().all(|line| line.chars().count() <= 81), "a line too wide");
    }
}
